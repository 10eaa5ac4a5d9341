// A program over the library's list. Both see one memory.

#define FROM(name) __attribute__((import_module("env"), import_name(#name)))

FROM(push) int push(int word);
FROM(length) int length(void);
FROM(change_all) void change_all(void);
FROM(sum) int sum(int measure);
FROM(log) void log_word(int word);  // of the host: neither module exports it

static int step = 3;

__attribute__((export_name("set_step"))) void set_step(int by) { step = by; }

// What the library calls for each word.
__attribute__((export_name("change"))) int change(int word) { return word + step; }

// The words 1 to n, each changed, and the sums of them and of their squares.
__attribute__((export_name("run"))) int run(int n) {
  for (int k = 1; k <= n; k++) push(k);
  change_all();
  log_word(length());
  log_word(sum(0));
  return sum(1);
}
