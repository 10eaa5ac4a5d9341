// A library: a list of words that grows, in the first page of the memory. Its program stands in the second.

#define MOST 1000

static int words[MOST];
static int count;

// Appends a word, and answers how many there are: 0 where there is no room.
__attribute__((export_name("push"))) int push(int word) {
  if (count == MOST) return 0;
  words[count++] = word;
  return count;
}

__attribute__((export_name("length"))) int length(void) { return count; }

// Puts what the program makes of each word in its place. This import is bound to the program's export.
__attribute__((import_module("env"), import_name("change"))) int change(int word);

__attribute__((export_name("change_all"))) void change_all(void) {
  for (int k = 0; k < count; k++) words[k] = change(words[k]);
}

// The sum of what a function makes of each word: a call through the library's own table.
static int itself(int word) { return word; }

static int square(int word) { return word * word; }

static int (*const measures[])(int) = {itself, square};

__attribute__((export_name("sum"))) int sum(int measure) {
  int all = 0;
  for (int k = 0; k < count; k++) all += measures[measure & 1](words[k]);
  return all;
}
