// Prints whole numbers of up to 64 bits by a `printf` of its own, which has nothing of floating point: what a C library's brings in is refused (B10).
#include <stdarg.h>
#include <stdint.h>

// What the host gives: it takes the characters from `from` on.
__attribute__((import_module("env"), import_name("write"))) void host_write(const char *from, uint32_t length);

static void put_number(uint64_t n, uint32_t base) {
  char digits[20];
  uint32_t at = sizeof digits;
  do digits[--at] = "0123456789abcdef"[n % base];
  while (n /= base);
  host_write(digits + at, sizeof digits - at);
}

// %d and %x of 32 bits, %lld of 64, and %%.
static void print(const char *format, ...) {
  va_list list;
  va_start(list, format);
  for (; *format; format++) {
    if (*format != '%') {
      host_write(format, 1);
      continue;
    }
    int wide = format[1] == 'l' && format[2] == 'l';
    format += wide ? 3 : 1;
    int64_t n = wide ? va_arg(list, int64_t) : *format == '%' ? 0 : va_arg(list, int);
    if (*format == '%' || (*format == 'd' && n < 0)) host_write(*format == '%' ? "%" : "-", 1);
    if (*format == 'd') put_number(n < 0 ? 0 - (uint64_t)n : (uint64_t)n, 10);
    if (*format == 'x') put_number((uint32_t)n, 16);
  }
  va_end(list);
}

__attribute__((export_name("show"))) void show(int64_t whole, int64_t part) { print("%lld of %lld: %d%%, or 0x%x thousandths\n", part, whole, (int)(part * 100 / whole), (int)(part * 1000 / whole)); }
