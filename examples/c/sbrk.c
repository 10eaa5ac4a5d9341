// `sbrk` for a memory of a fixed size, so that a `malloc` above it asks for no `memory.grow`: it hands out what lies between the
// program's own bytes, whose end wasm-ld names `__heap_base`, and the memory's end.
#include <stddef.h>
#include <stdint.h>

extern char __heap_base[];

void *sbrk(intptr_t more) {
  static char *at = __heap_base;
  size_t used = at - __heap_base, left = __builtin_wasm_memory_size(0) * 65536 - (size_t)at;
  if (more < 0 ? 0 - (size_t)more > used : (size_t)more > left) return (void *)-1;
  char *before = at;
  at += more;
  return before;
}
