// Asks for memory and fills it, eight equal bytes at once, as a `memset` does: by a product of 64 bits.
#include <stddef.h>
#include <stdint.h>

void *sbrk(intptr_t more);

// Eight-byte words that are filled with this byte, or 0 where there is no room for them.
__attribute__((export_name("filled"))) uint64_t *filled(uint8_t byte, uint32_t count) {
  uint64_t *words = sbrk((intptr_t)count * 8);
  if (words == (void *)-1) return 0;
  uint64_t word = byte * 0x0101010101010101u;
  for (uint32_t k = 0; k < count; k++) words[k] = word;
  return words;
}
