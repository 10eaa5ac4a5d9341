// colliding_names COUNT BITS: prints so many names of eight letters, one a line, whose hashes by the hash maps' own hasher, which is fed no
// seed, agree in so many low bits, so that each is looked for after all others. It multiplies 64 bits to 128 for each byte, and joins the halves
// by xor; the length comes first, and the two halves of the last state are joined by xor.
#include <inttypes.h>
#include <stdio.h>
#include <stdlib.h>

static const uint64_t START = 0x243f6a8885a308d3, MULTIPLIER = 0x9e3779b97f4a7c15;
static long count;
static uint64_t mask;

static uint64_t fold(uint64_t a, uint64_t b) {
    unsigned __int128 product = (unsigned __int128)a * b;
    return (uint64_t)product ^ (uint64_t)(product >> 64);
}

// Names that begin with so many letters, after which the hasher has this state.
static void extend(char *name, int length, uint64_t state) {
    if (length == 8) {
        if (((state ^ state >> 32) & mask) == 0 && count > 0) {
            count--;
            puts(name);
        }
        return;
    }
    for (char letter = 'a'; letter <= 'z' && count > 0; letter++) {
        name[length] = letter;
        extend(name, length + 1, fold(state ^ (uint64_t)letter * 0x010101, MULTIPLIER ^ 2));
    }
}

int main(int argc, char **argv) {
    if (argc != 3) return 2;
    count = atol(argv[1]);
    mask = ((uint64_t)1 << atol(argv[2])) - 1;
    char name[9] = {0};
    extend(name, 0, fold(START ^ 8, MULTIPLIER ^ 16));
    return count > 0;
}
