/* Names chosen against a table that hashes with a fixed seed.

   names COUNT prints so many names of six bytes, a line each, whose hashes agree in their low 14
   bits: that of the length and then of each byte, each folded into a state of 64 bits by the
   multiplication of core::hash::FoldHasher, and the two halves of the state joined. */
#include <stdint.h>
#include <stdio.h>
#include <stdlib.h>

enum { LENGTH = 6, LETTERS = 64, LOW_BITS = (1 << 14) - 1 };
static const uint64_t SEED = 0x243f6a8885a308d3, MULTIPLIER = 0x9e3779b97f4a7c15;
static const char letters[] = "abcdefghijklmnopqrstuvwxyzABCDEFGHIJKLMNOPQRSTUVWXYZ0123456789-_";

static uint64_t folded(uint64_t a, uint64_t b) {
    unsigned __int128 product = (unsigned __int128)a * b;
    return (uint64_t)product ^ (uint64_t)(product >> 64);
}

static uint64_t after_length(uint64_t length) { return folded(SEED ^ length, MULTIPLIER ^ 16); }

static uint64_t after_byte(uint64_t state, unsigned char byte) {
    return folded(state ^ byte * 0x010101u, MULTIPLIER ^ 2);
}

static char name[LENGTH + 1];
static long left;

/* Prints the names with these first bytes that hash to 0 in the low bits, as many as are left. */
static void print_names(uint64_t state, int place) {
    for (int i = 0; i < LETTERS && left > 0; i++) {
        name[place] = letters[i];
        uint64_t next = after_byte(state, letters[i]);
        if (place + 1 < LENGTH) {
            print_names(next, place + 1);
        } else if (((next ^ next >> 32) & LOW_BITS) == 0) {
            puts(name);
            left--;
        }
    }
}

int main(int argc, char **argv) {
    left = argc == 2 ? atol(argv[1]) : 0;
    print_names(after_length(LENGTH), 0);
    return left > 0;
}
