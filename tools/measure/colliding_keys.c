/* Writes keys, one a line, whose hashes end in so many zero bits: a hash table of at most so many bits of groups
 * looks for all of them from one place on. The hash is the library's default one, whose seed is fixed: if the
 * program's tables had it, whoever writes blocks could find such keys. For tools/measure/measure-hostile.
 *
 *     colliding_keys COUNT BITS */
#include <stdint.h>
#include <stdio.h>
#include <stdlib.h>
#include <string.h>

enum { KEY_BYTES = 12, PREFIX_BYTES = 4, DIGITS = 36 };

static const uint64_t initial = 0x243f6a8885a308d3, multiplier = 0x9e3779b97f4a7c15;
static const char digits[] = "abcdefghijklmnopqrstuvwxyz0123456789";

static uint64_t folded_multiply(uint64_t a, uint64_t b)
{
    unsigned __int128 product = (unsigned __int128)a * b;
    return (uint64_t)product ^ (uint64_t)(product >> 64);
}

/* The state after one byte more, which is written by itself. */
static uint64_t after(uint64_t state, char byte)
{
    return folded_multiply(state ^ (uint64_t)(uint8_t)byte * 0x010101, multiplier ^ 2);
}

int main(int count, char **words)
{
    long wanted = count == 3 ? atol(words[1]) : 0;
    uint32_t mask = count == 3 ? ((uint32_t)1 << atoi(words[2])) - 1 : 0;
    char key[KEY_BYTES] = "raw/";
    int drawn[KEY_BYTES] = { 0 };
    /* The state before each byte of the key; its length is written first, in eight bytes. */
    uint64_t states[KEY_BYTES + 1] = { folded_multiply(initial ^ KEY_BYTES, multiplier ^ 16) };
    int changed = 0;
    while (wanted > 0) {
        for (int n = changed; n < KEY_BYTES - 1; n++) {
            if (n >= PREFIX_BYTES)
                key[n] = digits[drawn[n]];
            states[n + 1] = after(states[n], key[n]);
        }
        for (int n = 0; n < DIGITS && wanted > 0; n++) {
            uint64_t hash = after(states[KEY_BYTES - 1], digits[n]);
            if ((((uint32_t)hash ^ (uint32_t)(hash >> 32)) & mask) == 0) {
                key[KEY_BYTES - 1] = digits[n];
                printf("%.*s\n", KEY_BYTES, key);
                wanted--;
            }
        }
        changed = KEY_BYTES - 2;
        while (changed >= PREFIX_BYTES && ++drawn[changed] == DIGITS)
            drawn[changed--] = 0;
        if (changed < PREFIX_BYTES)
            return 1;
    }
    return 0;
}
