/* Makes names that a hash table with a known hash keeps in one place: they agree in the last 13 bits of their hash, by which the
   tables of std and of indexmap choose the group where a name is looked for first.

     colliding string|bytes LENGTH COUNT     prints so many names of so many characters (5 to 32), a line each

   `string` goes by what a String feeds the hasher (its bytes at once, then a byte 255), `bytes` by what a slice of bytes feeds it (its
   length, then byte by byte). The hasher is FoldHasher of Rattle's std, whose first state is fixed. Words are read in the machine's
   order of bytes, which has to be that of the hasher, the lowest first. bench/hostile builds and calls this. */
#include <stdint.h>
#include <stdio.h>
#include <stdlib.h>
#include <string.h>

#define FIRST 0x243f6a8885a308d3u
#define OTHER 0x9e3779b97f4a7c15u
#define GROUPS 8192u

static const char LETTERS[] = "abcdefghijklmnopqrstuvwxyzABCDEFGHIJKLMNOPQRSTUVWXYZ";

static uint64_t fold(uint64_t a, uint64_t b) {
    unsigned __int128 product = (unsigned __int128)a * b;
    return (uint64_t)product ^ (uint64_t)(product >> 64);
}

static uint64_t word(const unsigned char *at) {
    uint64_t it;
    memcpy(&it, at, 8);
    return it;
}

static uint64_t half(const unsigned char *at) {
    uint32_t it;
    memcpy(&it, at, 4);
    return it;
}

/* The state after one write. */
static uint64_t written(uint64_t state, const unsigned char *bytes, size_t n) {
    if (n <= 8) {
        uint64_t few = n >= 4 ? half(bytes) | half(bytes + n - 4) << 32
                              : n > 0 ? bytes[0] | (uint64_t)bytes[n / 2] << 8 | (uint64_t)bytes[n - 1] << 16 : 0;
        return fold(state ^ few, OTHER ^ 2 * n);
    }
    state += n;
    for (size_t block = 0; block < (n - 1) / 16; block++)
        state = fold(word(bytes + 16 * block) ^ state, word(bytes + 16 * block + 8) ^ OTHER);
    return fold(word(bytes + (n > 16 ? n - 16 : 0)) ^ state, word(bytes + n - 8) ^ OTHER);
}

static uint64_t hash(int of_string, const unsigned char *name, size_t n) {
    uint64_t state = FIRST;
    if (of_string) {
        state = written(state, name, n);
        return written(state, (const unsigned char *)"\xff", 1);
    }
    uint64_t length = n;
    state = written(state, (const unsigned char *)&length, 8);
    for (size_t at = 0; at < n; at++)
        state = written(state, name + at, 1);
    return state;
}

int main(int argc, char **argv) {
    if (argc != 4 || (strcmp(argv[1], "string") != 0 && strcmp(argv[1], "bytes") != 0))
        return 2;
    int of_string = strcmp(argv[1], "string") == 0;
    size_t n = strtoul(argv[2], 0, 10);
    unsigned long count = strtoul(argv[3], 0, 10);
    unsigned char name[33] = {0};
    if (n < 5 || n > 32)
        return 2;
    memset(name, 'a', n);
    for (uint64_t tried = 0; count > 0; tried++) {
        uint64_t rest = tried;
        for (size_t at = n; at-- > (n > 7 ? n - 7 : 0); rest /= 52)
            name[at] = LETTERS[rest % 52];
        if (rest > 0)
            return 1;
        uint64_t made = hash(of_string, name, n);
        if (((made ^ made >> 32) & (GROUPS - 1)) == 0) {
            puts((const char *)name);
            count--;
        }
    }
    return 0;
}
