/*
 * Names and numbers that collide: whose hashes stand near one another in a table of indexmap, whatever its size, where it hashes
 * by a hasher that begins with a known number. That of std's FoldHasher (core/src/hash/fold.rt of the kit) is the default.
 *
 *     flood names LENGTH COUNT MASK [FIRST]    so many names of so many letters, one a line
 *     flood words COUNT MASK [FIRST]           numbers of 32 bits
 *     flood wide COUNT MASK [FIRST]            numbers of 31 bits, where they are hashed as such of 128
 *     flood procedures COUNT MASK [FIRST]      numbers of procedures of version 1 of program 7
 *
 * The bits of MASK are zero in the 32 bits that the table takes of a hash: its low bits choose the group, and the high eight are
 * the tag that is compared there (indexmap/src/index_table of the kit). With another FIRST number for the hasher the same is made
 * of names and numbers that do not collide: as many, as long, and as far apart.
 */
#include <stdint.h>
#include <stdio.h>
#include <stdlib.h>
#include <string.h>

#define MULTIPLIER 0x9e3779b97f4a7c15u
#define DEFAULT_FIRST 0x243f6a8885a308d3u
#define LETTERS 26
#define LONGEST 64

static uint64_t first = DEFAULT_FIRST;
static uint32_t mask;
static long left;

static uint64_t folded(uint64_t a, uint64_t b) {
    unsigned __int128 product = (unsigned __int128)a * b;
    return (uint64_t)product ^ (uint64_t)(product >> 64);
}

/* A write of at most 8 bytes, which are given as the hasher reads them. */
static uint64_t fed(uint64_t state, uint64_t read, unsigned length) {
    return folded(state ^ read, MULTIPLIER ^ (2 * length));
}

static uint64_t fed_byte(uint64_t state, uint8_t byte) {
    return fed(state, byte | (uint64_t)byte << 8 | (uint64_t)byte << 16, 1);
}

static uint64_t fed_word(uint64_t state, uint32_t word) {
    return fed(state, word | (uint64_t)word << 32, 4);
}

/* A number of 128 bits, which is not negative and has 64 at most. */
static uint64_t fed_wide(uint64_t state, uint64_t number) {
    return folded(number ^ (state + 16), MULTIPLIER);
}

static int collides(uint64_t hash) {
    return ((uint32_t)(hash ^ hash >> 32) & mask) == 0;
}

/* Puts out the names that begin with so many letters, whose hash so far is that. */
static void put_names(char *name, size_t done, size_t length, uint64_t state) {
    for (int letter = 0; letter < LETTERS && left > 0; letter++) {
        uint64_t next = fed_byte(state, (uint8_t)('a' + letter));
        name[done] = (char)('a' + letter);
        if (done + 1 < length) {
            put_names(name, done + 1, length, next);
        } else if (collides(next)) {
            printf("%.*s\n", (int)length, name);
            left--;
        }
    }
}

static uint64_t hash_of_word(uint32_t word) { return fed_word(first, word); }

static uint64_t hash_of_wide(uint32_t number) { return fed_wide(first, number); }

static uint64_t hash_of_procedure(uint32_t number) {
    return fed_word(fed_word(fed_word(first, 7), 1), number);
}

static void put_numbers(uint64_t (*hash)(uint32_t), uint32_t most) {
    for (uint32_t number = 1; number < most && left > 0; number++) {
        if (collides(hash(number))) {
            printf("%u\n", number);
            left--;
        }
    }
}

static int refuse(void) {
    fputs("flood: usage: flood names LENGTH COUNT MASK [FIRST], or words|wide|procedures COUNT MASK [FIRST]\n", stderr);
    return 2;
}

int main(int count, char **words) {
    char name[LONGEST];
    int is_names = count > 2 && strcmp(words[1], "names") == 0, at = is_names ? 3 : 2;
    size_t length = is_names ? strtoul(words[2], NULL, 10) : 0;
    if (count < at + 2 || length > LONGEST || (is_names && length == 0)) return refuse();
    left = atol(words[at]);
    mask = (uint32_t)strtoul(words[at + 1], NULL, 16);
    if (count > at + 2) first = strtoull(words[at + 2], NULL, 16);
    if (is_names) {
        put_names(name, 0, length, fed(first, length, 8));
    } else if (strcmp(words[1], "words") == 0) {
        put_numbers(hash_of_word, UINT32_MAX);
    } else if (strcmp(words[1], "wide") == 0) {
        put_numbers(hash_of_wide, INT32_MAX);
    } else if (strcmp(words[1], "procedures") == 0) {
        put_numbers(hash_of_procedure, UINT32_MAX);
    } else {
        return refuse();
    }
    if (left > 0) fprintf(stderr, "flood: there are %ld less\n", left);
    return left > 0;
}
