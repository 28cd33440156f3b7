/*
 * Refuses allocations of a program. To be loaded before the C library (LD_PRELOAD). `./test sweeps` builds
 * it, and runs compiled tests over it. Which allocations are refused is said by
 *   - the variable REFUSE: that of this number, counting from 1, alone, or with all after it where REFUSE_ONWARD is set;
 *   - the program itself, between two marks: a mark is an allocation of a size that nothing else asks for, as
 *     the crate `refusals` makes them. The first says from which number on, and whether that one alone or all
 *     after it too. The second ends it, and is refused where one was refused in between.
 * When the program ends it says on standard error how many there were: the program itself may have gone on
 * without the memory.
 */
#define _GNU_SOURCE
#include <dlfcn.h>
#include <stdio.h>
#include <stdlib.h>
#include <unistd.h>

/* The sizes of marks, as they stand in crates/refusals: to the first two, which are odd, twice the number is added. */
#define ONE 30000001u
#define ONWARD 40000001u
#define END 50000001u
#define MOST 1000000u

/* The number of the next allocation to be refused, from the next one on; 0: none is refused. */
static long left = -1;
static int goes_on;
static int is_refused_since_mark;
static unsigned long marks;
static unsigned long refused;

static int is_refused(void) {
    if (left < 0) {
        const char *number = getenv("REFUSE");
        left = number == NULL ? 0 : atol(number);
        goes_on = getenv("REFUSE_ONWARD") != NULL;
    }
    if (left == 0) return 0;
    if (left > 1) {
        left--;
        return 0;
    }
    if (!goes_on) left = 0;
    is_refused_since_mark = 1;
    refused++;
    return 1;
}

/* Where the size is that of a first mark of this kind, begins what it says. */
static int begins(size_t size, size_t mark, int kind) {
    if (size <= mark || size > mark + 2 * MOST || size % 2 == 0) return 0;
    left = (long)((size - mark) / 2);
    goes_on = kind;
    is_refused_since_mark = 0;
    marks++;
    return 1;
}

static int ends(size_t size) {
    if (size != END) return 0;
    left = 0;
    return 1;
}

__attribute__((destructor)) static void tell(void) {
    char line[80];
    int length = snprintf(line, sizeof line, "marks %lu, refused %lu\n", marks, refused);
    if (write(2, line, (size_t)length) < 0) _exit(1);
}

void *malloc(size_t size) {
    static void *(*next)(size_t);
    if (next == NULL) next = (void *(*)(size_t))dlsym(RTLD_NEXT, "malloc");
    if (begins(size, ONE, 0) || begins(size, ONWARD, 1)) return next(size);
    if (ends(size)) return is_refused_since_mark ? NULL : next(size);
    return is_refused() ? NULL : next(size);
}

void *realloc(void *old, size_t size) {
    static void *(*next)(void *, size_t);
    if (next == NULL) next = (void *(*)(void *, size_t))dlsym(RTLD_NEXT, "realloc");
    return is_refused() ? NULL : next(old, size);
}
