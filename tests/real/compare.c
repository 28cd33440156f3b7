/*
 * Compares XDR routines of two libraries, by random values.
 *
 *   compare THEIRS OURS COUNT SEED ROUTINE..
 *
 * Random words are decoded by both, which must take as many bytes of them, or both refuse them. What THEIRS
 * takes it encodes again: these bytes OURS must decode whole, and encode the same. (The random words are not
 * compared with what is encoded: of a word for a `char`, THEIRS keeps a byte.) Prints a line for each
 * routine: its name, how many values were compared, and what differed first, if anything.
 */
#include <dlfcn.h>
#include <rpc/rpc.h>
#include <stdio.h>
#include <stdlib.h>
#include <string.h>
#include <sys/resource.h>

enum { WORDS = 256, MOST = 1 << 16, VALUE = 1 << 20, TRIES = 200 };

typedef bool_t (*routine)(XDR *, void *);

static unsigned long long state;

static unsigned random_of(unsigned bound)
{
    state = state * 6364136223846793005ULL + 1442695040888963407ULL;
    return (unsigned)(state >> 33) % bound;
}

/* Most words are small, since they may be lengths, discriminants and whether a link follows. */
static void fill(unsigned char *bytes)
{
    for (int k = 0; k < WORDS; k++) {
        unsigned kind = random_of(10), word = random_of(2);
        if (kind >= 5) word = random_of(9);
        if (kind == 8) word = random_of(1 << 16) << 16 | random_of(1 << 16);
        if (kind == 9) word = 0x61616161u + random_of(26) * 0x01000100u;
        bytes[4 * k] = word >> 24;
        bytes[4 * k + 1] = word >> 16;
        bytes[4 * k + 2] = word >> 8;
        bytes[4 * k + 3] = word;
    }
}

/* How many bytes were taken, or -1. */
static long decode(routine of, void *value, unsigned char *bytes, unsigned count)
{
    XDR xdrs;
    memset(value, 0, VALUE);
    xdrmem_create(&xdrs, (char *)bytes, count, XDR_DECODE);
    return of(&xdrs, value) ? (long)xdr_getpos(&xdrs) : -1;
}

/* How many bytes it takes, or -1. */
static long encode(routine of, void *value, unsigned char *bytes)
{
    XDR xdrs;
    xdrmem_create(&xdrs, (char *)bytes, MOST, XDR_ENCODE);
    return of(&xdrs, value) ? (long)xdr_getpos(&xdrs) : -1;
}

static void compare(const char *name, routine theirs, routine ours, int count)
{
    static unsigned char words[4 * WORDS], right[MOST], got[MOST];
    char *value = malloc(VALUE);
    const char *differs = NULL;
    int compared = 0;
    for (long tries = (long)TRIES * count; tries > 0 && compared < count && !differs; tries--) {
        long taken, size;
        fill(words);
        taken = decode(theirs, value, words, sizeof words);
        size = taken < 0 ? -1 : encode(theirs, value, right);
        xdr_free((xdrproc_t)theirs, value);
        if (decode(ours, value, words, sizeof words) != taken) differs = "what is taken differs";
        xdr_free((xdrproc_t)ours, value);
        if (differs || size < 0) continue;
        if (decode(ours, value, right, (unsigned)size) != size) differs = "is not decoded";
        else if (encode(ours, value, got) != size || memcmp(got, right, size))
            differs = "is encoded as other bytes";
        xdr_free((xdrproc_t)ours, value);
        compared++;
    }
    printf("%s %d %s\n", name, compared, differs ? differs : "");
    fflush(stdout);
    free(value);
}

static void *opened(const char *path)
{
    void *library = dlopen(path, RTLD_LAZY | RTLD_LOCAL);
    if (!library) {
        fprintf(stderr, "%s\n", dlerror());
        exit(2);
    }
    return library;
}

int main(int argc, char **argv)
{
    struct rlimit most = { 1 << 29, 1 << 29 };
    void *theirs, *ours;
    if (argc < 5) return 2;
    theirs = opened(argv[1]);
    ours = opened(argv[2]);
    setrlimit(RLIMIT_AS, &most);
    for (int k = 5; k < argc; k++) {
        state = strtoull(argv[4], NULL, 10) + k;
        compare(argv[k], (routine)dlsym(theirs, argv[k]), (routine)dlsym(ours, argv[k]), atoi(argv[3]));
    }
    return 0;
}
