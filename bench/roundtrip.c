/*
 * Runs what rpcgen wrote, which is a library that is loaded before all others: in a program too its routines
 * are found before those of libtirpc.
 *
 *   LD_PRELOAD=LIBRARY roundtrip LIBRARY <LINES
 *
 * Each line is a task; `-` stands for no bytes:
 *
 *   value ROUTINE HEX                                the routine reads these bytes whole, and writes them again
 *   call STUB NUMBER ROUTINE HEX ROUTINE HEX         the stub calls the procedure of this number, sends the bytes
 *                                                    of its argument, and gives the value of those of its result
 *   row TABLE INDEX NUMBER SERVICE ROUTINE ROUTINE   the table has this row
 *   count NAME NUMBER                                the number of rows is this
 *
 * Prints each task that fails, with why, and at last how many did not.
 */
#include "../examples/add/table.h"
#include <dlfcn.h>
#include <stdio.h>
#include <stdlib.h>
#include <string.h>
#include <sys/resource.h>

enum { WORDS = 8, LINE = 1 << 17, MOST = 1 << 16, VALUE = 1 << 24 };

struct bytes {
    char data[MOST];
    unsigned size;
};

typedef bool_t (*routine)(XDR *, void *);

static void *library;
static const char *wrong;

/* What the server of a call is sent, and what it answers. */
static struct bytes sent, answer;
static rpcproc_t called;

static void *found(const char *name)
{
    void *symbol = dlsym(library, name);
    if (!symbol) wrong = "a name is missing";
    return symbol;
}

static void read_hex(const char *hex, struct bytes *to)
{
    unsigned byte;
    to->size = 0;
    while (sscanf(hex, "%2x", &byte) == 1) {
        to->data[to->size++] = (char)byte;
        hex += 2;
    }
}

static void decode(routine of, void *value, struct bytes *from)
{
    XDR xdrs;
    xdrmem_create(&xdrs, from->data, from->size, XDR_DECODE);
    if (!of(&xdrs, value)) wrong = "the bytes are refused";
    else if (xdr_getpos(&xdrs) != from->size) wrong = "some bytes are left";
}

static void encode(routine of, void *value, struct bytes *to)
{
    XDR xdrs;
    to->size = 0;
    xdrmem_create(&xdrs, to->data, MOST, XDR_ENCODE);
    if (!of(&xdrs, value)) wrong = "the value is refused";
    else to->size = xdr_getpos(&xdrs);
}

static void compare(const struct bytes *one, const struct bytes *other)
{
    if (!wrong && (one->size != other->size || memcmp(one->data, other->data, one->size)))
        wrong = "other bytes are written";
}

/* Reads the value of these bytes, which the caller frees. */
static void *value_of(routine of, struct bytes *from)
{
    void *value = calloc(1, VALUE);
    if (of) decode(of, value, from);
    return value;
}

static void run_value(char **words)
{
    static struct bytes right, got;
    routine of = (routine)found(words[1]);
    void *value;
    if (!of) return;
    read_hex(words[2], &right);
    value = value_of(of, &right);
    if (!wrong) encode(of, value, &got);
    compare(&right, &got);
    if (!wrong) xdr_free((xdrproc_t)of, value);
    free(value);
}

/* The server: keeps what it is sent, and answers. */
static enum clnt_stat serve(CLIENT *client, rpcproc_t number, xdrproc_t argument, void *value, xdrproc_t result,
                            void *answered, struct timeval timeout)
{
    (void)client;
    (void)timeout;
    called = number;
    encode((routine)argument, value, &sent);
    decode((routine)result, answered, &answer);
    return RPC_SUCCESS;
}

static void run_call(char **words)
{
    static struct bytes right, got;
    static struct clnt_ops operations;
    CLIENT client;
    void *(*stub)(void *, CLIENT *) = (void *(*)(void *, CLIENT *))found(words[1]);
    routine argument = (routine)found(words[3]), result = (routine)found(words[5]);
    void *value, *given;
    if (wrong) return;
    memset(&client, 0, sizeof client);
    operations.cl_call = serve;
    client.cl_ops = &operations;
    read_hex(words[4], &right);
    read_hex(words[6], &answer);
    value = value_of(argument, &right);
    given = wrong ? NULL : stub(value, &client);
    if (!wrong && !given) wrong = "there is no result";
    if (!wrong && called != strtoul(words[2], NULL, 10)) wrong = "another procedure is called";
    compare(&right, &sent);
    if (!wrong) encode(result, given, &got);
    compare(&answer, &got);
    free(value);
}

static void run_row(char **words)
{
    struct rpcgen_table *row = found(words[1]);
    void *service = found(words[4]), *argument = found(words[5]), *result = found(words[6]);
    if (wrong) return;
    row += atoi(words[2]);
    if (row->number != strtoul(words[3], NULL, 10)) wrong = "the row has another number";
    else if ((void *)row->function != service || (void *)row->argument != argument || (void *)row->result != result)
        wrong = "the row has another function";
}

static void run_count(char **words)
{
    int *count = found(words[1]);
    if (!wrong && *count != atoi(words[2])) wrong = "the number of rows is another";
}

static void run(char **words)
{
    wrong = NULL;
    if (!strcmp(words[0], "value")) run_value(words);
    else if (!strcmp(words[0], "call")) run_call(words);
    else if (!strcmp(words[0], "row")) run_row(words);
    else run_count(words);
}

int main(int argc, char **argv)
{
    static char line[LINE];
    struct rlimit most = { 1 << 30, 1 << 30 };
    int right = 0;
    library = argc == 2 ? dlopen(argv[1], RTLD_NOW) : NULL;
    if (!library) {
        fprintf(stderr, "roundtrip: %s\n", argc == 2 ? dlerror() : "one LIBRARY is wanted");
        return 2;
    }
    setrlimit(RLIMIT_AS, &most);
    while (fgets(line, sizeof line, stdin)) {
        char *words[WORDS] = { NULL };
        int count = 0;
        for (char *word = strtok(line, " \n"); word && count < WORDS; word = strtok(NULL, " \n")) words[count++] = word;
        run(words);
        if (wrong) printf("%s %s: %s\n", words[0], words[1], wrong);
        else right++;
        fflush(stdout);
    }
    printf("%d\n", right);
    return 0;
}
