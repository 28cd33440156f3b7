/* A row of the table that `rpcgen -t` writes: what a server needs to know of a procedure. */
#ifndef TABLE_H
#define TABLE_H
#include <rpc/rpc.h>

struct rpcgen_table {
    u_int number;
    char *(*function)();    /* takes a pointer to the argument and the request, and gives a pointer to the result */
    xdrproc_t argument;
    u_int argument_size;
    xdrproc_t result;
    u_int result_size;
};

#endif
