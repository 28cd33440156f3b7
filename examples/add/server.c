/* The server: what the procedures do, and a loop that finds each call's row in the table. It prints its port. */
#include <arpa/inet.h>
#include <stdio.h>
#include <stdlib.h>
#include "add.h"

extern struct rpcgen_table calc_1_table[];
extern int calc_1_nproc;

typedef char *served(void *argument, struct svc_req *request);

void *
nothing_1_svc(void *argument, struct svc_req *request)
{
    static char result;

    return (&result);
}

u_int *
add_1_svc(add_1_argument *argument, struct svc_req *request)
{
    static u_int result;

    result = argument->arg1 + argument->arg2;
    return (&result);
}

quotient *
divide_1_svc(divide_1_argument *argument, struct svc_req *request)
{
    static quotient result;

    result.exists = argument->arg2 != 0;
    if (result.exists) {
        result.quotient_u.parts.whole = argument->arg1 / argument->arg2;
        result.quotient_u.parts.remainder = argument->arg1 % argument->arg2;
    }
    return (&result);
}

char **
name_of_1_svc(u_int *argument, struct svc_req *request)
{
    static char *names[] = { "zero", "one", "two", "three", "many" };

    return (&names[*argument < 4 ? *argument : 4]);
}

static struct rpcgen_table *
row_of(rpcproc_t number)
{
    int k;

    for (k = 0; k < calc_1_nproc; k++)
        if (calc_1_table[k].number == number)
            return (&calc_1_table[k]);
    return (NULL);
}

static void
serve(struct svc_req *request, SVCXPRT *transport)
{
    struct rpcgen_table *row = row_of(request->rq_proc);
    char *argument, *result;

    if (row == NULL) {
        svcerr_noproc(transport);
        return;
    }
    argument = calloc(1, row->argument_size + 1);
    if (argument == NULL || !svc_getargs(transport, row->argument, argument)) {
        svcerr_decode(transport);
    } else {
        result = ((served *)row->function)(argument, request);
        if (result == NULL || !svc_sendreply(transport, row->result, result))
            svcerr_systemerr(transport);
        svc_freeargs(transport, row->argument, argument);
    }
    free(argument);
}

int
main(void)
{
    struct sockaddr_in address = { .sin_family = AF_INET, .sin_addr.s_addr = htonl(INADDR_LOOPBACK) };
    socklen_t length = sizeof (address);
    int listening = socket(AF_INET, SOCK_STREAM, 0);
    SVCXPRT *transport;

    if (listening < 0 || bind(listening, (struct sockaddr *)&address, length) < 0 ||
        listen(listening, SOMAXCONN) < 0 || getsockname(listening, (struct sockaddr *)&address, &length) < 0) {
        perror("server");
        return (1);
    }
    transport = svctcp_create(listening, 0, 0);
    /* Protocol 0: nothing is told to the port mapper. */
    if (transport == NULL || !svc_register(transport, CALC, CALC_V1, serve, 0)) {
        fprintf(stderr, "server: no service\n");
        return (1);
    }
    printf("%d\n", ntohs(address.sin_port));
    fflush(stdout);
    svc_run();
    return (1);
}
