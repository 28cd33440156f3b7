/* The client: `client PORT A B` asks the server of that port on this machine. */
#include <arpa/inet.h>
#include <stdio.h>
#include <stdlib.h>
#include "add.h"

static CLIENT *server;

/* What an answer points at; there is none where the call failed. */
static void *
answered(void *answer)
{
    if (answer == NULL) {
        clnt_perror(server, "client");
        exit(1);
    }
    return (answer);
}

int
main(int count, char **words)
{
    struct sockaddr_in address = { .sin_family = AF_INET, .sin_addr.s_addr = htonl(INADDR_LOOPBACK) };
    int connection = RPC_ANYSOCK;
    u_int sum;
    add_1_argument terms;
    divide_1_argument parts;
    quotient *found;

    if (count != 4) {
        fprintf(stderr, "usage: client PORT A B\n");
        return (2);
    }
    address.sin_port = htons(atoi(words[1]));
    server = clnttcp_create(&address, CALC, CALC_V1, &connection, 0, 0);
    if (server == NULL) {
        clnt_pcreateerror("client");
        return (1);
    }
    terms.arg1 = parts.arg1 = strtoul(words[2], NULL, 10);
    terms.arg2 = parts.arg2 = strtoul(words[3], NULL, 10);
    answered(nothing_1(NULL, server));
    sum = *(u_int *)answered(add_1(&terms, server));
    printf("%u + %u = %u (%s)\n", terms.arg1, terms.arg2, sum, *(char **)answered(name_of_1(&sum, server)));
    found = answered(divide_1(&parts, server));
    if (found->exists)
        printf("%u / %u = %u, %u left\n", parts.arg1, parts.arg2, found->quotient_u.parts.whole,
            found->quotient_u.parts.remainder);
    else
        printf("%u / %u has no quotient\n", parts.arg1, parts.arg2);
    clnt_destroy(server);
    return (0);
}
