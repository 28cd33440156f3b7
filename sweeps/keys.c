/*
 * Gives a program the random bytes that a test chooses: so its runs under several keys can be compared, and one
 * without any random bytes can be seen. To be loaded before the C library (LD_PRELOAD). The variable KEY is the
 * number of the byte that is given again and again; where it is not set or empty, there are none to be had.
 */
#include <errno.h>
#include <stdlib.h>
#include <string.h>

int getentropy(void *buffer, size_t length) {
    const char *key = getenv("KEY");
    if (key == NULL || *key == '\0') {
        errno = ENOSYS;
        return -1;
    }
    memset(buffer, atoi(key), length);
    return 0;
}
