/* Preloaded into the program. While REFUSE_ACCEPTS is more than the connections that were refused, one that waits to be accepted
 * isn't, as where the process may open no file more; it goes on waiting. */
#define _GNU_SOURCE
#include <errno.h>
#include <poll.h>
#include <stdlib.h>
#include <sys/socket.h>
#include <sys/syscall.h>
#include <unistd.h>

static int refuses(int file) {
    static long refused;
    const char *most = getenv("REFUSE_ACCEPTS");
    struct pollfd waiting = {file, POLLIN, 0};
    if (most == NULL || refused >= atol(most) || poll(&waiting, 1, 0) != 1) {
        return 0;
    }
    refused += 1;
    errno = EMFILE;
    return 1;
}

int accept4(int file, struct sockaddr *address, socklen_t *size, int flags) {
    return refuses(file) ? -1 : (int)syscall(SYS_accept4, file, address, size, flags);
}

int accept(int file, struct sockaddr *address, socklen_t *size) { return accept4(file, address, size, 0); }
