/* Preloaded into the program. Where FIXED_MOMENT is set, the machine's clock stands at that second since 1970, and where
 * MOMENT_FILE is set, at the second that stands in this file at each look. Where FASTER is set, all other time runs so
 * many times as fast: the clocks that measure it, the limits of reads and writes on sockets, and the waits for them. */
#define _GNU_SOURCE
#include <fcntl.h>
#include <stdlib.h>
#include <sys/epoll.h>
#include <sys/socket.h>
#include <sys/syscall.h>
#include <sys/time.h>
#include <time.h>
#include <unistd.h>

static long long setting(const char *name, long long otherwise) {
    const char *text = getenv(name);
    return text ? atoll(text) : otherwise;
}

/* What the file of this name says, read without a call that another library could take for one of the program's. */
static long long number_in(const char *name) {
    char text[24] = "";
    long file = syscall(SYS_openat, AT_FDCWD, name, O_RDONLY);
    if (file >= 0) {
        syscall(SYS_read, file, text, sizeof text - 1);
        syscall(SYS_close, file);
    }
    return atoll(text);
}

int clock_gettime(clockid_t clock, struct timespec *moment) {
    if (syscall(SYS_clock_gettime, clock, moment) != 0) {
        return -1;
    }
    if (clock == CLOCK_REALTIME) {
        const char *file = getenv("MOMENT_FILE");
        if (file || getenv("FIXED_MOMENT")) {
            moment->tv_sec = file ? number_in(file) : setting("FIXED_MOMENT", 0);
            moment->tv_nsec = 0;
        }
        return 0;
    }
    unsigned long long passed = moment->tv_sec * 1000000000ULL + moment->tv_nsec;
    passed *= setting("FASTER", 1);
    moment->tv_sec = passed / 1000000000ULL;
    moment->tv_nsec = passed % 1000000000ULL;
    return 0;
}

int setsockopt(int file, int level, int option, const void *value, socklen_t size) {
    if (level == SOL_SOCKET && (option == SO_RCVTIMEO || option == SO_SNDTIMEO)) {
        const struct timeval *asked = value;
        long long wait = (asked->tv_sec * 1000000LL + asked->tv_usec) / setting("FASTER", 1);
        struct timeval shorter = {wait / 1000000, wait > 0 ? wait % 1000000 : 1};
        return syscall(SYS_setsockopt, file, level, option, &shorter, sizeof shorter);
    }
    return syscall(SYS_setsockopt, file, level, option, value, size);
}

int epoll_wait(int poll, struct epoll_event *events, int most, int timeout) {
    long long faster = setting("FASTER", 1);
    int shorter = timeout > 0 ? (int)((timeout + faster - 1) / faster) : timeout;
    return (int)syscall(SYS_epoll_pwait, poll, events, most, shorter, NULL, 0);
}
