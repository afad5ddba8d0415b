/* Preloaded into the program. Each sync takes SYNC_MS milliseconds longer, as on a slower disk. */
#define _GNU_SOURCE
#include <stdlib.h>
#include <sys/syscall.h>
#include <time.h>
#include <unistd.h>

static int later(long result) {
    const char *text = getenv("SYNC_MS");
    long nanoseconds = text ? (long)(atof(text) * 1e6) : 0;
    struct timespec wait = {nanoseconds / 1000000000, nanoseconds % 1000000000};
    clock_nanosleep(CLOCK_MONOTONIC, 0, &wait, NULL); /* which leaves errno as it is */
    return (int)result;
}

int fsync(int file) { return later(syscall(SYS_fsync, file)); }

int fdatasync(int file) { return later(syscall(SYS_fdatasync, file)); }
