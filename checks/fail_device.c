/* Preloaded into the program: standard input fails once READ_FAILS bytes were read, and standard output, once
 * WRITE_FAILS bytes were written, fails, or takes nothing where WRITE_TAKES_NONE is set. Where FAILS_ONCE is set, it
 * serves again behind its fault: what the program then reads or writes is seen. READ_FILE and WRITE_FILE name another
 * file, as a socket is. */
#define _GNU_SOURCE
#include <dlfcn.h>
#include <errno.h>
#include <stdlib.h>
#include <sys/socket.h>
#include <sys/types.h>
#include <unistd.h>

/* How many bytes the named variable leaves after these, or -1 where it isn't set, or set for one fault that has been. */
static ssize_t left(const char *name, size_t passed, int has_failed) {
    const char *limit = getenv(name);
    if (limit == NULL || (has_failed && getenv("FAILS_ONCE") != NULL)) {
        return -1;
    }
    size_t bytes = strtoul(limit, NULL, 10);
    return bytes > passed ? (ssize_t)(bytes - passed) : 0;
}

static size_t lesser(size_t one, ssize_t other) {
    return other >= 0 && (size_t)other < one ? (size_t)other : one;
}

/* The file that the named variable names. */
static int named(const char *name, int otherwise) {
    const char *file = getenv(name);
    return file ? atoi(file) : otherwise;
}

typedef ssize_t (*reading)(int, void *, size_t, int);
typedef ssize_t (*writing)(int, const void *, size_t, int);

static ssize_t plain_read(int file, void *bytes, size_t count, int flags) {
    static ssize_t (*real)(int, void *, size_t);
    (void)flags;
    if (real == NULL) {
        real = (ssize_t (*)(int, void *, size_t))dlsym(RTLD_NEXT, "read");
    }
    return real(file, bytes, count);
}

static ssize_t plain_write(int file, const void *bytes, size_t count, int flags) {
    static ssize_t (*real)(int, const void *, size_t);
    (void)flags;
    if (real == NULL) {
        real = (ssize_t (*)(int, const void *, size_t))dlsym(RTLD_NEXT, "write");
    }
    return real(file, bytes, count);
}

static ssize_t read_by(reading real, int file, void *bytes, size_t count, int flags) {
    static size_t passed;
    static int has_failed;
    if (file != named("READ_FILE", STDIN_FILENO)) {
        return real(file, bytes, count, flags);
    }
    ssize_t room = left("READ_FAILS", passed, has_failed);
    if (room == 0) {
        has_failed = 1;
        errno = EIO;
        return -1;
    }
    ssize_t got = real(file, bytes, lesser(count, room), flags);
    if (got > 0) {
        passed += (size_t)got;
    }
    return got;
}

static ssize_t write_by(writing real, int file, const void *bytes, size_t count, int flags) {
    static size_t passed;
    static int has_failed;
    if (file != named("WRITE_FILE", STDOUT_FILENO)) {
        return real(file, bytes, count, flags);
    }
    ssize_t room = left("WRITE_FAILS", passed, has_failed);
    if (room == 0) {
        has_failed = 1;
        errno = EIO;
        return getenv("WRITE_TAKES_NONE") == NULL ? -1 : 0;
    }
    ssize_t taken = real(file, bytes, lesser(count, room), flags);
    if (taken > 0) {
        passed += (size_t)taken;
    }
    return taken;
}

ssize_t read(int file, void *bytes, size_t count) { return read_by(plain_read, file, bytes, count, 0); }

ssize_t write(int file, const void *bytes, size_t count) { return write_by(plain_write, file, bytes, count, 0); }

ssize_t recv(int file, void *bytes, size_t count, int flags) {
    return read_by((reading)dlsym(RTLD_NEXT, "recv"), file, bytes, count, flags);
}

ssize_t send(int file, const void *bytes, size_t count, int flags) {
    return write_by((writing)dlsym(RTLD_NEXT, "send"), file, bytes, count, flags);
}

/* Of a message in parts the named file is handed the first part that isn't empty. */
ssize_t sendmsg(int file, const struct msghdr *message, int flags) {
    for (size_t part = 0; file == named("WRITE_FILE", STDOUT_FILENO) && part < message->msg_iovlen; part++) {
        if (message->msg_iov[part].iov_len > 0) {
            return send(file, message->msg_iov[part].iov_base, message->msg_iov[part].iov_len, flags);
        }
    }
    return ((ssize_t (*)(int, const struct msghdr *, int))dlsym(RTLD_NEXT, "sendmsg"))(file, message, flags);
}
