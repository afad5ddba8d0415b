/* Preloaded into the program. Each call that makes, renames, changes or syncs a file of the folder DISK_FOLDER, or syncs
 * the folder itself, is told in the file DISK_JOURNAL before it is made: a line with its kind, the file's name, a place
 * and a count, and so many bytes behind it, of a rename the new name. A line with its result follows. At call number
 * DISK_STOP the process ends with status 77, and the call is told and not made. Where DISK_ERROR is set, that call fails
 * with this error instead, and so do those behind it, DISK_TIMES of them in all or one. Calls count from when the file
 * DISK_ARMED is there; where DISK_KIND is set, only those of this kind count. No sync is made, and what is drawn at
 * random is the same each time. */
#define _GNU_SOURCE
#include <errno.h>
#include <fcntl.h>
#include <stdarg.h>
#include <stdio.h>
#include <stdlib.h>
#include <string.h>
#include <sys/stat.h>
#include <sys/syscall.h>
#include <sys/types.h>
#include <unistd.h>

#define STOPPED 77

static const char *setting(const char *name) {
    const char *text = getenv(name);
    if (text == NULL) {
        _exit(STOPPED + 1);
    }
    return text;
}

static void tell(const void *bytes, size_t count) {
    static int journal = -1;
    if (journal < 0) {
        int flags = O_WRONLY | O_CREAT | O_APPEND | O_CLOEXEC;
        journal = (int)syscall(SYS_openat, AT_FDCWD, setting("DISK_JOURNAL"), flags, 0600);
    }
    if (syscall(SYS_write, journal, bytes, count) != (long)count) {
        _exit(STOPPED + 1);
    }
}

/* The name within the folder, "." for the folder itself, or none for what lies elsewhere. */
static const char *within(const char *path) {
    const char *folder = setting("DISK_FOLDER");
    size_t length = strlen(folder);
    if (strncmp(path, folder, length) != 0) {
        return NULL;
    }
    return path[length] == '/' ? path + length + 1 : path[length] == 0 ? "." : NULL;
}

/* The same of an open file. */
static const char *opened(int file) {
    static char path[4096];
    char link[64];
    snprintf(link, sizeof link, "/proc/self/fd/%d", file);
    ssize_t length = readlink(link, path, sizeof path - 1);
    path[length < 0 ? 0 : length] = 0;
    return within(path);
}

/* The number that a setting says, or another where it isn't set. */
static long number_in(const char *name, long otherwise) {
    const char *text = getenv(name);
    return text == NULL ? otherwise : atol(text);
}

/* Whether this call is one that fails, or at which the process ends. */
static int is_chosen(const char *kind) {
    static long calls;
    const char *counted = getenv("DISK_KIND");
    if ((counted != NULL && strcmp(counted, kind) != 0) || access(setting("DISK_ARMED"), F_OK) != 0) {
        return 0;
    }
    long place = ++calls - atol(setting("DISK_STOP"));
    return place >= 0 && place < number_in("DISK_TIMES", 1);
}

/* Tells the call; gives whether it is to fail. */
static int begin(const char *kind, const char *name, off_t place, const void *bytes, size_t count) {
    char line[4200];
    int length = snprintf(line, sizeof line, "%s %s %lld %zu\n", kind, name, (long long)place, count);
    tell(line, (size_t)length);
    if (count > 0) {
        tell(bytes, count);
    }
    if (!is_chosen(kind)) {
        return 0;
    }
    if (getenv("DISK_ERROR") == NULL) {
        _exit(STOPPED);
    }
    return 1;
}

static long end(long result) {
    int error = errno;
    char line[32];
    tell(line, (size_t)snprintf(line, sizeof line, "%ld\n", result));
    errno = error;
    return result;
}

static long fail(void) {
    errno = (int)number_in("DISK_ERROR", EIO);
    return end(-1);
}

ssize_t pwrite(int file, const void *bytes, size_t count, off_t place) {
    const char *name = opened(file);
    if (name == NULL) {
        return syscall(SYS_pwrite64, file, bytes, count, place);
    }
    if (begin("write", name, place, bytes, count)) {
        return fail();
    }
    return end(syscall(SYS_pwrite64, file, bytes, count, place));
}

ssize_t pwrite64(int file, const void *bytes, size_t count, off_t place) { return pwrite(file, bytes, count, place); }

ssize_t write(int file, const void *bytes, size_t count) {
    const char *name = opened(file);
    if (name == NULL) {
        return syscall(SYS_write, file, bytes, count);
    }
    if (begin("write", name, lseek(file, 0, SEEK_CUR), bytes, count)) {
        return fail();
    }
    return end(syscall(SYS_write, file, bytes, count));
}

int ftruncate(int file, off_t length) {
    const char *name = opened(file);
    if (name == NULL) {
        return (int)syscall(SYS_ftruncate, file, length);
    }
    if (begin("cut", name, length, NULL, 0)) {
        return (int)fail();
    }
    return (int)end(syscall(SYS_ftruncate, file, length));
}

int ftruncate64(int file, off_t length) { return ftruncate(file, length); }

int fsync(int file) {
    const char *name = opened(file);
    if (name == NULL) {
        return (int)syscall(SYS_fsync, file);
    }
    if (begin("sync", name, 0, NULL, 0)) {
        return (int)fail();
    }
    return (int)end(0);
}

int fdatasync(int file) { return fsync(file); }

int open(const char *path, int flags, ...) {
    mode_t mode = 0;
    if (flags & O_CREAT) {
        va_list rest;
        va_start(rest, flags);
        mode = va_arg(rest, mode_t);
        va_end(rest);
    }
    const char *name = within(path);
    if (name == NULL || !(flags & O_CREAT) || access(path, F_OK) == 0) {
        return (int)syscall(SYS_openat, AT_FDCWD, path, flags, mode);
    }
    if (begin("make", name, 0, NULL, 0)) {
        return (int)fail();
    }
    return (int)end(syscall(SYS_openat, AT_FDCWD, path, flags, mode));
}

int open64(const char *path, int flags, ...) __attribute__((alias("open")));

int unlink(const char *path) {
    const char *name = within(path);
    if (name == NULL) {
        return (int)syscall(SYS_unlinkat, AT_FDCWD, path, 0);
    }
    if (begin("unlink", name, 0, NULL, 0)) {
        return (int)fail();
    }
    return (int)end(syscall(SYS_unlinkat, AT_FDCWD, path, 0));
}

int rename(const char *from, const char *to) {
    const char *name = within(from);
    if (name == NULL) {
        return (int)syscall(SYS_renameat2, AT_FDCWD, from, AT_FDCWD, to, 0);
    }
    const char *behind = within(to);
    if (begin("rename", name, 0, behind, strlen(behind))) {
        return (int)fail();
    }
    return (int)end(syscall(SYS_renameat2, AT_FDCWD, from, AT_FDCWD, to, 0));
}

int getentropy(void *bytes, size_t count) {
    memset(bytes, 0x5A, count);
    return 0;
}
