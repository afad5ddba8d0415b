/* Preloaded before the C library: refuses one request for memory, the one whose number is in
   REFUSE_REQUEST (from 1 on; none by default). At its end the process writes to the file named in
   COUNT_REQUESTS how many there were. */
#include <errno.h>
#include <stdio.h>
#include <stdlib.h>

extern void *__libc_malloc(size_t size);
extern void *__libc_calloc(size_t count, size_t size);
extern void *__libc_realloc(void *block, size_t size);
extern void *__libc_memalign(size_t align, size_t size);

static long asked = 0;

static int refuses(void) {
    static long wanted = -1;
    if (wanted < 0) {
        const char *number = getenv("REFUSE_REQUEST");
        wanted = number ? atol(number) : 0;
    }
    asked += 1;
    if (asked == wanted) {
        errno = ENOMEM;
        return 1;
    }
    return 0;
}

void *malloc(size_t size) { return refuses() ? NULL : __libc_malloc(size); }

void *calloc(size_t count, size_t size) { return refuses() ? NULL : __libc_calloc(count, size); }

void *realloc(void *block, size_t size) { return refuses() ? NULL : __libc_realloc(block, size); }

void *aligned_alloc(size_t align, size_t size) {
    return refuses() ? NULL : __libc_memalign(align, size);
}

int posix_memalign(void **block, size_t align, size_t size) {
    if (refuses()) {
        return ENOMEM;
    }
    *block = __libc_memalign(align, size);
    return *block ? 0 : ENOMEM;
}

__attribute__((destructor)) static void tell(void) {
    const char *name = getenv("COUNT_REQUESTS");
    FILE *file;
    long total = asked;
    if (name && (file = fopen(name, "w"))) {
        fprintf(file, "%ld\n", total);
        fclose(file);
    }
}
