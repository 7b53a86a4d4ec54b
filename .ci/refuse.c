/* Loaded before the C library, it refuses one call of a program: REFUSE_GROWTH=n the n-th growth of memory by any
   allocation function of the C library, REFUSE_READ=n the n-th read of standard input, REFUSE_WRITE=n the n-th write to
   standard output, as a full disk does, with EACH_FILE=1 also those of files, and REFUSE_CHANGE=n the n-th call that
   creates, flushes or renames a file or sets its mode. SHORT=1 makes every such read and write move one byte at most.
   With COUNT_TO=FILE the numbers of growths, reads, writes, changes and refusals are written there at the end. */
#define _GNU_SOURCE
#include <dlfcn.h>
#include <errno.h>
#include <fcntl.h>
#include <stdarg.h>
#include <stdio.h>
#include <stdlib.h>
#include <sys/stat.h>
#include <unistd.h>

static unsigned long growths, reads, writes, changes, refused;

static unsigned long wanted(const char *name) {
    const char *value = getenv(name);
    return value ? strtoul(value, NULL, 10) : 0;
}

static int refuses(unsigned long *count, const char *name) {
    return ++*count == wanted(name);
}

static int is_counted(int file, int standard) {
    return file == standard || (file > STDERR_FILENO && wanted("EACH_FILE"));
}

/* What the C library calls its own allocation functions. */
extern void *__libc_malloc(size_t);
extern void *__libc_calloc(size_t, size_t);
extern void *__libc_realloc(void *, size_t);
extern void *__libc_memalign(size_t, size_t);
extern void *__libc_valloc(size_t);
extern void *__libc_pvalloc(size_t);

static int refuses_growth(void) {
    if (!refuses(&growths, "REFUSE_GROWTH")) return 0;
    refused++;
    errno = ENOMEM;
    return 1;
}

void *malloc(size_t size) {
    return refuses_growth() ? NULL : __libc_malloc(size);
}

void *calloc(size_t count, size_t size) {
    return refuses_growth() ? NULL : __libc_calloc(count, size);
}

void *realloc(void *old, size_t size) {
    return refuses_growth() ? NULL : __libc_realloc(old, size);
}

void *reallocarray(void *old, size_t count, size_t size) {
    size_t whole;
    if (__builtin_mul_overflow(count, size, &whole)) {
        errno = ENOMEM;
        return NULL;
    }
    return realloc(old, whole);
}

void *memalign(size_t alignment, size_t size) {
    return refuses_growth() ? NULL : __libc_memalign(alignment, size);
}

void *aligned_alloc(size_t alignment, size_t size) {
    return memalign(alignment, size);
}

int posix_memalign(void **made, size_t alignment, size_t size) {
    if (alignment == 0 || alignment % sizeof(void *) || alignment & (alignment - 1)) return EINVAL;
    void *found = memalign(alignment, size);
    if (!found) return ENOMEM;
    *made = found;
    return 0;
}

void *valloc(size_t size) {
    return refuses_growth() ? NULL : __libc_valloc(size);
}

void *pvalloc(size_t size) {
    return refuses_growth() ? NULL : __libc_pvalloc(size);
}

ssize_t read(int file, void *buffer, size_t size) {
    static ssize_t (*next)(int, void *, size_t);
    if (!next) next = dlsym(RTLD_NEXT, "read");
    if (is_counted(file, STDIN_FILENO)) {
        if (refuses(&reads, "REFUSE_READ")) {
            refused++;
            errno = EIO;
            return -1;
        }
        if (wanted("SHORT") && size > 1) size = 1;
    }
    return next(file, buffer, size);
}

ssize_t write(int file, const void *buffer, size_t size) {
    static ssize_t (*next)(int, const void *, size_t);
    if (!next) next = dlsym(RTLD_NEXT, "write");
    if (is_counted(file, STDOUT_FILENO)) {
        if (refuses(&writes, "REFUSE_WRITE")) {
            refused++;
            errno = ENOSPC;
            return -1;
        }
        if (wanted("SHORT") && size > 1) size = 1;
    }
    return next(file, buffer, size);
}

static int refuses_change(void) {
    if (!refuses(&changes, "REFUSE_CHANGE")) return 0;
    refused++;
    errno = EACCES;
    return 1;
}

int open(const char *path, int flags, ...) {
    static int (*next)(const char *, int, ...);
    va_list rest;
    if (!next) next = dlsym(RTLD_NEXT, "open");
    if (!(flags & O_CREAT)) return next(path, flags);
    va_start(rest, flags);
    mode_t mode = va_arg(rest, mode_t);
    va_end(rest);
    return refuses_change() ? -1 : next(path, flags, mode);
}

int fchmod(int file, mode_t mode) {
    static int (*next)(int, mode_t);
    if (!next) next = dlsym(RTLD_NEXT, "fchmod");
    return refuses_change() ? -1 : next(file, mode);
}

int fsync(int file) {
    static int (*next)(int);
    if (!next) next = dlsym(RTLD_NEXT, "fsync");
    return refuses_change() ? -1 : next(file);
}

int rename(const char *from, const char *to) {
    static int (*next)(const char *, const char *);
    if (!next) next = dlsym(RTLD_NEXT, "rename");
    return refuses_change() ? -1 : next(from, to);
}

__attribute__((destructor)) static void tell(void) {
    unsigned long grew = growths, had_refused = refused;
    const char *path = getenv("COUNT_TO");
    FILE *file = path ? fopen(path, "w") : NULL;
    if (!file) return;
    fprintf(file, "%lu %lu %lu %lu %lu\n", grew, reads, writes, changes, had_refused);
    fclose(file);
}
