/* Loaded before the C library, it counts the blocks that a process allocates and frees, and at its end appends both
   numbers to the file COUNT_TO. */
#include <stdio.h>
#include <stdlib.h>

extern void *__libc_malloc(size_t);
extern void *__libc_calloc(size_t, size_t);
extern void *__libc_realloc(void *, size_t);
extern void __libc_free(void *);

static unsigned long allocated, freed;

void *malloc(size_t size) {
    void *made = __libc_malloc(size);
    allocated += made != NULL;
    return made;
}

void *calloc(size_t count, size_t size) {
    void *made = __libc_calloc(count, size);
    allocated += made != NULL;
    return made;
}

void *realloc(void *old, size_t size) {
    void *made = __libc_realloc(old, size);
    allocated += made != NULL && !old;
    return made;
}

void free(void *block) {
    freed += block != NULL;
    __libc_free(block);
}

__attribute__((destructor)) static void tell(void) {
    unsigned long made = allocated, gone = freed;
    const char *to = getenv("COUNT_TO");
    FILE *file = to ? fopen(to, "a") : NULL;
    if (!file) return;
    fprintf(file, "%lu %lu\n", made, gone);
    fclose(file);
}
