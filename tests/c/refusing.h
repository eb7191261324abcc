/* Refuses an allocation of the program, which is built with --wrap=malloc and --wrap=realloc, and counts blocks with --wrap=free, too.
 * C11. */
#ifndef REFUSING_H
#define REFUSING_H

#include <stddef.h>

void *__real_malloc(size_t);
void *__real_realloc(void *, size_t);
void __real_free(void *);
void *__wrap_malloc(size_t size);
void *__wrap_realloc(void *memory, size_t size);
void __wrap_free(void *memory);

/* The number of allocations before the refused one; negative if none is refused. */
static long left = -1;

static int is_refused(void) { return left >= 0 && left-- == 0; }

/* How often memory was asked for, and how many blocks are there. */
static long asked = 0, blocks = 0;

void *__wrap_malloc(size_t size) {
    asked++;
    void *memory = is_refused() ? NULL : __real_malloc(size);
    blocks += memory != NULL;
    return memory;
}

void *__wrap_realloc(void *memory, size_t size) {
    asked++;
    void *moved = is_refused() ? NULL : __real_realloc(memory, size);
    blocks += memory == NULL && moved != NULL;
    return moved;
}

#ifdef COUNTS_BLOCKS
void __wrap_free(void *memory) {
    blocks -= memory != NULL;
    __real_free(memory);
}
#endif

/* Whether an allocation was refused since `left` was set. None is refused from here on. */
static int was_refused(void) {
    int was = left < 0;
    left = -1;
    return was;
}

#endif
