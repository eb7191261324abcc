/* Watches the allocations of the program that it is preloaded into. It writes a line for each to the descriptor
 * ALLOCATION_REPORT: the bytes that there were, and those that are asked for. The allocation whose number, counted from
 * 1, is REFUSED_ALLOCATION is refused, and its line is `refused`. Both are numbers in the environment. When the program
 * exits, a line `peak` says the most bytes that were allocated at a time, and a line `left` how many blocks were allocated
 * and not freed. */
#include <errno.h>
#include <malloc.h>
#include <stdio.h>
#include <stdlib.h>
#include <string.h>
#include <unistd.h>

void *__libc_malloc(size_t size);
void *__libc_calloc(size_t count, size_t size);
void *__libc_realloc(void *old, size_t size);
void __libc_free(void *block);

static long asked = 0;
static long blocks = 0;
static size_t bytes = 0;
static size_t peak = 0;

static long number(const char *name) {
    const char *text = getenv(name);
    return text == NULL ? -1 : atol(text);
}

static void report(const char *line) {
    if (write((int)number("ALLOCATION_REPORT"), line, strlen(line)) != (ssize_t)strlen(line))
        abort();
}

static int is_refused(size_t old, size_t size) {
    char line[64];
    asked += 1;
    if (asked == number("REFUSED_ALLOCATION")) {
        report("refused\n");
        errno = ENOMEM;
        return 1;
    }
    snprintf(line, sizeof line, "%zu %zu\n", old, size);
    report(line);
    return 0;
}

static void more(size_t size) {
    bytes += size;
    if (bytes > peak)
        peak = bytes;
}

static void *counted(void *block) {
    blocks += block != NULL;
    more(malloc_usable_size(block));
    return block;
}

void *malloc(size_t size) { return is_refused(0, size) ? NULL : counted(__libc_malloc(size)); }

void *calloc(size_t count, size_t size) {
    return is_refused(0, count * size) ? NULL : counted(__libc_calloc(count, size));
}

void *realloc(void *old, size_t size) {
    if (old == NULL)
        return malloc(size);
    size_t before = malloc_usable_size(old);
    if (is_refused(before, size))
        return NULL;
    void *block = __libc_realloc(old, size);
    if (block == NULL)
        return NULL;
    /* A block that has moved was there twice. */
    bytes -= block == old ? before : 0;
    more(malloc_usable_size(block));
    bytes -= block == old ? 0 : before;
    return block;
}

void free(void *block) {
    blocks -= block != NULL;
    bytes -= malloc_usable_size(block);
    __libc_free(block);
}

__attribute__((destructor)) static void report_blocks(void) {
    char line[64];
    snprintf(line, sizeof line, "peak %zu\n", peak);
    report(line);
    snprintf(line, sizeof line, "left %ld\n", blocks);
    report(line);
}
