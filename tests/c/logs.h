/* Reads logs from standard input, each behind its size in 8 little-endian bytes, into memory that ends where the log
 * ends: the page behind it can't be read. C11 and C++. */
#ifndef LOGS_H
#define LOGS_H

#include <stdint.h>
#include <stdio.h>
#include <stdlib.h>
#include <sys/mman.h>
#include <unistd.h>

typedef struct guarded_log {
    uint8_t *mapping;
    size_t mapped;
    uint8_t *bytes;
    size_t size;
} guarded_log;

static inline void require(int holds, const char *what) {
    if (!holds) {
        fflush(stdout);
        fprintf(stderr, "%s\n", what);
        exit(9);
    }
}

/* Whether there is a further log. */
static inline int next_log(guarded_log *log) {
    uint8_t head[8];
    if (fread(head, 1, sizeof head, stdin) < sizeof head) {
        return 0;
    }
    uint64_t size = 0;
    for (int place = 7; place >= 0; place--) {
        size = size << 8 | head[place];
    }
    size_t page = (size_t)sysconf(_SC_PAGESIZE);
    size_t pages = (size + page - 1) / page * page;
    void *mapping = mmap(NULL, pages + page, PROT_READ | PROT_WRITE, MAP_PRIVATE | MAP_ANONYMOUS, -1, 0);
    require(mapping != MAP_FAILED, "no memory");
    log->mapping = (uint8_t *)mapping;
    log->mapped = pages + page;
    log->bytes = log->mapping + (pages - size);
    log->size = size;
    require(fread(log->bytes, 1, size, stdin) == size, "a log is cut");
    require(mprotect(log->mapping, pages + page, PROT_READ) == 0, "the log can't be protected");
    require(mprotect(log->mapping + pages, page, PROT_NONE) == 0, "the page behind it can't be protected");
    return 1;
}

static inline void free_log(guarded_log *log) { munmap(log->mapping, log->mapped); }

#endif
