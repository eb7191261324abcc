/* Asks the library for the line of JSON of each item of each log on standard input, which logs.h reads, alone and of two in one
 * call, and by a cache, while each allocation in turn is refused. What a cache keeps takes less memory in later calls, and is freed with
 * it. Built with --wrap=malloc, --wrap=realloc and --wrap=free. Prints how many calls were refused. */
#define _DEFAULT_SOURCE
#define COUNTS_BLOCKS
#include "binlog.h"
#include "logs.h"
#include "refusing.h"
#include <string.h>

enum { ROOM = 1 << 16 };

/* How often memory is refused before there is a line. */
static size_t check_item(const guarded_log *log, const binlog_item *item, uint64_t index) {
    static char text[ROOM], filler[ROOM];
    memset(filler, 0xa5, ROOM);
    for (long refused = 0;; refused++) {
        memset(text, 0xa5, ROOM);
        uint8_t error = 77;
        left = refused;
        size_t size = binlog_json(log->bytes, log->size, item, NULL, 0, index, text, ROOM, &error);
        if (!was_refused()) {
            require(error == BINLOG_OK && size > 1 && text[0] == '{', "with memory there is a line");
            return (size_t)refused;
        }
        require(error == BINLOG_MEMORY && size == 0, "without memory there is that error");
        require(memcmp(text, filler, ROOM) == 0, "without memory nothing is written");
    }
}

/* The same of a call for two items, of which the second needs no memory of its own. */
static size_t check_items(const guarded_log *log, const binlog_item *item, uint64_t index) {
    static char text[2 * ROOM];
    binlog_item items[2] = {*item, *item};
    for (long refused = 0;; refused++) {
        memset(text, 0xa5, sizeof text);
        uint8_t error = 77;
        size_t lines = 77;
        left = refused;
        size_t size = binlog_json_lines(log->bytes, log->size, items, 2, NULL, 0, index, text, sizeof text, &lines, &error);
        if (!was_refused()) {
            require(error == BINLOG_OK && lines == 2, "with memory there are both lines");
            return (size_t)refused;
        }
        require(error == BINLOG_MEMORY && lines < 2, "without memory there is that error");
        require(lines == 1 ? text[0] == '{' && text[size - 1] == '\n' : size == 0, "the lines before it are written");
        require((unsigned char)text[size] == 0xa5, "without memory nothing else is written");
    }
}

/* How often memory is asked for, for a line without a cache and by one that is kept. */
static long asked_without = 0, asked_by_cache = 0;

/* The same of a line by a cache, which serves also behind the refusal, and of a line by one that is kept. */
static size_t check_cached(const guarded_log *log, const binlog_item *item, uint64_t index, binlog_cache *kept) {
    static char wanted[ROOM], text[ROOM], filler[ROOM];
    memset(filler, 0xa5, ROOM);
    uint8_t error = 77;
    long before = asked, there = blocks;
    size_t size = binlog_json(log->bytes, log->size, item, NULL, 0, index, wanted, ROOM, &error);
    require(error == BINLOG_OK && size <= ROOM && blocks == there, "there is a line, and its memory is freed");
    asked_without += asked - before;
    before = asked;
    require(binlog_json_cached(log->bytes, log->size, item, NULL, 0, index, text, ROOM, kept, &error) == size &&
                error == BINLOG_OK && memcmp(text, wanted, size) == 0,
            "by a cache that is kept there is the same line");
    asked_by_cache += asked - before;
    there = blocks;
    for (long refused = 0;; refused++) {
        binlog_cache cache = {0};
        memset(text, 0xa5, ROOM);
        error = 77;
        left = refused;
        size_t written = binlog_json_cached(log->bytes, log->size, item, NULL, 0, index, text, ROOM, &cache, &error);
        int was = was_refused();
        require(error == BINLOG_OK ? written == size && memcmp(text, wanted, size) == 0
                                   : was && error == BINLOG_MEMORY && written == 0 && memcmp(text, filler, ROOM) == 0,
                "there is the line, or no memory and nothing is written");
        require(cache.is_kept || was, "with memory something is kept");
        written = binlog_json_cached(log->bytes, log->size, item, NULL, 0, index, text, ROOM, &cache, &error);
        require(error == BINLOG_OK && written == size && memcmp(text, wanted, size) == 0, "the cache serves again");
        binlog_cache_free(&cache);
        require(!cache.is_kept && blocks == there, "all of its memory is freed");
        if (!was) {
            return (size_t)refused;
        }
    }
}

int main(void) {
    size_t refused = 0;
    binlog_cache kept = {0};
    binlog_cache_free(&kept);
    require(!kept.is_kept && blocks == 0, "nothing is freed of a cache that keeps nothing");
    for (guarded_log log; next_log(&log); free_log(&log)) {
        binlog_cursor cursor = {0, 0, 0};
        binlog_item item;
        memset(&item, 0, sizeof item);
        uint8_t error = binlog_open(log.bytes, log.size, &cursor);
        for (uint64_t index = 0; error == 0; index++) {
            if (binlog_next(log.bytes, log.size, &cursor, &item, 1, &error) == 0) {
                break;
            }
            refused += check_item(&log, &item, index);
            refused += check_items(&log, &item, index);
            refused += check_cached(&log, &item, index, &kept);
        }
    }
    require(asked_by_cache < asked_without, "a cache that is kept takes less memory for a line");
    binlog_cache_free(&kept);
    binlog_cache_free(&kept);
    require(!kept.is_kept && blocks == 0, "a cache is freed once, however often that is asked for");
    printf("%zu refused\n", refused);
    return refused > 0 ? 0 : 9;
}
