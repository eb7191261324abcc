/* Prints the lines of JSON of the logs on standard input, which logs.h reads, and behind each log `status N`, where N is the
 * exit status of `binlog json`. With an argument, `verified`, checksums are verified. Checks that a line is written if there is
 * room for it, and nothing if there is room for one byte less, and that nothing behind it is written; and that one call for many
 * items writes the same lines, as many as there is room for; and that they are the same by caches, which are kept over all logs. */
#define _DEFAULT_SOURCE
#include "binlog.h"
#include "logs.h"
#include "table_maps.h"
#include <inttypes.h>
#include <string.h>

enum { ROOM = 64 };

typedef size_t fill_call(const uint8_t *, size_t, binlog_cursor *, binlog_item *, size_t, uint8_t *);

static fill_call *fill = binlog_next;

/* Kept over all logs: one for calls of one item, and one for calls of many. */
static binlog_cache cache, cache_of_lines;

/* A page that can't be read is behind the text's room. */
static char *guarded_text(size_t room, void **mapping, size_t *mapped) {
    size_t page = (size_t)sysconf(_SC_PAGESIZE);
    size_t pages = (room + page - 1) / page * page;
    *mapped = pages + page;
    *mapping = mmap(NULL, *mapped, PROT_READ | PROT_WRITE, MAP_PRIVATE | MAP_ANONYMOUS, -1, 0);
    require(*mapping != MAP_FAILED, "no memory");
    require(mprotect((char *)*mapping + pages, page, PROT_NONE) == 0, "the page behind it can't be protected");
    return (char *)*mapping + (pages - room);
}

/* The line of a mismatch has the bytes of both checksums. */
static void check_mismatch(const binlog_item *item, uint64_t index, const char *line, size_t size) {
    char wanted[128];
    const uint8_t *stored = item->checksum;
    uint32_t right = item->computed_checksum;
    int length = snprintf(wanted, sizeof wanted,
                          "{\"index\":%" PRIu64 ",\"error\":17,\"stored\":\"%02x%02x%02x%02x\",\"computed\":\"%02x%02x%02x%02x\"}\n",
                          index, stored[0], stored[1], stored[2], stored[3], right & 0xff, right >> 8 & 0xff,
                          right >> 16 & 0xff, right >> 24);
    require((size_t)length == size && memcmp(wanted, line, size) == 0, "a mismatch has both checksums");
}

/* Items whose lines one call writes: none of their row events needs other table maps than these. */
typedef struct together {
    binlog_item items[ROOM];
    size_t count;
    uint64_t index; /* of the first item */
    binlog_item *maps;
    size_t map_count;
    int has_rows;
    char *lines; /* the lines of the items, by a call for each */
    size_t size;
    size_t last; /* the size of the last line */
} together;

static void check_error(const guarded_log *log, const together *all, char *text) {
    binlog_item items[ROOM];
    memcpy(items, all->items, all->count * sizeof *items);
    size_t wrong = all->count / 2;
    items[wrong].log_pos ^= 1;
    size_t lines = 77;
    uint8_t error = 77;
    size_t size = binlog_json_lines(log->bytes, log->size, items, all->count, all->maps, all->map_count, all->index, text,
                                    all->size, &lines, &error);
    require(error == BINLOG_INVALID_ITEM && lines == wrong, "an item that isn't one of the log ends the lines");
    require(memcmp(text, all->lines, size) == 0, "the lines before it are written");
    size_t again = binlog_json_lines_cached(log->bytes, log->size, items, all->count, all->maps, all->map_count, all->index, text,
                                            all->size, &cache_of_lines, &lines, &error);
    require(error == BINLOG_INVALID_ITEM && lines == wrong && again == size, "it ends the lines by a cache, too");
    require(memcmp(text, all->lines, size) == 0, "the lines before it are written by a cache, too");
}

/* Checks one call for these items, and begins again without items. */
static void check_together(const guarded_log *log, together *all) {
    if (all->count == 0) {
        return;
    }
    char *text = (char *)malloc(all->size + 1);
    require(text != NULL, "no memory");
    memset(text, 'x', all->size + 1);
    size_t lines = 77;
    uint8_t error = 77;
    size_t size = binlog_json_lines(log->bytes, log->size, all->items, all->count, all->maps, all->map_count, all->index,
                                    text, all->size, &lines, &error);
    require(error == 0 && lines == all->count && size == all->size, "all lines are written into just their room");
    require(memcmp(text, all->lines, size) == 0 && text[size] == 'x', "they are the lines of a call for each");
    memset(text, 'x', all->size + 1);
    size = binlog_json_lines(log->bytes, log->size, all->items, all->count, all->maps, all->map_count, all->index, text,
                             all->size - 1, &lines, &error);
    require(error == 0 && lines == all->count - 1 && size == all->size - all->last, "the last one has no room");
    require(memcmp(text, all->lines, size) == 0 && text[size] == 'x', "nothing is written of it");
    check_error(log, all, text);
    memset(text, 'x', all->size + 1);
    size = binlog_json_lines_cached(log->bytes, log->size, all->items, all->count, all->maps, all->map_count, all->index, text,
                                    all->size, &cache_of_lines, &lines, &error);
    require(error == 0 && lines == all->count && size == all->size, "all lines are written by a cache");
    require(memcmp(text, all->lines, size) == 0 && text[size] == 'x', "they are the lines without a cache");
    free(text);
    all->count = 0;
    all->size = 0;
    all->has_rows = 0;
}

/* Puts an item to the others. A row event that needs other table maps than those is the first of the next call. */
static void put_together(const guarded_log *log, together *all, const binlog_item *item, const table_maps *maps, size_t count,
                         uint64_t index) {
    int is_row_event = item->error == 0 && is_rows_type(item->event_type);
    int same = count == all->map_count && (count == 0 || memcmp(maps->found, all->maps, count * sizeof *all->maps) == 0);
    if (all->count == ROOM || (is_row_event && all->has_rows && !same)) {
        check_together(log, all);
    }
    if (is_row_event && !all->has_rows) {
        all->maps = (binlog_item *)realloc(all->maps, (count + 1) * sizeof *all->maps);
        require(all->maps != NULL, "no memory");
        if (count > 0) {
            memcpy(all->maps, maps->found, count * sizeof *all->maps);
        }
        all->map_count = count;
        all->has_rows = 1;
    }
    if (all->count == 0) {
        all->index = index;
    }
    all->items[all->count++] = *item;
}

static void put_line(together *all, const char *line, size_t size) {
    all->lines = (char *)realloc(all->lines, all->size + size);
    require(all->lines != NULL, "no memory");
    memcpy(all->lines + all->size, line, size);
    all->size += size;
    all->last = size;
}

/* The line by a cache is the same, in just its room; without room nothing is written. */
static void check_cached(const guarded_log *log, const binlog_item *item, const table_maps *maps, size_t count, uint64_t index,
                         const char *line, size_t size) {
    char *text = (char *)malloc(size + 1);
    require(text != NULL, "no memory");
    memset(text, 'x', size + 1);
    uint8_t error = 77;
    size_t found = binlog_json_cached(log->bytes, log->size, item, maps->found, count, index, text, size - 1, &cache, &error);
    require(error == 0 && found == size && text[0] == 'x' && text[size - 2] == 'x', "by a cache nothing is written without room");
    found = binlog_json_cached(log->bytes, log->size, item, maps->found, count, index, text, size, &cache, &error);
    require(error == 0 && found == size && memcmp(text, line, size) == 0 && text[size] == 'x', "by a cache the line is the same");
    free(text);
}

static void print_line(const guarded_log *log, const binlog_item *item, table_maps *maps, together *all, uint64_t index) {
    static char text[1 << 16];
    size_t count = maps_for(maps, log->bytes, item);
    put_together(log, all, item, maps, count, index);
    uint8_t error = 77;
    size_t size = binlog_json(log->bytes, log->size, item, maps->found, count, index, NULL, 0, &error);
    require(error == 0 && size > 1, "an item of the library has a line");
    void *mapping = NULL;
    size_t mapped = 0;
    char *exact = size < sizeof text ? text : guarded_text(size, &mapping, &mapped);
    memset(exact, 'x', size < sizeof text ? size + 1 : size);
    error = 77;
    size_t again = binlog_json(log->bytes, log->size, item, maps->found, count, index, exact, size - 1, &error);
    require(error == 0 && again == size && exact[0] == 'x' && exact[size - 2] == 'x', "without room nothing is written");
    again = binlog_json(log->bytes, log->size, item, maps->found, count, index, exact, size, &error);
    require(error == 0 && again == size && exact[size - 1] == '\n', "a line is written into just its room");
    if (item->error == BINLOG_CHECKSUM_MISMATCH) {
        check_mismatch(item, index, exact, size);
    }
    check_cached(log, item, maps, count, index, exact, size);
    put_line(all, exact, size);
    require(fwrite(exact, 1, size, stdout) == size, "the output failed");
    if (exact == text) {
        require(text[size] == 'x', "what is behind the room stays");
    } else {
        munmap(mapping, mapped);
    }
}

static int print_lines(const guarded_log *log) {
    binlog_cursor cursor = {0, 0, 0};
    uint8_t error = binlog_open(log->bytes, log->size, &cursor);
    if (error != 0) {
        return 1;
    }
    binlog_item items[ROOM];
    memset(items, 0, sizeof items);
    table_maps maps = {0};
    static together all;
    uint64_t index = 0;
    int status = 0;
    for (size_t count; (count = fill(log->bytes, log->size, &cursor, items, ROOM, &error)) > 0;) {
        for (size_t i = 0; i < count; i++, index++) {
            print_line(log, &items[i], &maps, &all, index);
            status = items[i].error == 0 ? status : 2;
        }
    }
    check_together(log, &all);
    free_maps(&maps);
    return status;
}

int main(int argc, char **argv) {
    if (argc > 1 && strcmp(argv[1], "verified") == 0) {
        fill = binlog_next_verified;
    }
    for (guarded_log log; next_log(&log); free_log(&log)) {
        printf("status %d\n", print_lines(&log));
    }
    binlog_cache_free(&cache);
    binlog_cache_free(&cache);
    binlog_cache_free(&cache_of_lines);
    require(!cache.is_kept && !cache_of_lines.is_kept, "a cache that is freed keeps nothing");
    return 0;
}
