/* Passes over XID events in memory, or over the events of a log, by the library for C, and makes their lines of JSON, for counts of
 * instructions:
 *
 *     cc -O2 -Iinclude bench/library.c crates/binlog_c/out/libbinlog_c.a -o library
 *     valgrind --tool=callgrind ./library 10001 lines described
 *
 * The first argument is the number of events, or the path of a log. The second says what is done with each batch of 64: `items`, they are
 * passed over, `verified`, with checksums verified, `line`, a call for each line, `cached`, the same by a cache, or `lines`, one call for
 * all; with `none` the log is made and nothing is done. `line` and `cached` write rows by the table maps of their statement. With a third
 * one a description is in front of the XID events. Prints the numbers of items and of bytes of lines.
 *
 * Instructions for an event are those of 10,001 events less those of 1, and less the same of `none`; those of a line are that, less
 * the same of `items`. */
#include "binlog.h"
#include <stdio.h>
#include <stdlib.h>
#include <string.h>

enum { HEADER = 19, XID = HEADER + 8, TYPES = 38, DESCRIPTION = HEADER + 57 + TYPES + 5, BATCH = 64 };

static void put(uint8_t *at, uint64_t number, size_t bytes) {
    for (size_t i = 0; i < bytes; i++) {
        at[i] = (uint8_t)(number >> 8 * i);
    }
}

/* The header of an event of this type and size at this position. */
static void put_header(uint8_t *log, size_t at, uint8_t type, size_t size) {
    put(log + at, 0x68000012, 4);
    log[at + 4] = type;
    put(log + at + 5, 1, 4);
    put(log + at + 9, size, 4);
    put(log + at + 13, at + size, 4);
}

/* A description of version 4 as MySQL 8.0 writes it, of events without checksums. */
static void put_description(uint8_t *log, size_t at) {
    static const uint8_t sizes[TYPES] = {56, 13, 0, 8, 0, 18, 0, 4, 4, 4,  4,  18, 0,  0,  95, 0,  4, 26, 8,
                                         0,  0,  0, 8, 8, 8,  2, 0, 0, 0, 10, 10, 10, 42, 42, 0, 18, 52, 0};
    put_header(log, at, 15, DESCRIPTION);
    put(log + at + HEADER, 4, 2);
    memcpy(log + at + HEADER + 2, "8.0.30", 6);
    log[at + HEADER + 56] = HEADER;
    memcpy(log + at + HEADER + 57, sizes, TYPES);
}

/* A log of so many XID events. */
static uint8_t *made_log(size_t events, int is_described, size_t *size) {
    size_t begin = 4 + (is_described ? DESCRIPTION : 0);
    *size = begin + events * XID;
    uint8_t *log = (uint8_t *)calloc(*size, 1);
    if (log == NULL) {
        return NULL;
    }
    memcpy(log, "\xfe" "bin", 4);
    if (is_described) {
        put_description(log, 4);
    }
    for (size_t i = 0; i < events; i++) {
        put_header(log, begin + i * XID, 16, XID);
        put(log + begin + i * XID + HEADER, i, 8);
    }
    return log;
}

/* The log in a file; NULL if it can't be read. */
static uint8_t *read_log(const char *path, size_t *size) {
    FILE *file = fopen(path, "rb");
    if (file == NULL || fseek(file, 0, SEEK_END) != 0 || ftell(file) < 0) {
        return NULL;
    }
    *size = (size_t)ftell(file);
    rewind(file);
    uint8_t *log = (uint8_t *)calloc(*size + 1, 1);
    if (log != NULL && fread(log, 1, *size, file) != *size) {
        return NULL;
    }
    fclose(file);
    return log;
}

/* The table maps of a statement. */
typedef struct table_maps {
    binlog_item items[BATCH];
    size_t count;
} table_maps;

/* The table maps in front of a row event are those since the last event that is neither a row event nor a table map. */
static void note(table_maps *maps, const binlog_item *item) {
    int is_rows = (item->event_type >= 23 && item->event_type <= 25) || (item->event_type >= 30 && item->event_type <= 32);
    if (item->event_type == 19 && maps->count < BATCH) {
        maps->items[maps->count++] = *item;
    } else if (!is_rows) {
        maps->count = 0;
    }
}

int main(int argc, char **argv) {
    char *rest = NULL;
    size_t events = argc > 1 ? strtoul(argv[1], &rest, 10) : 10001, size = 0;
    const char *mode = argc > 2 ? argv[2] : "items";
    uint8_t *log = argc > 1 && *rest != 0 ? read_log(argv[1], &size) : made_log(events, argc > 3, &size);
    if (log == NULL) {
        return 1;
    }
    static binlog_item items[BATCH];
    static char text[1 << 16];
    binlog_cursor cursor = {0, 0, 0};
    uint8_t error = binlog_open(log, size, &cursor);
    size_t index = 0, bytes = 0, count, lines = 0;
    binlog_cache cache = {0};
    static table_maps maps;
    int is_cached = strcmp(mode, "cached") == 0;
    int is_verified = strcmp(mode, "verified") == 0;
    while (strcmp(mode, "none") != 0 && error == 0 &&
           (count = (is_verified ? binlog_next_verified : binlog_next)(log, size, &cursor, items, BATCH, &error)) > 0) {
        if (strcmp(mode, "lines") == 0) {
            bytes += binlog_json_lines(log, size, items, count, NULL, 0, index, text, sizeof text, &lines, &error);
        } else if (is_cached || strcmp(mode, "line") == 0) {
            for (size_t i = 0; i < count && error == 0; i++) {
                note(&maps, &items[i]);
                bytes += is_cached ? binlog_json_cached(log, size, &items[i], maps.items, maps.count, index + i, text, sizeof text,
                                                        &cache, &error)
                                   : binlog_json(log, size, &items[i], maps.items, maps.count, index + i, text, sizeof text, &error);
            }
        }
        index += count;
    }
    binlog_cache_free(&cache);
    printf("%zu items, %zu bytes, error %u\n", index, bytes, error);
    free(log);
    return error;
}
