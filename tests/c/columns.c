/* Reads files of columns and logs from standard input, one of each in turn, as logs.h reads logs. Of a file that is refused it prints
 * `fault LINE COLUMN KIND` and what the kind is. Else it prints the lines of JSON of the log with the file, and `contradiction INDEX
 * COLUMN` for each table map with a column that contradicts the file. Behind each log it prints `status N`, where N is 0.
 *
 * Checks that a line is written into just its room, that one call for several items writes the same lines, and what each call does
 * when each of its allocations in turn is refused. Built with --wrap=malloc and --wrap=realloc. */
#define _DEFAULT_SOURCE
#include "binlog.h"
#include "logs.h"
#include "refusing.h"
#include "table_maps.h"
#include <inttypes.h>
#include <string.h>

enum { ROOM = 1 << 16, REFUSED_ITEMS = 6 };

/* The tables of a file: its text, and how many allocations a check of it takes. */
typedef struct columns_text {
    const uint8_t *bytes;
    size_t size;
} columns_text;

/* Whether the text is that of a file. Prints what is wrong if it isn't. */
static int check(const columns_text *columns) {
    const binlog_columns_fault before = {7, 8, 9};
    binlog_columns_fault fault = before;
    uint8_t error = binlog_columns_check(columns->bytes, columns->size, &fault);
    if (error == BINLOG_OK) {
        require(memcmp(&fault, &before, sizeof fault) == 0, "without a fault nothing is written");
        return 1;
    }
    require(error == BINLOG_INVALID_COLUMNS, "a text has a fault or none");
    char text[101];
    size_t size = binlog_columns_fault_text(fault.kind, text, sizeof text);
    require(size > 0 && size < sizeof text && text[size] == 0, "a fault has a text");
    printf("fault %" PRIu64 " %" PRIu64 " %" PRIu64 " %s\n", fault.line, fault.column, fault.kind, text);
    return 0;
}

static void check_refused_memory(const columns_text *columns, int is_right) {
    const binlog_columns_fault before = {7, 8, 9};
    for (long refused = 0;; refused++) {
        binlog_columns_fault fault = before;
        left = refused;
        uint8_t error = binlog_columns_check(columns->bytes, columns->size, &fault);
        if (!was_refused()) {
            require(error == (is_right ? BINLOG_OK : BINLOG_INVALID_COLUMNS), "with memory the answer is that of before");
            return;
        }
        require(error == BINLOG_MEMORY && memcmp(&fault, &before, sizeof fault) == 0, "without memory nothing is written");
    }
}

/* What is refused with a text that isn't that of a file: all but the check, and nothing is written. */
static void check_fault(const guarded_log *log, const columns_text *columns, const binlog_item *item) {
    char text[64];
    size_t lines = 77;
    uint8_t error = 77;
    memset(text, 'x', sizeof text);
    size_t size = binlog_json_with_columns(log->bytes, log->size, item, NULL, 0, columns->bytes, columns->size, 0, text,
                                           sizeof text, &error);
    require(error == BINLOG_INVALID_COLUMNS && size == 0 && text[0] == 'x', "no line with a text that has a fault");
    error = 77;
    size = binlog_json_lines_with_columns(log->bytes, log->size, item, 1, NULL, 0, columns->bytes, columns->size, 0, text,
                                          sizeof text, &lines, &error);
    require(error == BINLOG_INVALID_COLUMNS && size == 0 && lines == 0 && text[0] == 'x', "nor of several items");
    error = 77;
    size = binlog_columns_contradiction(log->bytes, log->size, item, columns->bytes, columns->size, &error);
    int is_map = item->error == 0 && item->event_type == TABLE_MAP_EVENT;
    require(error == (is_map ? BINLOG_INVALID_COLUMNS : BINLOG_INVALID_TABLE_MAP) && size == 0, "nor a contradiction");
}

/* The line of an item, in `text`, by each of the calls. */
static size_t write_line(const guarded_log *log, const columns_text *columns, const binlog_item *item, const table_maps *maps,
                         size_t count, uint64_t index, char *text) {
    uint8_t error = 77;
    size_t size = binlog_json_with_columns(log->bytes, log->size, item, maps->found, count, columns->bytes, columns->size, index,
                                           NULL, 0, &error);
    require(error == 0 && size > 1 && 2 * size < ROOM, "an item of the library has a line");
    memset(text, 'x', 2 * size + 1);
    size_t again = binlog_json_with_columns(log->bytes, log->size, item, maps->found, count, columns->bytes, columns->size,
                                            index, text, size - 1, &error);
    require(error == 0 && again == size && text[0] == 'x' && text[size - 2] == 'x', "without room nothing is written");
    binlog_item items[2] = {*item, *item};
    size_t lines = 77;
    again = binlog_json_lines_with_columns(log->bytes, log->size, items, 2, maps->found, count, columns->bytes, columns->size,
                                           index, text, 2 * size - 1, &lines, &error);
    require(error == 0 && lines >= 1 && again >= size && text[again] == 'x', "one call writes as many lines as there is room for");
    char *alone = text + size + 1;
    size = binlog_json_with_columns(log->bytes, log->size, item, maps->found, count, columns->bytes, columns->size, index,
                                    alone, size, &error);
    require(error == 0 && memcmp(text, alone, size) == 0, "they are those of a call for each");
    return size;
}

static void refuse_memory_of_line(const guarded_log *log, const columns_text *columns, const binlog_item *item,
                                  const table_maps *maps, size_t count, const char *line, size_t line_size) {
    static char text[ROOM], filler[ROOM];
    memset(filler, 0xa5, ROOM);
    for (long refused = 0;; refused++) {
        memset(text, 0xa5, line_size + 1);
        uint8_t error = 77;
        left = refused;
        size_t size = binlog_json_with_columns(log->bytes, log->size, item, maps->found, count, columns->bytes, columns->size, 0,
                                               text, ROOM, &error);
        if (!was_refused()) {
            require(error == BINLOG_OK && text[size - 1] == '\n' && size <= line_size, "with memory there is a line");
            require(line[0] == '{', "the line is an object");
            return;
        }
        require(error == BINLOG_MEMORY && size == 0, "without memory there is that error");
        require(memcmp(text, filler, line_size + 1) == 0, "without memory nothing is written");
    }
}

static size_t contradiction(const guarded_log *log, const columns_text *columns, const binlog_item *item) {
    uint8_t error = 77;
    size_t found = binlog_columns_contradiction(log->bytes, log->size, item, columns->bytes, columns->size, &error);
    if (item->error != 0 || item->event_type != TABLE_MAP_EVENT) {
        require(error == BINLOG_INVALID_TABLE_MAP && found == 0, "it isn't a table map");
        return SIZE_MAX;
    }
    require(error == BINLOG_OK, "a table map has an answer");
    for (long refused = 0;; refused++) {
        left = refused;
        size_t again = binlog_columns_contradiction(log->bytes, log->size, item, columns->bytes, columns->size, &error);
        if (!was_refused()) {
            require(error == BINLOG_OK && again == found, "with memory the answer is that of before");
            return found;
        }
        require(error == BINLOG_MEMORY && again == 0, "without memory there is that error");
    }
}

static void print_lines(const guarded_log *log, const columns_text *columns) {
    static char text[ROOM];
    binlog_cursor cursor = {0, 0, 0};
    binlog_item item;
    memset(&item, 0, sizeof item);
    uint8_t error = binlog_open(log->bytes, log->size, &cursor);
    require(error == BINLOG_OK, "it is a log");
    int is_right = check(columns);
    check_refused_memory(columns, is_right);
    table_maps maps = {0};
    for (uint64_t index = 0; binlog_next(log->bytes, log->size, &cursor, &item, 1, &error) == 1; index++) {
        if (!is_right) {
            check_fault(log, columns, &item);
            continue;
        }
        size_t count = maps_for(&maps, log->bytes, &item);
        size_t size = write_line(log, columns, &item, &maps, count, index, text);
        require(fwrite(text, 1, size, stdout) == size, "the output failed");
        if (index < REFUSED_ITEMS) {
            refuse_memory_of_line(log, columns, &item, &maps, count, text, size);
        }
        size_t column = contradiction(log, columns, &item);
        if (column != SIZE_MAX) {
            printf("contradiction %" PRIu64 " %zu\n", index, column);
        }
    }
    free_maps(&maps);
}

int main(void) {
    for (guarded_log text, log; next_log(&text); free_log(&text), free_log(&log)) {
        require(next_log(&log), "a file of columns has a log behind it");
        columns_text columns = {text.bytes, text.size};
        print_lines(&log, &columns);
        printf("status 0\n");
    }
    return 0;
}
