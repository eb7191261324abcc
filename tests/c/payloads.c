/* Of each log on standard input, which logs.h reads, and of each of its compressed transactions, prints the lines of JSON of the events
 * inside, behind the index of the transaction: `4 {"index":0,...}`; or `4 refused`, the number of the error and its name. Behind each
 * log is `status 0`, or `status 1` if it doesn't begin as a log. Checks that the log of these events is written if there is room for
 * it, that nothing is if there is room for one byte less, and that items of other types and changed items are refused. With an argument,
 * `memory`, each allocation of a call is refused in turn. Built with --wrap=malloc and --wrap=realloc. */
#define _DEFAULT_SOURCE
#include "binlog.h"
#include "logs.h"
#include "refusing.h"
#include "table_maps.h"
#include <inttypes.h>

enum { PAYLOAD_EVENT = 40, DESCRIPTION_EVENT = 15 };

static int refuses_memory = 0;

static void print_line(const uint8_t *log, size_t size, const binlog_item *item, table_maps *maps, uint64_t index, uint64_t number) {
    uint8_t error = 77;
    size_t count = maps_for(maps, log, item);
    size_t length = binlog_json(log, size, item, maps->found, count, number, NULL, 0, &error);
    char *text = (char *)malloc(length);
    require(text != NULL && error == BINLOG_OK, "an event inside has a line");
    require(binlog_json(log, size, item, maps->found, count, number, text, length, &error) == length, "it is written");
    printf("%" PRIu64 " ", index);
    fwrite(text, 1, length, stdout);
    free(text);
}

/* The lines of the log of the events inside: of all items but the description. */
static void print_lines(const uint8_t *log, size_t size, uint64_t index) {
    binlog_cursor cursor = {0, 0, 0};
    binlog_item item;
    memset(&item, 0, sizeof item);
    table_maps maps = {0};
    uint8_t error = binlog_open(log, size, &cursor);
    require(error == BINLOG_OK, "what is written is a log");
    for (uint64_t number = 0; binlog_next(log, size, &cursor, &item, 1, &error) == 1;) {
        require(item.has_checksum == 0 || item.event_type == DESCRIPTION_EVENT, "no event inside has a checksum");
        if (item.event_type != DESCRIPTION_EVENT) {
            print_line(log, size, &item, &maps, index, number++);
        }
    }
    require(error == BINLOG_OK && binlog_rest(log, size, &cursor) == 0, "it is whole");
    free_maps(&maps);
}

static void check_memory(const guarded_log *log, const binlog_item *item, uint8_t *text, size_t room) {
    for (long refused = 0;; refused++) {
        uint8_t error = 77;
        memset(text, 0xa5, room);
        left = refused;
        size_t size = binlog_payload_log(log->bytes, log->size, item, text, room, &error);
        if (!was_refused()) {
            require(error != BINLOG_MEMORY && size == room, "with memory there is the log");
            return;
        }
        require(error == BINLOG_MEMORY && size == 0, "without memory there is that error");
        for (size_t i = 0; i < room; i++) {
            require(text[i] == 0xa5, "without memory nothing is written");
        }
    }
}

static void print_payload(const guarded_log *log, const binlog_item *item, uint64_t index) {
    uint8_t error = 77;
    size_t size = binlog_payload_log(log->bytes, log->size, item, NULL, 0, &error);
    if (error != BINLOG_OK) {
        char name[32];
        require(size == 0 && binlog_error_name(error, name, sizeof name) > 0, "a refusal has a name");
        printf("%" PRIu64 " refused %d %s\n", index, error, name);
        return;
    }
    uint8_t *text = (uint8_t *)malloc(size + 1);
    require(text != NULL, "no memory");
    memset(text, 0xa5, size + 1);
    require(binlog_payload_log(log->bytes, log->size, item, text, size - 1, &error) == size, "without room there is the length");
    require(error == BINLOG_OK && text[0] == 0xa5 && text[size - 2] == 0xa5, "without room nothing is written");
    require(binlog_payload_log(log->bytes, log->size, item, text, size, &error) == size, "with just the room it is written");
    require(error == BINLOG_OK && text[0] == 0xfe && text[size] == 0xa5, "and nothing behind it");
    print_lines(text, size, index);
    if (refuses_memory) {
        check_memory(log, item, text, size);
    }
    free(text);
}

static void check_item(const guarded_log *log, const binlog_item *item) {
    uint8_t error = 77, text = 0xa5;
    binlog_item changed = *item;
    changed.log_pos ^= 1;
    require(binlog_payload_log(log->bytes, log->size, &changed, &text, 1, &error) == 0, "a changed item has no log");
    require(error == BINLOG_INVALID_ITEM && text == 0xa5, "it isn't one of the log");
    if (item->event_type != PAYLOAD_EVENT || item->error != 0) {
        require(binlog_payload_log(log->bytes, log->size, item, &text, 1, &error) == 0, "other items have no log");
        require(error == BINLOG_NO_PAYLOAD && text == 0xa5, "they have no payload");
    }
}

static int print_payloads(const guarded_log *log) {
    binlog_cursor cursor = {0, 0, 0};
    binlog_item item;
    memset(&item, 0, sizeof item);
    uint8_t error = binlog_open(log->bytes, log->size, &cursor);
    if (error != BINLOG_OK) {
        return 1;
    }
    for (uint64_t index = 0; binlog_next(log->bytes, log->size, &cursor, &item, 1, &error) == 1; index++) {
        check_item(log, &item);
        if (item.event_type == PAYLOAD_EVENT && item.error == 0) {
            print_payload(log, &item, index);
        }
    }
    return 0;
}

int main(int argc, char **argv) {
    refuses_memory = argc > 1 && strcmp(argv[1], "memory") == 0;
    for (guarded_log log; next_log(&log); free_log(&log)) {
        printf("status %d\n", print_payloads(&log));
    }
    return 0;
}
