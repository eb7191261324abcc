/* Calls the library over each log on standard input, which logs.h reads, with cursors that it did not make, as many
 * as the argument says, and checks what can be said of any answer. Prints how many cursors were accepted, and how
 * many refused. */
#define _DEFAULT_SOURCE
#include "binlog.h"
#include "logs.h"
#include "random_numbers.h"
#include <string.h>

enum { ROOM = 8 };

typedef size_t fill_call(const uint8_t *, size_t, binlog_cursor *, binlog_item *, size_t, uint8_t *);

/* A small number, one beside the size of the log, one in it, or any. */
static uint64_t some_place(size_t size) {
    switch (next_random() % 6) {
    case 0:
        return next_random() % 8;
    case 1:
        return size + next_random() % 8 - 4;
    case 2:
        return next_random();
    case 3:
        return UINT64_MAX - next_random() % 32;
    default:
        return next_random() % (size + 1);
    }
}

/* A cursor that the library gave, or one made of an item, with one bit changed. */
static binlog_cursor damaged_cursor(const guarded_log *log) {
    binlog_cursor cursor = {4, 0, 0};
    binlog_item item;
    memset(&item, 0, sizeof item);
    uint8_t error = binlog_open(log->bytes, log->size, &cursor);
    for (size_t skipped = next_random() % 64; error == 0 && skipped > 0; skipped--) {
        if (binlog_next(log->bytes, log->size, &cursor, &item, 1, &error) == 0) {
            break;
        }
    }
    if (next_random() % 2) {
        binlog_cursor before = {item.position, item.description, 0};
        cursor = before;
    }
    uint8_t bytes[sizeof cursor];
    memcpy(bytes, &cursor, sizeof cursor);
    bytes[next_random() % sizeof cursor] ^= (uint8_t)(1u << next_random() % 8);
    memcpy(&cursor, bytes, sizeof cursor);
    return cursor;
}

static binlog_cursor some_cursor(const guarded_log *log) {
    if (next_random() % 3 == 0) {
        return damaged_cursor(log);
    }
    binlog_cursor cursor;
    cursor.position = some_place(log->size);
    cursor.description = next_random() % 2 ? 0 : some_place(log->size);
    cursor.ended = next_random() % 8 ? 0 : next_random();
    return cursor;
}

static void check_items(const guarded_log *log, const binlog_item *items, size_t count, int is_verified) {
    for (size_t i = 0; i < count; i++) {
        const binlog_item *item = &items[i];
        require(item->position >= 4 && item->position + 19 <= log->size, "the header is in the log");
        int is_mismatch = is_verified && item->error == BINLOG_CHECKSUM_MISMATCH;
        require(item->error == 0 || (item->error >= 3 && item->error <= 6) || is_mismatch, "the error is an item's");
        require(item->error != 0 || item->position + item->event_size <= log->size, "the event is in the log");
        require(item->data_position + item->data_size <= log->size, "the data is in the log");
    }
}

/* Whether the cursor was accepted. */
static int check_call(const guarded_log *log, const binlog_cursor *before) {
    binlog_item items[ROOM], filler;
    memset(&filler, 0xa5, sizeof filler);
    for (size_t i = 0; i < ROOM; i++) {
        memcpy(&items[i], &filler, sizeof filler);
    }
    binlog_cursor cursor = *before;
    size_t room = next_random() % (ROOM + 1);
    uint8_t error = 77;
    fill_call *fill = next_random() % 2 ? binlog_next : binlog_next_verified;
    size_t count = fill(log->bytes, log->size, &cursor, items, room, &error);
    require(error == BINLOG_OK || error == BINLOG_INVALID_CURSOR, "the error is one of two");
    require(count <= room, "no more items than room");
    for (size_t i = count; i < ROOM; i++) {
        require(memcmp(&items[i], &filler, sizeof filler) == 0, "the items behind stay");
    }
    if (error != BINLOG_OK) {
        require(count == 0 && memcmp(before, &cursor, sizeof cursor) == 0, "a refusal changes nothing");
        return 0;
    }
    require(before->position >= 4 && before->position <= log->size, "the position is in the log");
    require(before->description == 0 || before->description + 19 <= log->size, "the description is in the log");
    require(cursor.position >= before->position && cursor.position <= log->size, "the cursor moves on, in the log");
    require(before->ended == 0 || count == 0, "an iteration that has ended gives nothing");
    check_items(log, items, count, fill == binlog_next_verified);
    return 1;
}

static void check_without_room(const guarded_log *log, const binlog_cursor *before) {
    binlog_cursor cursor = *before;
    uint8_t error = 77;
    require(binlog_next(log->bytes, log->size, &cursor, NULL, 0, &error) == 0, "no room, no item");
    require(binlog_next_verified(log->bytes, log->size, &cursor, NULL, 0, &error) == 0, "no room, no verified item");
    require(memcmp(before, &cursor, sizeof cursor) == 0, "no room moves nothing");
}

static void check_rest(const guarded_log *log, const binlog_cursor *cursor) {
    size_t rest = binlog_rest(log->bytes, log->size, cursor);
    int is_inside = cursor->ended == 0 && cursor->position <= log->size;
    require(rest == 0 || (is_inside && rest == log->size - cursor->position), "a rest is all that the log has there");
}

static void check_text(size_t (*write)(uint8_t, char *, size_t), uint8_t error) {
    char text[128];
    memset(text, 'x', sizeof text);
    size_t size = write(error, text, sizeof text);
    require(size <= 100 && strlen(text) == size && text[size + 1] == 'x', "a text and a zero are written");
    memset(text, 'x', sizeof text);
    require(write(error, text, size) == size && text[0] == 'x', "without room nothing is written");
    require(write(error, NULL, 0) == size, "the size alone");
}

int main(int argc, char **argv) {
    size_t rounds = argc > 1 ? strtoul(argv[1], NULL, 10) : 10000;
    size_t accepted = 0, refused = 0;
    for (guarded_log log; next_log(&log); free_log(&log)) {
        for (size_t round = 0; round < rounds; round++) {
            binlog_cursor cursor = some_cursor(&log);
            if (check_call(&log, &cursor)) {
                accepted++;
            } else {
                refused++;
            }
            check_without_room(&log, &cursor);
            check_rest(&log, &cursor);
        }
    }
    for (int error = 0; error < 256; error++) {
        check_text(binlog_error_name, (uint8_t)error);
        check_text(binlog_error_text, (uint8_t)error);
    }
    printf("%zu accepted, %zu refused\n", accepted, refused);
    return 0;
}
