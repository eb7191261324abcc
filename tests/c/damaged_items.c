/* Asks the library for lines of JSON over each log on standard input, which logs.h reads, of items that it did not give, as many
 * as the argument says. A line is given for exactly those items that the library gives at the place that the item names, and one
 * call for several items does what a call for each does. Prints how many have a line, and how many are refused. */
#define _DEFAULT_SOURCE
#include "binlog.h"
#include "logs.h"
#include "random_numbers.h"
#include <string.h>

enum { ROOM = 1 << 16, MAPS = 3 };

/* One of the first items of the log, as one of the calls gives it. */
static binlog_item some_item(const guarded_log *log) {
    binlog_cursor cursor = {4, 0, 0};
    binlog_item item;
    memset(&item, 0, sizeof item);
    uint8_t error = binlog_open(log->bytes, log->size, &cursor);
    int is_verified = next_random() % 2 != 0;
    for (size_t skipped = next_random() % 64; error == 0 && skipped > 0; skipped--) {
        if ((is_verified ? binlog_next_verified : binlog_next)(log->bytes, log->size, &cursor, &item, 1, &error) == 0) {
            break;
        }
    }
    return item;
}

/* An item with a bit changed, or some bytes, or none. */
static binlog_item damaged_item(const guarded_log *log) {
    binlog_item item = some_item(log);
    uint8_t bytes[sizeof item];
    memcpy(bytes, &item, sizeof item);
    switch (next_random() % 8) {
    case 0:
        break;
    case 1:
        for (size_t i = 0; i < sizeof item; i++) {
            bytes[i] = (uint8_t)next_random();
        }
        break;
    case 2:
        bytes[51] = (uint8_t)(next_random() % 32); /* the error */
        break;
    case 3:
        bytes[next_random() % 3] = (uint8_t)next_random(); /* the position */
        break;
    default:
        bytes[next_random() % sizeof item] ^= (uint8_t)(1u << next_random() % 8);
    }
    memcpy(&item, bytes, sizeof item);
    return item;
}

/* Whether the library gives the item at the place that it names. */
static int is_given(const guarded_log *log, const binlog_item *item) {
    binlog_cursor cursor = {item->position, item->description, 0};
    binlog_item given;
    memset(&given, 0, sizeof given);
    uint8_t error = 0;
    int is_mismatch = item->error == BINLOG_CHECKSUM_MISMATCH;
    size_t count =
        (is_mismatch ? binlog_next_verified : binlog_next)(log->bytes, log->size, &cursor, &given, 1, &error);
    return count == 1 && memcmp(&given, item, sizeof given) == 0;
}

/* Whether there is a line. */
static int check_item(const guarded_log *log, const binlog_item *item, const binlog_item *maps, size_t count) {
    static char text[ROOM], filler[ROOM];
    memset(text, 0xa5, ROOM);
    memset(filler, 0xa5, ROOM);
    size_t room = next_random() % 4 ? ROOM : next_random() % 512;
    uint8_t error = 77;
    size_t size = binlog_json(log->bytes, log->size, item, maps, count, next_random(), text, room, &error);
    if (error != BINLOG_OK) {
        require(error == BINLOG_INVALID_ITEM || error == BINLOG_INVALID_TABLE_MAP, "the error is one of two");
        require(size == 0 && memcmp(text, filler, ROOM) == 0, "a refusal writes nothing");
        require(error != BINLOG_INVALID_ITEM || !is_given(log, item), "an item that isn't given is refused");
        require(error != BINLOG_INVALID_TABLE_MAP || count > 0, "no table map, none is refused");
        return 0;
    }
    require(is_given(log, item), "an item that is given has a line");
    size_t written = size <= room ? size : 0;
    require(written == 0 || (text[0] == '{' && text[written - 1] == '\n'), "a line is written");
    require(memcmp(text + written, filler, ROOM - written) == 0, "nothing is written behind it");
    return 1;
}

/* Whether one call for three items, of which this is the second, does what a call for each does. */
static void check_items(const guarded_log *log, const binlog_item *item, const binlog_item *maps, size_t count) {
    static char text[3 * ROOM], filler[3 * ROOM], single[ROOM];
    binlog_item items[3] = {some_item(log), *item, damaged_item(log)};
    memset(text, 0xa5, sizeof text);
    memset(filler, 0xa5, sizeof filler);
    size_t room = next_random() % 4 ? sizeof text : next_random() % 1024;
    uint64_t index = next_random() % 2 ? UINT64_MAX : next_random();
    size_t lines = 77;
    uint8_t error = 77;
    size_t size = binlog_json_lines(log->bytes, log->size, items, 3, maps, count, index, text, room, &lines, &error);
    require(size <= room && memcmp(text + size, filler, sizeof text - size) == 0, "nothing is written behind the lines");
    size_t at = 0;
    for (size_t i = 0; i < 3; i++) {
        uint8_t why = 77;
        size_t wanted = binlog_json(log->bytes, log->size, &items[i], maps, count, index + i, single, ROOM, &why);
        if (i < lines) {
            require(why == BINLOG_OK && wanted <= ROOM && wanted <= size - at, "a line is written that a call for it writes");
            require(memcmp(text + at, single, wanted) == 0, "it is the same line");
            at += wanted;
        } else {
            require(i > lines || error == why, "the error is that of the first item without a line");
            require(i > lines || why != BINLOG_OK || wanted > room - at, "a line is left out where it has no room");
        }
    }
    require(at == size && lines <= 3 && (lines < 3 || error == BINLOG_OK), "the lines are as long as the answer");
}

int main(int argc, char **argv) {
    size_t rounds = argc > 1 ? strtoul(argv[1], NULL, 10) : 10000;
    size_t given = 0, refused = 0;
    for (guarded_log log; next_log(&log); free_log(&log)) {
        for (size_t round = 0; round < rounds; round++) {
            binlog_item item = damaged_item(&log), maps[MAPS];
            size_t count = next_random() % (MAPS + 1);
            for (size_t i = 0; i < count; i++) {
                maps[i] = next_random() % 2 ? some_item(&log) : damaged_item(&log);
            }
            check_items(&log, &item, maps, next_random() % 2 ? count : 0);
            if (check_item(&log, &item, maps, next_random() % 2 ? count : 0)) {
                given++;
            } else {
                refused++;
            }
        }
    }
    printf("%zu with a line, %zu refused\n", given, refused);
    return 0;
}
