/* Lists the logs on standard input, which logs.h reads: for each event `index type size log_pos flags data_len
 * checksum`, for each error `index error E<number>`, and behind each log `status N`, where N is binlog_list's exit
 * status. The first argument is how many items a call has room for. With a second one, `verified`, checksums are
 * verified. Checks that each item lies where it says, that a cursor made of it gives it again, that each checksum is
 * as right or wrong as the library says, and how many bytes lie behind the last item. */
#define _DEFAULT_SOURCE
#include "binlog.h"
#include "logs.h"
#include <inttypes.h>
#include <string.h>

typedef size_t fill_call(const uint8_t *, size_t, binlog_cursor *, binlog_item *, size_t, uint8_t *);

static fill_call *fill = binlog_next;

static uint32_t number(const uint8_t *bytes) {
    return bytes[0] | (uint32_t)bytes[1] << 8 | (uint32_t)bytes[2] << 16 | (uint32_t)bytes[3] << 24;
}

/* The CRC-32 of an event's bytes before its checksum, bit by bit, with the flag of a log that isn't closed cleared. */
static uint32_t crc32_of(const uint8_t *event, size_t size) {
    uint32_t crc = UINT32_MAX;
    for (size_t i = 0; i + 4 < size; i++) {
        crc ^= i == 17 ? event[i] & 0xfeu : event[i];
        for (int bit = 0; bit < 8; bit++) {
            crc = crc >> 1 ^ (crc & 1 ? 0xedb88320u : 0);
        }
    }
    return ~crc;
}

/* The checksum is that at the end of the event. If it was verified, it is right, or wrong for a mismatch. */
static void check_checksum(const uint8_t *event, const binlog_item *item) {
    uint32_t stored = number(item->checksum);
    require(memcmp(item->checksum, event + item->event_size - 4, 4) == 0, "the checksum is at the end");
    if (fill != binlog_next_verified) {
        return;
    }
    uint32_t right = crc32_of(event, item->event_size);
    if (item->error == 0) {
        require(stored == right, "the checksum of an event is right");
    } else {
        require(stored != right && item->computed_checksum == right, "a mismatch has the right checksum");
    }
}

static void check_error(const uint8_t *event, const binlog_item *item) {
    require(item->data_size == 0 && item->data_position == 0, "an error has no data");
    require((item->has_checksum != 0) == (item->error == BINLOG_CHECKSUM_MISMATCH), "a mismatch alone has a checksum");
    if (item->has_checksum) {
        check_checksum(event, item);
    } else {
        require(item->computed_checksum == 0, "nothing else has a computed checksum");
    }
}

static void check_place(const guarded_log *log, const binlog_item *item) {
    require(item->position >= 4 && item->position + 19 <= log->size, "the header is in the log");
    const uint8_t *event = log->bytes + item->position;
    require(number(event) == item->timestamp && number(event + 5) == item->server_id, "the fields are the header's");
    require(number(event + 9) == item->event_size && number(event + 13) == item->log_pos, "the sizes are the header's");
    require(event[4] == item->event_type && (event[17] | event[18] << 8) == item->flags, "the type is the header's");
    if (item->error != 0) {
        check_error(event, item);
        return;
    }
    require(item->computed_checksum == 0, "an event has its checksum alone");
    require(item->position + item->event_size <= log->size, "the event is in the log");
    require(item->data_position == item->position + 19, "the data is behind the header");
    require(19 + item->data_size + (item->has_checksum ? 4 : 0) <= item->event_size, "the data is in the event");
    if (item->has_checksum) {
        check_checksum(event, item);
    }
}

static void check_again(const guarded_log *log, const binlog_item *item) {
    binlog_cursor cursor = {item->position, item->description, 0};
    require(binlog_rest(log->bytes, log->size, &cursor) == 0, "no rest begins where an item is");
    binlog_item same;
    memset(&same, 0, sizeof same);
    uint8_t error = 1;
    size_t count = fill(log->bytes, log->size, &cursor, &same, 1, &error);
    require(count == 1 && error == 0, "the item is given again");
    require(memcmp(&same, item, sizeof same) == 0, "it is the same item");
}

static void check_rest(const guarded_log *log, const binlog_cursor *cursor) {
    size_t rest = binlog_rest(log->bytes, log->size, cursor);
    if (cursor->ended) {
        require(rest == 0, "an undersized event has its error");
        return;
    }
    require(rest == log->size - cursor->position, "all bytes behind the last item are the rest");
    require(rest < 19 || number(log->bytes + cursor->position + 9) > rest, "they are the beginning of an event");
}

static void print_item(uint64_t index, const binlog_item *item) {
    if (item->error != 0) {
        printf("%" PRIu64 " error E%u\n", index, item->error);
        return;
    }
    printf("%" PRIu64 " %u %" PRIu32 " %" PRIu32 " %04x %" PRIu64 " ", index, item->event_type, item->event_size,
           item->log_pos, item->flags, item->data_size);
    if (item->has_checksum) {
        printf("%02x%02x%02x%02x\n", item->checksum[0], item->checksum[1], item->checksum[2], item->checksum[3]);
    } else {
        puts("-");
    }
}

static int list(const guarded_log *log, binlog_item *items, size_t room) {
    binlog_cursor cursor = {1, 2, 3};
    uint8_t error = binlog_open(log->bytes, log->size, &cursor);
    if (error != 0) {
        require(error == BINLOG_END_OF_INPUT || error == BINLOG_INVALID_FILE_HEADER, "the error is one of two");
        require((error == BINLOG_END_OF_INPUT) == (log->size < 4), "it is the right one");
        require(cursor.position == 1 && cursor.description == 2 && cursor.ended == 3, "a refusal leaves the cursor");
        return 1;
    }
    uint64_t index = 0;
    int status = 0;
    for (size_t count; (count = fill(log->bytes, log->size, &cursor, items, room, &error)) > 0;) {
        require(count <= room, "no more items than room");
        for (size_t i = 0; i < count; i++, index++) {
            check_place(log, &items[i]);
            check_again(log, &items[i]);
            print_item(index, &items[i]);
            if (items[i].error != 0) {
                status = 2;
            }
        }
    }
    require(error == 0, "a cursor of the library is a place");
    check_rest(log, &cursor);
    return status;
}

int main(int argc, char **argv) {
    size_t room = argc > 1 ? strtoul(argv[1], NULL, 10) : 64;
    if (argc > 2 && strcmp(argv[2], "verified") == 0) {
        fill = binlog_next_verified;
    }
    binlog_item *items = (binlog_item *)calloc(room, sizeof *items);
    require(items != NULL, "no memory");
    for (guarded_log log; next_log(&log); free_log(&log)) {
        printf("status %d\n", list(&log, items, room));
    }
    free(items);
    return 0;
}
