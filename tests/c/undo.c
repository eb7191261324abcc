/* Undoes logs. Of each case on standard input there are five parts, which logs.h reads: five numbers of 8 little-endian bytes, the members
 * of the options and how many logs there are; the names of tables; those of tables that are left out; the sizes of the logs; and the logs.
 * Prints a line for each refusal, `refusal LOG INDEX POSITION END REASON SKIPPED`; `counts TRANSACTIONS ROW_EVENTS` and the log in
 * hexadecimal digits, `log FE62..`, or the error, `error NUMBER NAME`; and `status 0`. Checks that the log is written if there is room for
 * it, that nothing is if there is room for one byte less, and that nothing changes with an error. With an argument, `memory`, each
 * allocation of a call is refused in turn. Built with --wrap=malloc and --wrap=realloc. */
#define _DEFAULT_SOURCE
#include "binlog.h"
#include "logs.h"
#include "refusing.h"
#include <inttypes.h>
#include <string.h>

enum { REFUSALS = 64 };

typedef struct undo_case {
    binlog_undo_options options;
    size_t count;
    guarded_log numbers, tables, excluded, sizes, logs;
} undo_case;

/* What a call fills in. */
typedef struct answer {
    binlog_refusal refusals[REFUSALS];
    binlog_undone undone;
    uint8_t error;
} answer;

static int refuses_memory = 0;

static uint64_t number_at(const guarded_log *part, size_t index) {
    uint64_t number = 0;
    for (size_t place = 8; place-- > 0;) {
        number = number << 8 | part->bytes[8 * index + place];
    }
    return number;
}

static int next_case(undo_case *one) {
    if (!next_log(&one->numbers)) {
        return 0;
    }
    int others = next_log(&one->tables) && next_log(&one->excluded) && next_log(&one->sizes) && next_log(&one->logs);
    require(others && one->numbers.size == 40 && one->sizes.size % 8 == 0, "a case is cut");
    one->options.start_position = number_at(&one->numbers, 0);
    one->options.stop_position = number_at(&one->numbers, 1);
    one->options.skip = number_at(&one->numbers, 2);
    one->options.flags = number_at(&one->numbers, 3);
    one->count = (size_t)number_at(&one->numbers, 4);
    return 1;
}

static void free_case(undo_case *one) {
    free_log(&one->numbers);
    free_log(&one->tables);
    free_log(&one->excluded);
    free_log(&one->sizes);
    free_log(&one->logs);
}

static void fill(answer *found) { memset(found, 0xa5, sizeof *found); }

/* Whether only the error was filled in. */
static int is_untouched(const answer *found) {
    answer untouched;
    fill(&untouched);
    return memcmp(found->refusals, untouched.refusals, sizeof found->refusals) == 0
           && memcmp(&found->undone, &untouched.undone, sizeof found->undone) == 0;
}

static size_t call(const undo_case *one, answer *found, size_t refusal_room, uint8_t *out, size_t room) {
    uint64_t sizes[REFUSALS];
    require(one->count <= REFUSALS, "there are too many logs");
    for (size_t i = 0; i < one->count; i++) {
        sizes[i] = number_at(&one->sizes, i);
    }
    return binlog_undo(one->logs.bytes, one->logs.size, sizes, one->count, &one->options, (const char *)one->tables.bytes,
                       one->tables.size, (const char *)one->excluded.bytes, one->excluded.size, found->refusals, refusal_room,
                       &found->undone, out, room, &found->error);
}

static void check_memory(const undo_case *one, uint8_t *out, size_t length) {
    for (long refused = 0;; refused++) {
        answer found;
        fill(&found);
        memset(out, 0xa5, length);
        left = refused;
        size_t size = call(one, &found, REFUSALS, out, length);
        if (!was_refused()) {
            require(found.error == BINLOG_OK && size == length, "with memory there is the log");
            return;
        }
        require(found.error == BINLOG_MEMORY && size == 0 && is_untouched(&found), "without memory there is that error");
        for (size_t i = 0; i < length; i++) {
            require(out[i] == 0xa5, "without memory nothing is written");
        }
    }
}

static void print_refusals(const answer *found) {
    for (uint64_t i = 0; i < found->undone.refusals && i < REFUSALS; i++) {
        const binlog_refusal *one = &found->refusals[i];
        printf("refusal %" PRIu64 " %" PRIu64 " %" PRIu64 " %" PRIu64 " %" PRIu32 " %" PRIu32 "\n", one->log, one->index, one->position,
               one->end, one->reason, one->is_skipped);
    }
}

/* With room for one refusal less the others are the same. */
static void check_room(const undo_case *one, const answer *found) {
    if (found->undone.refusals == 0 || found->undone.refusals > REFUSALS) {
        return;
    }
    size_t room = (size_t)found->undone.refusals - 1;
    answer other, untouched;
    fill(&other);
    fill(&untouched);
    call(one, &other, room, NULL, 0);
    require(other.undone.refusals == found->undone.refusals, "all refusals are counted");
    require(memcmp(other.refusals, found->refusals, room * sizeof other.refusals[0]) == 0, "those that fit are filled in");
    require(memcmp(&other.refusals[room], &untouched.refusals[room], sizeof other.refusals[0]) == 0, "and no others");
}

static void print_log(const undo_case *one, size_t length) {
    answer found;
    uint8_t *out = (uint8_t *)malloc(length + 1);
    require(out != NULL, "no memory");
    memset(out, 0xa5, length + 1);
    require(call(one, &found, REFUSALS, out, length - 1) == length && found.error == BINLOG_OK, "without room there is the length");
    require(out[0] == 0xa5 && out[length - 2] == 0xa5, "without room nothing is written");
    require(call(one, &found, REFUSALS, out, length) == length && found.error == BINLOG_OK, "with just the room it is written");
    require(out[0] == 0xfe && out[length] == 0xa5, "and nothing behind it");
    printf("counts %" PRIu64 " %" PRIu64 "\nlog ", found.undone.transactions, found.undone.row_events);
    for (size_t i = 0; i < length; i++) {
        printf("%02x", out[i]);
    }
    printf("\n");
    if (refuses_memory) {
        check_memory(one, out, length);
    }
    free(out);
}

static void print_case(const undo_case *one) {
    answer found;
    fill(&found);
    size_t length = call(one, &found, REFUSALS, NULL, 0);
    if (found.error == BINLOG_OK || found.error == BINLOG_REFUSED) {
        print_refusals(&found);
        check_room(one, &found);
    } else {
        require(is_untouched(&found), "nothing is filled in with an error");
    }
    if (found.error == BINLOG_OK) {
        print_log(one, length);
        return;
    }
    char name[32];
    require(length == 0 && binlog_error_name(found.error, name, sizeof name) > 0, "an error has a name");
    printf("error %d %s\n", found.error, name);
}

int main(int argc, char **argv) {
    refuses_memory = argc > 1 && strcmp(argv[1], "memory") == 0;
    for (undo_case one; next_case(&one); free_case(&one)) {
        print_case(&one);
        printf("status 0\n");
    }
}
