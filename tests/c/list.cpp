// Lists the logs on standard input as list.c does, from C++.
#include "binlog.h"
#include "logs.h"
#include <cstdint>
#include <cstdio>
#include <vector>

static_assert(sizeof(binlog_cursor) == 24 && sizeof(binlog_item) == 64, "the structures are laid out as in C");

namespace {

void print_item(unsigned long index, const binlog_item &item) {
    if (item.error != BINLOG_OK) {
        std::printf("%lu error E%u\n", index, item.error);
        return;
    }
    std::printf("%lu %u %u %u %04x %lu ", index, item.event_type, item.event_size, item.log_pos, item.flags,
                static_cast<unsigned long>(item.data_size));
    if (item.has_checksum == 0) {
        std::puts("-");
        return;
    }
    for (const std::uint8_t byte : item.checksum) {
        std::printf("%02x", byte);
    }
    std::puts("");
}

int list(const guarded_log &log) {
    binlog_cursor cursor{};
    std::uint8_t error = binlog_open(log.bytes, log.size, &cursor);
    if (error != BINLOG_OK) {
        return 1;
    }
    std::vector<binlog_item> items(256);
    unsigned long index = 0;
    int status = 0;
    while (const std::size_t count = binlog_next(log.bytes, log.size, &cursor, items.data(), items.size(), &error)) {
        for (std::size_t i = 0; i < count; i++, index++) {
            print_item(index, items[i]);
            status = items[i].error == BINLOG_OK ? status : 2;
        }
    }
    require(error == BINLOG_OK, "a cursor of the library is a place");
    return status;
}

} // namespace

int main() {
    for (guarded_log log{}; next_log(&log); free_log(&log)) {
        std::printf("status %d\n", list(log));
    }
}
