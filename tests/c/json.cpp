// Prints the lines of JSON of the logs on standard input as json.c does, from C++.
#include "binlog.h"
#include "logs.h"
#include "table_maps.h"
#include <cstdint>
#include <cstdio>
#include <string>
#include <vector>

namespace {

class Lines {
public:
    explicit Lines(const guarded_log &log) : log_(log) {}
    ~Lines() { free_maps(&maps_); }
    Lines(const Lines &) = delete;
    Lines &operator=(const Lines &) = delete;

    const std::string &line(const binlog_item &item, std::uint64_t index) {
        const std::size_t count = maps_for(&maps_, log_.bytes, &item);
        std::uint8_t error = 0;
        // The memory of the line before it mostly has room.
        text_.resize(text_.capacity());
        for (;;) {
            const std::size_t size =
                binlog_json(log_.bytes, log_.size, &item, maps_.found, count, index, text_.data(), text_.size(), &error);
            require(error == BINLOG_OK, "an item of the library has a line");
            const bool is_written = size <= text_.size();
            text_.resize(size);
            if (is_written) {
                return text_;
            }
        }
    }

private:
    const guarded_log &log_;
    table_maps maps_{};
    std::string text_;
};

int print_lines(const guarded_log &log) {
    binlog_cursor cursor{};
    std::uint8_t error = binlog_open(log.bytes, log.size, &cursor);
    if (error != BINLOG_OK) {
        return 1;
    }
    Lines lines(log);
    std::vector<binlog_item> items(256);
    std::uint64_t index = 0;
    int status = 0;
    while (const std::size_t count = binlog_next(log.bytes, log.size, &cursor, items.data(), items.size(), &error)) {
        for (std::size_t i = 0; i < count; i++, index++) {
            const std::string &line = lines.line(items[i], index);
            std::fwrite(line.data(), 1, line.size(), stdout);
            status = items[i].error == BINLOG_OK ? status : 2;
        }
    }
    return status;
}

} // namespace

int main() {
    for (guarded_log log{}; next_log(&log); free_log(&log)) {
        std::printf("status %d\n", print_lines(log));
    }
}
