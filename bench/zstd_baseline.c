// Writes the content of the Zstandard frames on standard input, by libzstd: what `probe zstd` is compared with. The two functions are
// declared here, so that libzstd's header isn't needed.
#include <stddef.h>
#include <stdio.h>
#include <stdlib.h>

enum { INPUT = 1 << 26, CONTENT = 1 << 28 };

size_t ZSTD_decompress(void *content, size_t room, const void *frames, size_t size);
unsigned ZSTD_isError(size_t code);

int main(void) {
    unsigned char *input = malloc(INPUT);
    unsigned char *content = malloc(CONTENT);
    if (input == NULL || content == NULL) {
        return 2;
    }
    size_t size = fread(input, 1, INPUT, stdin);
    size_t length = ZSTD_decompress(content, CONTENT, input, size);
    if (ZSTD_isError(length)) {
        return 1;
    }
    return fwrite(content, 1, length, stdout) == length ? 0 : 2;
}
