// Writes the text of the zlib stream on standard input, by zlib: what `probe inflate` is compared with.
#include <stdio.h>
#include <stdlib.h>
#include <string.h>
#include <zlib.h>

enum { INPUT = 1 << 26, TEXT = 1 << 28 };

int main(void) {
    unsigned char *input = malloc(INPUT);
    unsigned char *text = malloc(TEXT);
    if (input == NULL || text == NULL) {
        return 2;
    }
    z_stream stream;
    memset(&stream, 0, sizeof stream);
    stream.next_in = input;
    stream.avail_in = (uInt)fread(input, 1, INPUT, stdin);
    stream.next_out = text;
    stream.avail_out = TEXT;
    if (inflateInit(&stream) != Z_OK || inflate(&stream, Z_FINISH) != Z_STREAM_END) {
        return 1;
    }
    size_t length = stream.total_out;
    inflateEnd(&stream);
    return fwrite(text, 1, length, stdout) == length ? 0 : 2;
}
