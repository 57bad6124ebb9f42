/* Reading the inputs of the example programs. */
#ifndef READING_H
#define READING_H

#include <stdint.h>
#include <stdio.h>
#include <stdlib.h>

struct bytes {
    uint8_t *start;
    size_t length;
};

/* Returns all bytes of a stream, or a null start if it can't be read or memory runs out. */
static struct bytes read_all(FILE *stream) {
    size_t room = 1 << 16;
    struct bytes bytes = {malloc(room), 0};
    while (bytes.start) {
        size_t count = fread(bytes.start + bytes.length, 1, room - bytes.length, stream);
        if (ferror(stream)) {
            free(bytes.start);
            bytes.start = NULL;
            break;
        }
        if (count == 0) break;
        bytes.length += count;
        if (bytes.length == room) {
            uint8_t *more = realloc(bytes.start, room *= 2);
            if (!more) free(bytes.start);
            bytes.start = more;
        }
    }
    return bytes;
}

#endif
