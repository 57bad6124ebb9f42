/* Draws CSV from standard input as a table, with the arguments of csvtable: csv [ARGUMENT].. */
#include "comfy_table.h"
#include "reading.h"

#include <string.h>

/* Returns the arguments, with a zero byte after each, or a null start if memory runs out. */
static struct bytes joined(char **arguments) {
    struct bytes all = {NULL, 0};
    for (char **argument = arguments; *argument; argument++) all.length += strlen(*argument) + 1;
    all.start = malloc(all.length + 1);
    uint8_t *end = all.start;
    for (char **argument = arguments; end && *argument; argument++) {
        size_t length = strlen(*argument) + 1;
        memcpy(end, *argument, length);
        end += length;
    }
    return all;
}

int main(int count, char **given) {
    struct bytes input = read_all(stdin), arguments = joined(given + (count > 0)), output = {NULL, 0};
    if (!input.start || !arguments.start) return 1;
    size_t needed = 4096 + 4 * input.length;
    uint32_t status;
    /* Calls again if the room was too small for the drawing or the message. */
    do {
        free(output.start);
        output.length = needed;
        output.start = malloc(output.length);
        if (!output.start) return 1;
        status = comfy_csv_draw(input.start, input.length, arguments.start, arguments.length, output.start, output.length, &needed);
    } while (status != COMFY_OUT_OF_MEMORY && needed > output.length);
    if (status == COMFY_OUT_OF_MEMORY) return 1;
    FILE *stream = status == COMFY_DRAWN ? stdout : stderr;
    int is_written = fwrite(output.start, 1, needed, stream) == needed && fflush(stream) == 0;
    free(output.start);
    free(arguments.start);
    free(input.start);
    return is_written && status == COMFY_DRAWN ? 0 : 1;
}
