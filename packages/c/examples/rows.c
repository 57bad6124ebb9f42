/*
 * Draws rows of texts, with right-aligned prices:
 *
 * +-----------+----------+
 * | name      |    price |
 * +======================+
 * | Albatross | 12500.00 |
 * |-----------+----------|
 * | Anna      |  -980.00 |
 * +-----------+----------+
 */
#include "comfy_table.h"

#include <stdio.h>
#include <string.h>

enum { ROWS = 3, COLUMNS = 2 };

static const char *const cells[ROWS][COLUMNS] = {{"name", "price"}, {"Albatross", "12500.00"}, {"Anna", "-980.00"}};

int main(void) {
    char texts[256];
    size_t lengths[ROWS * COLUMNS], counts[ROWS], length = 0;
    for (int row = 0; row < ROWS; row++) {
        counts[row] = COLUMNS;
        for (int column = 0; column < COLUMNS; column++) {
            size_t bytes = lengths[row * COLUMNS + column] = strlen(cells[row][column]);
            memcpy(texts + length, cells[row][column], bytes);
            length += bytes;
        }
    }
    struct comfy_rows_settings settings = COMFY_ROWS_SETTINGS;
    settings.style = COMFY_ASCII_FULL;
    settings.row_lines = COMFY_LINES_EVERYWHERE;
    uint32_t result;
    char *drawing = comfy_rows_text((const uint8_t *)texts, length, lengths, ROWS * COLUMNS, counts, ROWS, NULL, 0, NULL, 0, NULL, 0,
                                    &settings, &result);
    if (!drawing) {
        fprintf(stderr, "rows: result %u\n", (unsigned)result);
        return 1;
    }
    fputs(drawing, stdout);
    free(drawing);
    return 0;
}
