/*
 * Draws a report. The header is bold, the results are green or red, and the seconds are right-aligned. The column of the remarks
 * has at most 24 terminal columns:
 *
 * +----------+---------+--------+------------------------+
 * | check    | seconds | result | remark                 |
 * +======================================================+
 * | links    |    12.8 | passed |                        |
 * | spelling |     3.1 | failed | two words on the page  |
 * |          |         |        | that lists the ports   |
 * | tests    |   104.0 | passed | one of them took half  |
 * |          |         |        | of the time            |
 * +----------+---------+--------+------------------------+
 */
#include "comfy_table.h"

#include <stdio.h>
#include <string.h>

enum { ROWS = 4, COLUMNS = 4 };

static const char *const texts[ROWS][COLUMNS] = {
    {"check", "seconds", "result", "remark"},
    {"links", "12.8", "passed", ""},
    {"spelling", "3.1", "failed", "two words on the page that lists the ports"},
    {"tests", "104.0", "passed", "one of them took half of the time"},
};

static struct comfy_cell cell_of(const char *text, int is_name) {
    struct comfy_cell cell = {.length = strlen(text)};
    if (is_name) cell.look.attributes = COMFY_ATTRIBUTE_BOLD;
    if (!strcmp(text, "passed")) cell.look.foreground = (struct comfy_color){.kind = COMFY_COLOR_NUMBERED, .number = COMFY_GREEN};
    if (!strcmp(text, "failed")) cell.look.foreground = (struct comfy_color){.kind = COMFY_COLOR_NUMBERED, .number = COMFY_RED};
    return cell;
}

int main(void) {
    char joined[512];
    size_t length = 0;
    struct comfy_cell cells[ROWS * COLUMNS];
    struct comfy_row rows[ROWS];
    struct comfy_column columns[COLUMNS];
    for (int row = 0; row < ROWS; row++) {
        rows[row] = (struct comfy_row){.cells = COLUMNS};
        for (int column = 0; column < COLUMNS; column++) {
            const char *text = texts[row][column];
            struct comfy_cell cell = cell_of(text, row == 0);
            memcpy(joined + length, text, cell.length);
            length += cell.length;
            cells[row * COLUMNS + column] = cell;
        }
    }
    for (int column = 0; column < COLUMNS; column++) columns[column] = (struct comfy_column)COMFY_COLUMN;
    columns[1].alignment = COMFY_ALIGNED_RIGHT;
    columns[3].constraint = COMFY_CONSTRAINT_UPPER_BOUNDARY;
    columns[3].width.value = 24;
    struct comfy_cells_settings settings = COMFY_CELLS_SETTINGS;
    settings.style = COMFY_ASCII_FULL_CONDENSED;
    settings.arrangement = COMFY_DYNAMIC;
    settings.width = 72;
    settings.enforce_styling = 1;
    uint32_t result;
    char *drawing = comfy_cells_text((const uint8_t *)joined, length, cells, ROWS * COLUMNS, rows, ROWS, columns, COLUMNS, NULL, 0, &settings, &result);
    if (!drawing) {
        fprintf(stderr, "cells: result %u\n", (unsigned)result);
        return 1;
    }
    fputs(drawing, stdout);
    free(drawing);
    return 0;
}
