/*
 * Calls comfy_cells_draw, and compares each result with the one that comfy_table.h gives. Prints each fault, and ends with status
 * 1 if there is one. Each array that a call reads or writes ends at the end of a page, and no page follows. So a read or a write
 * after its end ends the program.
 */
#define _GNU_SOURCE
#include "comfy_table.h"

#include <stdio.h>
#include <stdlib.h>
#include <string.h>
#include <sys/mman.h>
#include <unistd.h>

enum { UNTOUCHED = 7, KEPT = 77 };

static int wrong;

static void expect(const char *what, int is_so) {
    if (is_so) return;
    wrong++;
    printf("wrong: %s\n", what);
}

/* Pages with a number of bytes at their end, and no page after them. */
struct region {
    uint8_t *pages, *bytes;
    size_t size, length;
};

static struct region new_region(size_t length) {
    size_t page = (size_t)sysconf(_SC_PAGESIZE), size = (length + page - 1) / page * page;
    uint8_t *pages = mmap(NULL, size + page, PROT_READ | PROT_WRITE, MAP_PRIVATE | MAP_ANONYMOUS, -1, 0);
    if (pages == MAP_FAILED || mprotect(pages + size, page, PROT_NONE)) exit(2);
    return (struct region){pages, pages + size - length, size + page, length};
}

static struct region copied(const void *bytes, size_t length) {
    struct region region = new_region(length);
    if (length) memcpy(region.bytes, bytes, length);
    return region;
}

static void unmap(struct region region) {
    munmap(region.pages, region.size);
}

/* The arguments of comfy_cells_draw, with room for a fixed number of cells, rows and columns. */
struct table {
    const char *texts;
    size_t length;
    struct comfy_cell cells[4];
    struct comfy_row rows[3];
    struct comfy_column columns[2];
    size_t cell_count, row_count, column_count;
    const char *indicator;
    struct comfy_cells_settings settings;
};

static const struct comfy_column PADDED = {.left_padding = 1, .right_padding = 1};

/* A header of two cells, and a row of two cells. */
static struct table plain(void) {
    return (struct table){"namedaysoats3", 13, {{.length = 4}, {.length = 4}, {.length = 4}, {.length = 1}}, {{2, 0}, {2, 0}}, {PADDED, PADDED},
        4, 2, 2, "", {.width = COMFY_NO_WIDTH, .has_header = 1, .enforce_styling = 1}};
}

/* Typed by hand. */
static const char PLAIN[] =
    "+------+------+\n"
    "| name | days |\n"
    "+=============+\n"
    "| oats | 3    |\n"
    "+------+------+\n";

/* The result of a call, and the bytes that it wrote. */
struct call {
    uint32_t status;
    size_t needed;
    struct region output;
};

static struct call made(const struct table *table, size_t room) {
    struct call call = {0, KEPT, new_region(room)};
    memset(call.output.bytes, UNTOUCHED, room);
    struct region texts = copied(table->texts, table->length), indicator = copied(table->indicator, strlen(table->indicator));
    struct region cells = copied(table->cells, table->cell_count * sizeof *table->cells);
    struct region rows = copied(table->rows, table->row_count * sizeof *table->rows);
    struct region columns = copied(table->columns, table->column_count * sizeof *table->columns);
    struct region settings = copied(&table->settings, sizeof table->settings);
    call.status = comfy_cells_draw(texts.bytes, texts.length, (const void *)cells.bytes, table->cell_count, (const void *)rows.bytes,
                                   table->row_count, (const void *)columns.bytes, table->column_count, indicator.bytes, indicator.length,
                                   (const void *)settings.bytes, call.output.bytes, room, &call.needed);
    unmap(texts);
    unmap(indicator);
    unmap(cells);
    unmap(rows);
    unmap(columns);
    unmap(settings);
    return call;
}

static int is_untouched(const struct call *call, size_t from) {
    for (size_t i = from; i < call->output.length; i++)
        if (call->output.bytes[i] != UNTOUCHED) return 0;
    return 1;
}

static int is_put(const struct call *call, const char *text) {
    size_t length = strlen(text);
    return call->status == COMFY_DRAWN && call->needed == length && length <= call->output.length
        && !memcmp(call->output.bytes, text, length) && is_untouched(call, length);
}

/* Expects a drawing of a table: in buffers of its length and of more bytes, in memory of malloc, and not in a smaller buffer. */
static void expect_drawn(const char *what, const struct table *table, const char *text) {
    size_t length = strlen(text);
    struct call full = made(table, length), more = made(table, length + 20), less = made(table, length - 1);
    expect(what, is_put(&full, text));
    expect(what, is_put(&more, text));
    expect(what, less.status == COMFY_ROOM_TOO_SMALL && less.needed == length && is_untouched(&less, 0));
    unmap(full.output);
    unmap(more.output);
    unmap(less.output);
    uint32_t result = KEPT;
    char *drawing = comfy_cells_text((const uint8_t *)table->texts, table->length, table->cells, table->cell_count, table->rows, table->row_count,
                                     table->columns, table->column_count, (const uint8_t *)table->indicator, strlen(table->indicator),
                                     &table->settings, &result);
    expect(what, drawing && result == COMFY_DRAWN && !strcmp(drawing, text));
    free(drawing);
}

static void expect_refused(const char *what, const struct table *table, uint32_t status) {
    struct call call = made(table, 400);
    expect(what, call.status == status && call.needed == KEPT && is_untouched(&call, 0));
    unmap(call.output);
    uint32_t result = KEPT;
    char *drawing = comfy_cells_text((const uint8_t *)table->texts, table->length, table->cells, table->cell_count, table->rows, table->row_count,
                                     table->columns, table->column_count, (const uint8_t *)table->indicator, strlen(table->indicator),
                                     &table->settings, &result);
    expect(what, !drawing && result == status);
}

static void expect_texts_are_refused(void) {
    struct table table = plain();
    table.texts = "namedays\xff" "ats3";
    expect_refused("0xFF is no UTF-8", &table, COMFY_INPUT_REFUSED);
    table.texts = "namedayoatss\xc3";
    expect_refused("half a character isn't either", &table, COMFY_INPUT_REFUSED);
    table = plain();
    table.indicator = "\xe2\x80";
    expect_refused("an indicator is UTF-8", &table, COMFY_INPUT_REFUSED);
    table = plain();
    table.length--;
    expect_refused("a text is too short", &table, COMFY_LENGTHS_REFUSED);
    table = plain();
    table.cells[0].length = SIZE_MAX;
    expect_refused("a length is the greatest number", &table, COMFY_LENGTHS_REFUSED);
    table = plain();
    table.cells[3].length = 0;
    expect_refused("a byte is in no cell", &table, COMFY_LENGTHS_REFUSED);
    table = plain();
    table.rows[1].cells = 3;
    expect_refused("a cell is missing", &table, COMFY_LENGTHS_REFUSED);
    table.rows[1].cells = 1;
    expect_refused("a cell is in no row", &table, COMFY_LENGTHS_REFUSED);
    table = plain();
    table.texts = "\xff" "amedaysoats3";
    table.cells[3].length = 5;
    expect_refused("lengths are looked at before texts", &table, COMFY_LENGTHS_REFUSED);
    table = plain();
    table.indicator = "\xe2\x80";
    table.rows[1].cells = 3;
    expect_refused("counts are looked at before the indicator", &table, COMFY_LENGTHS_REFUSED);
    table.settings.form = COMFY_FORM_CONTENT_WIDTHS + 1;
    expect_refused("settings are looked at first", &table, COMFY_SETTINGS_REFUSED);
}

/* Expects that comfy_cells_draw refuses a setting, and that comfy_cells_refused names this setting. */
static void expect_setting_refused(const char *what, const struct table *table, uint32_t which) {
    expect_refused(what, table, COMFY_SETTINGS_REFUSED);
    expect(what, comfy_cells_refused(&table->settings) == which);
}

static void expect_settings_are_refused(void) {
    struct table table = plain();
    table.settings.form = COMFY_FORM_CONTENT_WIDTHS + 1;
    expect_setting_refused("there is no such form", &table, COMFY_FORM_REFUSED);
    table = plain();
    table.settings.style = COMFY_ROUNDED + 1;
    expect_setting_refused("there is no such style", &table, COMFY_STYLE_REFUSED);
    table = plain();
    table.settings.arrangement = COMFY_DYNAMIC_FULL_WIDTH + 1;
    expect_setting_refused("there is no such arrangement", &table, COMFY_ARRANGEMENT_REFUSED);
}

/* A number without a meaning changes nothing, whichever setting has it. */
static void expect_unknown_numbers_are_none(void) {
    struct table table = plain();
    expect_drawn("a table is drawn", &table, PLAIN);
    const struct comfy_color none = {COMFY_COLOR_BY_PARTS + 1, 1, 2, 3, 4};
    for (size_t i = 0; i < table.cell_count; i++) {
        table.cells[i].delimiter = 0xD800;
        table.cells[i].look.alignment = COMFY_ALIGNED_CENTER + 1;
        table.cells[i].look.attributes = 0xF0000000;
        table.cells[i].look.foreground = table.cells[i].look.background = none;
    }
    for (size_t i = 0; i < table.column_count; i++) {
        table.columns[i].delimiter = 0xDFFF;
        table.columns[i].alignment = UINT32_MAX;
        table.columns[i].constraint = COMFY_CONSTRAINT_BOUNDARIES + 1;
    }
    table.rows[0].max_height = COMFY_NO_LIMIT;
    table.settings.delimiter = COMFY_NUL + 1;
    table.settings.width = 65536;
    table.settings.arrangement = COMFY_DYNAMIC_FULL_WIDTH;
    table.settings.frame.top_border.left = '*';
    expect_drawn("numbers that stand for nothing are none", &table, PLAIN);
}

static void expect_settings_are_kept(void) {
    struct table table = plain();
    table.cells[1].look.alignment = COMFY_ALIGNED_CENTER;
    table.cells[2].look.foreground = (struct comfy_color){COMFY_COLOR_NUMBERED, COMFY_RED, 0, 0, 0};
    table.cells[2].look.attributes = COMFY_ATTRIBUTE_BOLD | COMFY_ATTRIBUTE_OVERLINED;
    table.cells[3].look.background = (struct comfy_color){COMFY_COLOR_BY_PARTS, 0, 1, 2, 3};
    table.columns[1].alignment = COMFY_ALIGNED_RIGHT;
    table.columns[1].constraint = COMFY_CONSTRAINT_LOWER_BOUNDARY;
    table.columns[1].width.value = 9;
    expect_drawn("cells have colours and sides", &table,
                 "+------+---------+\n"
                 "| name |   days  |\n"
                 "+================+\n"
                 "|\033[38;5;9m\033[1m\033[53m oats \033[0m|\033[48;2;1;2;3m       3 \033[49m|\n"
                 "+------+---------+\n");
    table = plain();
    table.column_count = 1;
    table.columns[0].constraint = COMFY_CONSTRAINT_ABSOLUTE;
    table.columns[0].width.value = 4;
    table.columns[0].left_padding = 2;
    table.columns[0].right_padding = 0;
    table.rows[1].max_height = 1;
    table.indicator = "~";
    table.settings.style = COMFY_OWN_STYLE;
    table.settings.frame.header_lines = table.settings.frame.content_lines = (struct comfy_content_line){0, 0, 0x2502};
    table.settings.frame.header_separator = (struct comfy_line){0, '-', 0, COMFY_NUL - 1};
    table.settings.form = COMFY_FORM_TRIMMED;
    expect_drawn("a row is cut, without the cells that have no column", &table,
                 "  na\xe2\x94\x82\n"
                 "  me\xe2\x94\x82\n"
                 "----\xf4\x8f\xbf\xbf\n"
                 "  o~\xe2\x94\x82");
    table = plain();
    table.column_count = 1;
    table.settings.has_header = 0;
    table.settings.form = COMFY_FORM_CONTENT_WIDTHS;
    expect_drawn("widths are counted", &table, "4\n");
}

/* Every style and arrangement at extreme widths: the drawing fills a buffer of the length that a first call returned. */
static void expect_all_fill(void) {
    static const uint32_t widths[] = {0, 1, 40, 65535, 65536, COMFY_NO_WIDTH};
    for (uint32_t style = COMFY_ASCII_FULL; style <= COMFY_ROUNDED; style++)
        for (uint32_t arrangement = COMFY_DISABLED; arrangement <= COMFY_DYNAMIC_FULL_WIDTH; arrangement++)
            for (size_t i = 0; i < sizeof widths / sizeof *widths; i++) {
                struct table table = plain();
                table.columns[1].left_padding = table.columns[1].right_padding = (uint16_t)(i % 2 * 65535);
                table.settings.style = style;
                table.settings.arrangement = arrangement;
                table.settings.width = widths[i];
                struct call first = made(&table, 0), call = made(&table, first.needed);
                expect("a drawing fills the buffer of the returned length", first.status == COMFY_ROOM_TOO_SMALL && call.status == COMFY_DRAWN
                       && call.needed == first.needed && call.output.bytes[call.needed - 1] == '\n');
                unmap(first.output);
                unmap(call.output);
            }
}

/* Pointers of length 0 may be null. An empty table has no line in the style NOTHING, and two lines in ASCII_FULL. */
static void expect_null_is_read_nowhere(void) {
    size_t needed = KEPT;
    struct comfy_cells_settings settings = {.style = COMFY_NOTHING, .has_header = 1};
    uint32_t status = comfy_cells_draw(NULL, 0, NULL, 0, NULL, 0, NULL, 0, NULL, 0, &settings, NULL, 0, &needed);
    expect("an empty drawing fits no room", status == COMFY_DRAWN && needed == 0);
    settings.style = COMFY_ASCII_FULL;
    status = comfy_cells_draw(NULL, 0, NULL, 0, NULL, 0, NULL, 0, NULL, 0, &settings, NULL, 0, &needed);
    expect("frame lines take room", status == COMFY_ROOM_TOO_SMALL && needed == strlen("++\n++\n"));
}

int main(void) {
    expect_texts_are_refused();
    expect_settings_are_refused();
    expect_unknown_numbers_are_none();
    expect_settings_are_kept();
    expect_all_fill();
    expect_null_is_read_nowhere();
    if (!wrong) printf("cells: all as comfy_table.h says\n");
    return wrong ? 1 : 0;
}
