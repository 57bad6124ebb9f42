/*
 * Refuses each request for memory of a call, one after another. The call then has to return COMFY_OUT_OF_MEMORY, leave its buffer
 * unchanged, and free all memory. Link it with -Wl,--wrap=malloc,--wrap=realloc,--wrap=free.
 */
#include "comfy_table.h"

#include <stdio.h>
#include <stdlib.h>
#include <string.h>

void *__real_malloc(size_t size);
void *__real_realloc(void *block, size_t size);
void __real_free(void *block);

static long refused_one, requests, held;

static int is_refused(void) {
    return ++requests == refused_one;
}

void *__wrap_malloc(size_t size) {
    void *block = is_refused() ? NULL : __real_malloc(size);
    if (block) held++;
    return block;
}

void *__wrap_realloc(void *block, size_t size) {
    void *moved = is_refused() ? NULL : __real_realloc(block, size);
    if (moved && !block) held++;
    return moved;
}

void __wrap_free(void *block) {
    if (block) held--;
    __real_free(block);
}

static uint8_t output[8192], written[8192];

/* Calls that all have the same result if there is memory. */

static uint32_t cells_are_drawn(size_t *needed) {
    static const uint8_t texts[] = "namedaysoats and \xe9\x9b\xa8 more3";
    static const struct comfy_cell cells[] = {{.length = 4, .look.attributes = COMFY_ATTRIBUTE_BOLD}, {.length = 4}, {.length = 17, .delimiter = 'd'},
        {.length = 1, .look.foreground = {COMFY_COLOR_NUMBERED, COMFY_RED, 0, 0, 0}}};
    static const struct comfy_row rows[] = {{2, 0}, {2, 2}};
    static const struct comfy_column columns[] = {{1, 1, 0, 0, COMFY_CONSTRAINT_UPPER_BOUNDARY, {0, 8}, {0, 0}}, {.left_padding = 1}};
    const struct comfy_cells_settings settings = {.arrangement = COMFY_DYNAMIC, .width = 20, .has_header = 1, .enforce_styling = 1, .custom_styling = 1};
    return comfy_cells_draw(texts, sizeof texts - 1, cells, 4, rows, 2, columns, 2, (const uint8_t *)"..", 2, &settings, output, sizeof output, needed);
}

static uint32_t widths_are_counted(size_t *needed) {
    static const struct comfy_cell cells[] = {{.length = 4}, {.length = 9}};
    static const struct comfy_row rows[] = {{2, 0}};
    static const struct comfy_column columns[] = {{.left_padding = 1}, {.left_padding = 1}};
    const struct comfy_cells_settings settings = {.form = COMFY_FORM_CONTENT_WIDTHS};
    return comfy_cells_draw((const uint8_t *)"namedays\n3\n4", 13, cells, 2, rows, 1, columns, 2, NULL, 0, &settings, output, sizeof output, needed);
}

static uint32_t csv_with(const char *arguments, size_t length, size_t *needed) {
    static const uint8_t input[] = "name,days\noats and \xe9\x9b\xa8 more,3\n\"a\nb\",,\n";
    return comfy_csv_draw(input, sizeof input - 1, (const uint8_t *)arguments, length, output, sizeof output, needed);
}

static uint32_t csv_is_drawn(size_t *needed) {
    static const char arguments[] = "-c\0name,days\0-w\0" "20\0-s\0ascii";
    return csv_with(arguments, sizeof arguments, needed);
}

static uint32_t records_are_drawn(size_t *needed) {
    static const char arguments[] = "-x\0--color=always\0--limit=1";
    return csv_with(arguments, sizeof arguments, needed);
}

static uint32_t markdown_is_drawn(size_t *needed) {
    static const char arguments[] = "--markdown\0-e\0latin1";
    return csv_with(arguments, sizeof arguments, needed);
}

static uint32_t rows_are_drawn(size_t *needed) {
    static const uint8_t texts[] = "namedaysoats and \xe9\x9b\xa8 more3";
    static const struct comfy_rows_column columns[] = {{1, 1, COMFY_COLUMN_RIGHT, 0, 0}, {1, 1, COMFY_COLUMN_LEFT, 0, 0}, {1, 1, COMFY_COLUMN_HIDDEN, 0, 0}};
    static const size_t lengths[] = {4, 4, 17, 1, 0}, counts[] = {2, 3};
    const struct comfy_rows_settings settings = {.max_height = 3, .limit = COMFY_NO_LIMIT, .width = 12, .has_header = 1};
    return comfy_rows_draw(texts, sizeof texts - 1, lengths, 5, counts, 2, NULL, 0, NULL, 0, columns, 3, &settings, output, sizeof output, needed);
}

static uint32_t rows_with_settings_are_drawn(size_t *needed) {
    static const uint8_t texts[] = "namedaysoats and \xe9\x9b\xa8 more3.5";
    static const struct comfy_rows_column columns[] = {{0, 1, COMFY_COLUMN_BY_CONTENTS, 3, 7}, {2, 0, COMFY_COLUMN_CENTER, 0, 0}};
    static const size_t lengths[] = {4, 4, 17, 3}, counts[] = {2, 2}, heights[] = {0, 1};
    static const struct comfy_look looks[] = {{.attributes = COMFY_ATTRIBUTE_BOLD}, {0}, {.foreground = {COMFY_COLOR_NUMBERED, COMFY_RED, 0, 0, 0}},
        {.alignment = COMFY_ALIGNED_LEFT, .attributes = COMFY_ATTRIBUTE_DIM | COMFY_ATTRIBUTE_ITALIC}};
    const struct comfy_rows_settings settings = {.max_height = COMFY_NO_LIMIT, .limit = COMFY_NO_LIMIT, .width = 30, .has_header = 1, .aligns_decimals = 1};
    return comfy_rows_draw(texts, sizeof texts - 1, lengths, 4, counts, 2, looks, 4, heights, 2, columns, 2, &settings, output, sizeof output, needed);
}

static uint32_t column_is_refused(size_t *needed) {
    static const char arguments[] = "-r\0zz\0file";
    return csv_with(arguments, sizeof arguments, needed);
}

static uint32_t word_is_refused(size_t *needed) {
    static const char arguments[] = "--wdith\0" "20";
    return csv_with(arguments, sizeof arguments, needed);
}

static int is_untouched(void) {
    for (size_t i = 0; i < sizeof output; i++)
        if (output[i] != 9) return 0;
    return 1;
}

/*
 * Refuses each request of a call in turn, until the call makes no further request. A call can succeed without some requests: a list
 * that can't double its memory then grows by as much as it needs. In this case the call must write the same bytes.
 */
static long wrong_in(const char *what, uint32_t (*call)(size_t *), uint32_t wanted) {
    long wrong = 0, spared = 0;
    size_t whole = 7;
    refused_one = 0;
    if (call(&whole) != wanted || whole > sizeof output) wrong++;
    memcpy(written, output, sizeof output);
    do {
        size_t needed = 7;
        memset(output, 9, sizeof output);
        refused_one++;
        requests = held = 0;
        uint32_t status = call(&needed);
        if (held != 0) wrong++;
        if (status == COMFY_OUT_OF_MEMORY ? needed != 7 || !is_untouched() : status != wanted || needed != whole || memcmp(output, written, whole)) wrong++;
        if (status == wanted && refused_one <= requests) spared++;
    } while (refused_one <= requests);
    if (refused_one == 1 || spared == refused_one - 1) wrong++;
    printf("%s: %ld requests refused in turn, %ld of them spared, %ld wrong\n", what, refused_one - 1, spared, wrong);
    return wrong;
}

int main(void) {
    long wrong = wrong_in("cells", cells_are_drawn, COMFY_DRAWN);
    wrong += wrong_in("widths of cells", widths_are_counted, COMFY_DRAWN);
    wrong += wrong_in("csv", csv_is_drawn, COMFY_DRAWN);
    wrong += wrong_in("expanded records", records_are_drawn, COMFY_DRAWN);
    wrong += wrong_in("markdown", markdown_is_drawn, COMFY_DRAWN);
    wrong += wrong_in("rows", rows_are_drawn, COMFY_DRAWN);
    wrong += wrong_in("rows with settings", rows_with_settings_are_drawn, COMFY_DRAWN);
    wrong += wrong_in("a column that isn't there", column_is_refused, COMFY_INPUT_REFUSED);
    wrong += wrong_in("an unknown argument", word_is_refused, COMFY_SETTINGS_REFUSED);
    return wrong ? 1 : 0;
}
