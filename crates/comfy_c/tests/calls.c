/*
 * Calls comfy_csv_draw and comfy_rows_draw with bad and extreme arguments, and compares each result with the one that
 * comfy_table.h gives. Prints each fault, and ends with status 1 if there is one. Each buffer is exactly as long as the length that
 * is passed for it, so that valgrind finds a read or a write after its end.
 */
#include "comfy_table.h"

#include <pthread.h>
#include <stdio.h>
#include <stdlib.h>
#include <string.h>

#define CSV "name,days\noats,3\n"
#define UNTOUCHED 7
#define KEPT 77

/* Typed by hand. */
static const char DRAWING[] =
    "+------+------+\n"
    "| name | days |\n"
    "+=============+\n"
    "| oats | 3    |\n"
    "+------+------+\n";

static const char CSV_DRAWING[] =
    "+------+------+\n"
    "| name | days |\n"
    "+=============+\n"
    "| oats |    3 |\n"
    "+------+------+\n";

static const char WITHOUT_DAYS[] =
    "+------+\n"
    "| name |\n"
    "+======+\n"
    "| oats |\n"
    "+------+\n";

static const char NOT_UTF8[] = "csvtable: standard input: line 2 isn't UTF-8; try -e cp1252, or iconv -f ENCODING FILE | "
                               "csvtable\n";

enum { LENGTH = sizeof DRAWING - 1, THREADS = 4, CALLS = 500 };

static int wrong;

static void expect(const char *what, int is_so) {
    if (is_so) return;
    wrong++;
    printf("wrong: %s\n", what);
}

/* Bytes that a caller passes. */
struct bytes {
    const char *at;
    size_t length;
};

/* The bytes of a string of C, without the zero byte at its end. */
#define TEXT(text) ((struct bytes){text, sizeof(text) - 1})

/* Returns a copy of some bytes, in memory of exactly their length. */
static uint8_t *copied(struct bytes bytes) {
    uint8_t *copy = malloc(bytes.length);
    if (bytes.length && !copy) exit(2);
    if (bytes.length) memcpy(copy, bytes.at, bytes.length);
    return copy;
}

/* The result of a call. The call read copies of its arguments, and wrote to a buffer of its own. */
struct call {
    uint32_t status;
    size_t needed;
    uint8_t *output;
    size_t room;
};

static struct call with_room(size_t room) {
    struct call call = {0, KEPT, malloc(room), room};
    if (room && !call.output) exit(2);
    if (room) memset(call.output, UNTOUCHED, room);
    return call;
}

static struct call made_csv(struct bytes input, struct bytes arguments, size_t room) {
    struct call call = with_room(room);
    uint8_t *copy = copied(input), *argument = copied(arguments);
    call.status = comfy_csv_draw(copy, input.length, argument, arguments.length, call.output, room, &call.needed);
    free(copy);
    free(argument);
    return call;
}

/* The arguments of comfy_rows_draw, with room for a fixed number of texts and rows. */
struct rows {
    struct bytes texts;
    size_t lengths[8], length_count, counts[4], count_count;
    struct comfy_rows_column columns[3];
    size_t column_count;
    struct comfy_look looks[5];
    size_t look_count, heights[3], height_count;
};


/* A header with the texts name and days, and a row with oats and 3. */
static const struct rows ROWS = {{"namedaysoats3", 13}, {4, 4, 4, 1}, 4, {2, 2}, 2, {COMFY_PLAIN_COLUMN}, 0, {{0}}, 0, {0}, 0};

/* Sets the sides of columns. Their other settings are those of COMFY_PLAIN_COLUMN. */
static void set_sides(struct rows *rows, struct bytes sides) {
    rows->column_count = sides.length;
    for (size_t i = 0; i < sides.length; i++) rows->columns[i] = (struct comfy_rows_column){1, 1, (uint8_t)sides.at[i], 0, 0};
}

static struct comfy_rows_settings plain_settings(void) {
    return (struct comfy_rows_settings){.max_height = COMFY_NO_LIMIT, .limit = COMFY_NO_LIMIT, .width = COMFY_NO_WIDTH, .has_header = 1};
}

static struct call made_rows(const struct rows *rows, struct comfy_rows_settings settings, size_t room) {
    struct call call = with_room(room);
    uint8_t *texts = copied(rows->texts);
    void *columns = copied((struct bytes){(const char *)rows->columns, rows->column_count * sizeof *rows->columns});
    size_t *lengths = (size_t *)copied((struct bytes){(const char *)rows->lengths, rows->length_count * sizeof(size_t)});
    size_t *counts = (size_t *)copied((struct bytes){(const char *)rows->counts, rows->count_count * sizeof(size_t)});
    void *looks = copied((struct bytes){(const char *)rows->looks, rows->look_count * sizeof *rows->looks});
    size_t *heights = (size_t *)copied((struct bytes){(const char *)rows->heights, rows->height_count * sizeof(size_t)});
    call.status = comfy_rows_draw(texts, rows->texts.length, lengths, rows->length_count, counts, rows->count_count, looks,
                                  rows->look_count, heights, rows->height_count, columns, rows->column_count, &settings, call.output,
                                  room, &call.needed);
    free(looks);
    free(heights);
    free(texts);
    free(columns);
    free(lengths);
    free(counts);
    return call;
}

/* Returns true if the bytes of a buffer from a position on are unchanged. */
static int is_untouched(const struct call *call, size_t from) {
    for (size_t i = from; i < call->room; i++)
        if (call->output[i] != UNTOUCHED) return 0;
    return 1;
}

/* Returns true if a text is at the front of a call's buffer, and nothing was written after it. */
static int is_put(const struct call *call, struct bytes text) {
    return call->needed == text.length && text.length <= call->room && !memcmp(call->output, text.at, text.length)
        && is_untouched(call, text.length);
}

/* Expects a drawing or a message of comfy_csv_draw: in buffers of its length and of more bytes, and not in a smaller one. */
static void expect_csv(const char *what, struct bytes input, struct bytes arguments, uint32_t status, struct bytes text) {
    uint32_t without = status == COMFY_DRAWN ? COMFY_ROOM_TOO_SMALL : status;
    struct call full = made_csv(input, arguments, text.length), more = made_csv(input, arguments, text.length + 20);
    struct call less = made_csv(input, arguments, text.length - 1), none = made_csv(input, arguments, 0);
    expect(what, full.status == status && is_put(&full, text));
    expect(what, more.status == status && is_put(&more, text));
    expect(what, less.status == without && less.needed == text.length && is_untouched(&less, 0));
    expect(what, none.status == without && none.needed == text.length);
    free(full.output);
    free(more.output);
    free(less.output);
    free(none.output);
}

/* Expects a message on arguments that contains a part. */
static void expect_reported(const char *what, struct bytes arguments, const char *part) {
    struct call call = made_csv(TEXT(CSV), arguments, 8192);
    int is_text = call.status == COMFY_SETTINGS_REFUSED && call.needed && call.needed < call.room && call.output[call.needed - 1] == '\n';
    expect(what, is_text && is_untouched(&call, call.needed));
    if (is_text) {
        call.output[call.needed] = 0;
        expect(what, strstr((char *)call.output, part) != NULL);
    }
    free(call.output);
}

/* Arguments end at zero bytes, and choose the drawing. */
static void expect_words_are_read(void) {
    struct bytes drawing = TEXT(CSV_DRAWING);
    expect_csv("csv is drawn as arguments ask", TEXT(CSV), TEXT("-s\0ascii\0"), COMFY_DRAWN, drawing);
    expect_csv("the last argument may lack its end", TEXT(CSV), TEXT("-s\0ascii"), COMFY_DRAWN, drawing);
    expect_csv("an argument may be empty", TEXT(CSV), TEXT("-s\0ascii\0\0"), COMFY_DRAWN, drawing);
    expect_csv("the last argument counts", TEXT(CSV), TEXT("-s\0ascii\0--drop\0days\0"), COMFY_DRAWN, TEXT(WITHOUT_DAYS));
    expect_csv("the first argument counts", TEXT(CSV), TEXT("--drop=days\0-s\0ascii"), COMFY_DRAWN, TEXT(WITHOUT_DAYS));
    expect_csv("a name may tell the delimiter", TEXT("name\tdays\noats\t3\n"), TEXT("-sascii\0no/such.tsv"), COMFY_DRAWN, drawing);
}

static void expect_refusals_are_said(void) {
    struct bytes bad = TEXT("name,days\noats,\xff\n");
    expect_csv("0xFF is no UTF-8 in csv", bad, TEXT(""), COMFY_INPUT_REFUSED, TEXT(NOT_UTF8));
    expect_csv("a message names the file", bad, TEXT("no/such.csv\0"), COMFY_INPUT_REFUSED,
               TEXT("csvtable: no/such.csv: line 2 isn't UTF-8; try -e cp1252, or iconv -f ENCODING FILE | csvtable\n"));
    expect_csv("a NUL is no text", TEXT("a\0"), TEXT(""), COMFY_INPUT_REFUSED,
               TEXT("csvtable: standard input: line 1 has a NUL byte, so this isn't text; -e utf-8 reads it anyway\n"));
    expect_csv("an encoding says that it is", TEXT("a\0\n"), TEXT("-sascii\0-eutf-8"), COMFY_DRAWN,
               TEXT("+----+\n| a\xef\xbf\xbd |\n+====+\n+----+\n"));
    expect_csv("a column isn't there", TEXT(CSV), TEXT("-c\0zz\0"), COMFY_INPUT_REFUSED,
               TEXT("csvtable: standard input: no column 'zz'; there are 'name' and 'days'\n"));
    expect_csv("a quote isn't closed", TEXT("a\n\"b"), TEXT(""), COMFY_INPUT_REFUSED,
               TEXT("csvtable: standard input: a quote that opens in line 2 is never closed; try --no-quotes\n"));
    expect_csv("0xFF is no UTF-8 in arguments", TEXT(CSV), TEXT("-s\0\xff\0"), COMFY_SETTINGS_REFUSED, TEXT("csvtable: an argument isn't UTF-8\n"));
    expect_csv("half a character isn't either", TEXT(CSV), TEXT("\xe9\x9b\0"), COMFY_SETTINGS_REFUSED, TEXT("csvtable: an argument isn't UTF-8\n"));
    expect_reported("the version is reported", TEXT("--version"), "csvtable ");
    expect_reported("help is reported", TEXT("-h\0"), "Usage: csvtable [OPTIONS] [FILE]\n");
    expect_reported("an unknown argument is reported", TEXT("--nope\0"), "'--nope'");
    expect_reported("two files are too many", TEXT("a\0b\0"), "csvtable draws one file");
    expect_reported("a width is a number", TEXT("-w\0wide\0"), "'wide'");
    expect_reported("ESC in an argument isn't reported", TEXT("--\x1b[31m"), "error: ");
}

/* Returns true if the drawing of a call fills the buffer whose length an earlier call returned. */
static int is_filled(const struct call *first, const struct call *call) {
    return first->status == (first->needed ? COMFY_ROOM_TOO_SMALL : COMFY_DRAWN) && call->status == COMFY_DRAWN
        && call->needed == first->needed && (!call->needed || call->output[call->needed - 1] == '\n');
}

/* Draws CSV in each style, with extreme values of other arguments, in buffers of exactly the length of the drawing. */
static void expect_csv_fills(struct bytes input) {
    static const char *styles[] = {"rounded", "box", "grid", "ascii", "plain", "markdown", "UTF8_BORDERS_ONLY", "NOTHING"};
    static const char *others[] = {"-w0", "-w1", "-w65535", "-x", "-m1", "--color=always", "--limit=1", "--ansi", "-ecp1252"};
    for (size_t style = 0; style < sizeof styles / sizeof *styles; style++)
        for (size_t other = 0; other < sizeof others / sizeof *others; other++) {
            char arguments[80];
            int count = snprintf(arguments, sizeof arguments, "-s%s%c%s", styles[style], 0, others[other]);
            struct bytes line = {arguments, (size_t)count};
            struct call first = made_csv(input, line, 0), call = made_csv(input, line, first.needed);
            expect("a drawing of csv fills the buffer of the returned length", is_filled(&first, &call));
            free(first.output);
            free(call.output);
        }
}

/* Expects a drawing of rows: in buffers of its length and of more bytes, and not in a smaller one. */
static void expect_rows(const char *what, const struct rows *rows, struct comfy_rows_settings settings, struct bytes text) {
    struct call full = made_rows(rows, settings, text.length), more = made_rows(rows, settings, text.length + 20);
    struct call less = made_rows(rows, settings, text.length - 1);
    expect(what, full.status == COMFY_DRAWN && is_put(&full, text));
    expect(what, more.status == COMFY_DRAWN && is_put(&more, text));
    expect(what, less.status == COMFY_ROOM_TOO_SMALL && less.needed == text.length && is_untouched(&less, 0));
    free(full.output);
    free(more.output);
    free(less.output);
    uint32_t result = KEPT;
    char *drawing = comfy_rows_text((const uint8_t *)rows->texts.at, rows->texts.length, rows->lengths, rows->length_count, rows->counts,
                                    rows->count_count, rows->looks, rows->look_count, rows->heights, rows->height_count, rows->columns,
                                    rows->column_count, &settings, &result);
    expect(what, drawing && result == COMFY_DRAWN && strlen(drawing) == text.length && !memcmp(drawing, text.at, text.length));
    free(drawing);
}

static void expect_rows_refused(const char *what, const struct rows *rows, struct comfy_rows_settings settings, uint32_t status) {
    struct call call = made_rows(rows, settings, 400);
    expect(what, call.status == status && call.needed == KEPT && is_untouched(&call, 0));
    free(call.output);
}

/* Expects that comfy_rows_draw refuses a setting, and that comfy_rows_refused names this setting. */
static void expect_setting_refused(const char *what, const struct rows *rows, struct comfy_rows_settings settings, uint32_t which) {
    expect_rows_refused(what, rows, settings, COMFY_SETTINGS_REFUSED);
    expect(what, comfy_rows_refused(rows->looks, rows->look_count, rows->heights, rows->height_count, rows->columns,
                                    rows->column_count, &settings) == which);
}

static void expect_rows_are_drawn(void) {
    struct comfy_rows_settings settings = plain_settings();
    struct rows rows = ROWS;
    expect_rows("rows are drawn", &rows, settings, TEXT(CSV_DRAWING));
    set_sides(&rows, TEXT("\1\1"));
    expect_rows("columns stand at the left", &rows, settings, TEXT(DRAWING));
    set_sides(&rows, TEXT("\0\3"));
    expect_rows("a column is left out", &rows, settings, TEXT(WITHOUT_DAYS));
    set_sides(&rows, TEXT("\0\4"));
    rows.columns[0] = (struct comfy_rows_column){0, 2, COMFY_COLUMN_LEFT, 3, 3};
    expect_rows("columns have settings", &rows, settings,
                TEXT("+-----+------+\n|nam  | days |\n|e    |      |\n+============+\n|oat  |   3  |\n|s    |      |\n+-----+------+\n"));
    rows = (struct rows){{"a\nbc", 4}, {3, 0, 1}, 3, {1, 0, 2}, 3, {{1, 1, COMFY_COLUMN_RIGHT, 0, 0}}, 1, {{0}}, 0, {0}, 0};
    settings.has_header = 0;
    settings.style = COMFY_ROUNDED;
    settings.row_lines = COMFY_LINES_NOWHERE;
    expect_rows("rows of any length", &rows, settings,
                TEXT("\xe2\x95\xad\xe2\x94\x80\xe2\x94\x80\xe2\x94\x80\xe2\x94\xac\xe2\x94\x80\xe2\x94\x80\xe2\x94\x80\xe2\x95\xae\n"
                     "\xe2\x94\x82 a \xe2\x94\x86   \xe2\x94\x82\n"
                     "\xe2\x94\x82 b \xe2\x94\x86   \xe2\x94\x82\n"
                     "\xe2\x94\x82   \xe2\x94\x86   \xe2\x94\x82\n"
                     "\xe2\x94\x82   \xe2\x94\x86 c \xe2\x94\x82\n"
                     "\xe2\x95\xb0\xe2\x94\x80\xe2\x94\x80\xe2\x94\x80\xe2\x94\xb4\xe2\x94\x80\xe2\x94\x80\xe2\x94\x80\xe2\x95\xaf\n"));
    rows = ROWS;
    settings = plain_settings();
    settings.is_markdown = 1;
    expect_rows("rows are drawn for Markdown", &rows, settings, TEXT("| name | days |\n|------|-----:|\n| oats |    3 |\n"));
    settings = plain_settings();
    settings.style = COMFY_OWN_STYLE;
    settings.frame.top_border = settings.frame.bottom_border = (struct comfy_line){'(', '=', '^', ')'};
    settings.frame.header_lines = settings.frame.content_lines = (struct comfy_content_line){'[', 0x2502, ']'};
    expect_rows("rows have a frame of their own", &rows, settings,
                TEXT("(======^======)\n[ name \xe2\x94\x82 days ]\n[ oats \xe2\x94\x82    3 ]\n(======^======)\n"));
    settings = plain_settings();
    settings.limit = 0;
    expect_rows("rows are limited", &rows, settings, TEXT("+------+------+\n| name | days |\n+=============+\n+------+------+\n0 of 1 rows\n"));
}

static void expect_rows_have_looks_and_heights(void) {
    struct comfy_rows_settings settings = plain_settings();
    struct rows rows = {{"namedaysoats\nrye3", 17}, {4, 4, 8, 1}, 4, {2, 2}, 2, {COMFY_PLAIN_COLUMN}, 0, {{0}}, 4, {0}, 0};
    rows.looks[0].attributes = COMFY_ATTRIBUTE_BOLD;
    rows.looks[2].foreground = (struct comfy_color){COMFY_COLOR_NUMBERED, COMFY_RED, 0, 0, 0};
    rows.looks[3] = (struct comfy_look){COMFY_ALIGNED_CENTER, 0, {0}, {COMFY_COLOR_BY_PARTS, 0, 1, 2, 3}};
    expect_rows("texts have looks", &rows, settings,
                TEXT("+------+------+\n|\x1b[1m name \x1b[0m| days |\n+=============+\n"
                     "|\x1b[38;5;9m oats \x1b[39m|\x1b[48;2;1;2;3m   3  \x1b[49m|\n"
                     "|\x1b[38;5;9m rye  \x1b[39m|      |\n+------+------+\n"));
    rows.look_count = 3;
    expect_rows_refused("a look is missing", &rows, settings, COMFY_LENGTHS_REFUSED);
    rows.look_count = 5;
    expect_rows_refused("there is a look too many", &rows, settings, COMFY_LENGTHS_REFUSED);
    rows.look_count = 0;
    rows.height_count = 2;
    rows.heights[1] = 1;
    expect_rows("a row has a height", &rows, settings,
                TEXT("+------+------+\n| name | days |\n+=============+\n| oat\xe2\x80\xa6 |    3 |\n+------+------+\n"));
    rows.height_count = 3;
    expect_rows_refused("there is a height too many", &rows, settings, COMFY_LENGTHS_REFUSED);
    rows.height_count = 1;
    expect_rows_refused("a height is missing", &rows, settings, COMFY_LENGTHS_REFUSED);
    rows.height_count = 2;
    settings.is_markdown = 1;
    expect_setting_refused("Markdown has no heights", &rows, settings, COMFY_TABLE_ONLY_REFUSED);
    rows.height_count = 0;
    rows.look_count = 4;
    expect_setting_refused("Markdown has no looks", &rows, settings, COMFY_TABLE_ONLY_REFUSED);
    settings.is_markdown = 0;
    settings.expansion = COMFY_EXPANDED_ALWAYS;
    expect_setting_refused("expanded rows have no looks", &rows, settings, COMFY_TABLE_ONLY_REFUSED);
}

static void expect_rows_are_refused(void) {
    struct comfy_rows_settings plain = plain_settings(), settings = plain;
    struct rows rows = ROWS;
    rows.texts = TEXT("name\xff\xff\xff\xffoats3");
    expect_rows_refused("0xFF is no UTF-8 in rows", &rows, plain, COMFY_INPUT_REFUSED);
    rows = (struct rows){{"\xc3\xa9", 2}, {1, 1}, 2, {2}, 1, {COMFY_PLAIN_COLUMN}, 0, {{0}}, 0, {0}, 0};
    expect_rows_refused("half a character isn't either", &rows, plain, COMFY_INPUT_REFUSED);
    rows = ROWS;
    rows.texts.length--;
    expect_rows_refused("a text is too short", &rows, plain, COMFY_LENGTHS_REFUSED);
    rows = ROWS;
    rows.length_count--;
    expect_rows_refused("a length is missing", &rows, plain, COMFY_LENGTHS_REFUSED);
    rows = ROWS;
    rows.counts[1] = SIZE_MAX;
    expect_rows_refused("a count is the greatest number", &rows, plain, COMFY_LENGTHS_REFUSED);
    rows.counts[1] = 1;
    expect_rows_refused("a cell is in no row", &rows, plain, COMFY_LENGTHS_REFUSED);
    rows = (struct rows){{"\xff" "a", 2}, {1, 5}, 2, {2}, 1, {COMFY_PLAIN_COLUMN}, 0, {{0}}, 0, {0}, 0};
    expect_rows_refused("lengths are looked at before texts", &rows, plain, COMFY_LENGTHS_REFUSED);
    rows = (struct rows){{"\xff" "a", 2}, {1, 1}, 2, {3}, 1, {COMFY_PLAIN_COLUMN}, 0, {{0}}, 0, {0}, 0};
    expect_rows_refused("counts are looked at before texts", &rows, plain, COMFY_LENGTHS_REFUSED);
    set_sides(&rows, TEXT("\5"));
    expect_setting_refused("a column's side is looked at first", &rows, plain, COMFY_SIDE_REFUSED);
    rows = ROWS;
    set_sides(&rows, TEXT("\5"));
    expect_setting_refused("there is no column's side 5", &rows, plain, COMFY_SIDE_REFUSED);
    set_sides(&rows, TEXT("\0\0\1"));
    expect_setting_refused("a side is for a column that isn't there", &rows, plain, COMFY_NONE_REFUSED);
    set_sides(&rows, TEXT("\3\3"));
    expect_setting_refused("no column is left", &rows, plain, COMFY_NONE_REFUSED);
    set_sides(&rows, TEXT("\4"));
    settings.is_markdown = 1;
    expect_setting_refused("Markdown has no column in the middle", &rows, settings, COMFY_TABLE_ONLY_REFUSED);
    settings = plain;
    settings.expansion = COMFY_EXPANDED_AUTO;
    expect_setting_refused("rows that may be expanded have none either", &rows, settings, COMFY_TABLE_ONLY_REFUSED);
    settings = plain;
    rows = ROWS;
    settings.style = COMFY_ROUNDED + 1;
    expect_setting_refused("there is no such style", &rows, settings, COMFY_STYLE_REFUSED);
    settings = plain;
    settings.row_lines = 3;
    expect_setting_refused("there are no such lines", &rows, settings, COMFY_ROW_LINES_REFUSED);
    settings = plain;
    settings.expansion = UINT32_MAX;
    expect_setting_refused("there is no such expansion", &rows, settings, COMFY_EXPANSION_REFUSED);
}

/* Pointers of length 0 may be null. */
static void expect_null_is_read_nowhere(void) {
    size_t needed = KEPT;
    uint32_t status = comfy_csv_draw(NULL, 0, NULL, 0, NULL, 0, &needed);
    expect("no csv has an empty drawing", status == COMFY_DRAWN && needed == 0);
    needed = KEPT;
    struct comfy_rows_settings settings = plain_settings();
    status = comfy_rows_draw(NULL, 0, NULL, 0, NULL, 0, NULL, 0, NULL, 0, NULL, 0, &settings, NULL, 0, &needed);
    expect("no rows have an empty drawing", status == COMFY_DRAWN && needed == 0);
}

static void *draw_often(void *bad) {
    for (int i = 0; i < CALLS; i++) {
        struct call csv = made_csv(TEXT(CSV), TEXT("-sascii"), LENGTH);
        if (csv.status != COMFY_DRAWN || !is_put(&csv, TEXT(CSV_DRAWING))) *(int *)bad = 1;
        struct call rows = made_rows(&ROWS, plain_settings(), LENGTH);
        if (rows.status != COMFY_DRAWN || !is_put(&rows, TEXT(CSV_DRAWING))) *(int *)bad = 1;
        free(csv.output);
        free(rows.output);
    }
    return NULL;
}

static void expect_threads_agree(void) {
    pthread_t threads[THREADS];
    int bad[THREADS] = {0};
    for (int i = 0; i < THREADS; i++)
        if (pthread_create(&threads[i], NULL, draw_often, &bad[i])) exit(2);
    for (int i = 0; i < THREADS; i++) {
        pthread_join(threads[i], NULL);
        expect("a thread draws as if it were alone", !bad[i]);
    }
}

int main(void) {
    struct bytes mixed = TEXT("Day\tWeather\r\n\xe9\x9b\xa8\train until noon, then sun\ntwo\vlines\t\t\n\n");
    expect_words_are_read();
    expect_refusals_are_said();
    expect_rows_are_drawn();
    expect_rows_are_refused();
    expect_rows_have_looks_and_heights();
    expect_null_is_read_nowhere();
    expect_csv_fills(mixed);
    expect_csv_fills(TEXT("\n"));
    expect_csv_fills(TEXT("\x01"));
    expect_threads_agree();
    uint32_t result = KEPT;
    char *reported = comfy_csv_text((const uint8_t *)CSV, sizeof CSV - 1, (const uint8_t *)"-s\0ascii", 9, &result);
    expect("csv is drawn into memory of malloc", reported && result == COMFY_DRAWN && !strcmp(reported, CSV_DRAWING));
    free(reported);
    if (!wrong) printf("calls: all as comfy_table.h says\n");
    return wrong ? 1 : 0;
}
