/*
 * Prints the results and drawings of the three functions for random calls: drawings [COUNT]. The calls are the same on every
 * target. tools/try/other_targets.sh compares the output on other targets with the output on Linux on x86-64.
 */
#include "comfy_table.h"

#include <stdio.h>
#include <string.h>
#ifdef _WIN32
#include <fcntl.h>
#include <io.h>
#endif

static uint64_t state;

/* A random number below n. */
static uint32_t below(uint32_t n) {
    state = state * 6364136223846793005u + 1442695040888963407u;
    return (uint32_t)((state >> 33) % n);
}

/* Texts of several writings, numbers, dates, sequences and control characters. */
static const char *const words[] = {
    "a", "oats", "Z\xc3\xbcrich", "\xe4\xba\xac\xe9\x83\xbd", "\xce\x91\xce\xb8\xce\xae\xce\xbd\xce\xb1", "12.50", "-3", "1,150.00", "",
    "a longer text that wraps", "\xe2\x98\x95 and \xf0\x9f\x8d\xb0", "two\nlines", "q\"uote", "2026-01-02", "\x1b[31mred\x1b[0m",
    "tab\there", "e\xcc\x81""clair", "\xf0\x9f\x91\xa8\xe2\x80\x8d\xf0\x9f\x91\xa9\xe2\x80\x8d\xf0\x9f\x91\xa7", "x", "0.001", "1e9",
    "\xd7\xa9\xd7\x9c\xd7\x95\xd7\x9d", "\xe0\xa4\xa8\xe0\xa4\xae\xe0\xa4\xb8\xe0\xa5\x8d\xe0\xa4\xa4\xe0\xa5\x87", "bad \xff"};
static const char *const arguments[] = {
    "", "-w 40", "-w 60 -s ascii", "-x", "--markdown", "-s grid", "-w 30 --expanded never", "--limit 2", "-m 1 -w 50", "--ansi", "-n",
    "--no-such", "--help", "-c zz", "-d tab", "-s plain --color always", "-e cp1252 --full -w 70", "-l -r 1 --drop 2"};
#define COUNT(list) (sizeof(list) / sizeof *(list))

static uint8_t output[1 << 20];
static char texts[1 << 14], csv[1 << 15];
static size_t texts_length, csv_length, lengths[64], lengths_length, counts[16], heights[16];
static uint32_t rows, columns;

static void say(const char *function, uint32_t result, size_t needed) {
    printf("%s %u %u\n", function, (unsigned)result, (unsigned)needed);
    int has_output = result == COMFY_DRAWN || result == COMFY_INPUT_REFUSED || result == COMFY_SETTINGS_REFUSED;
    if (has_output && needed <= sizeof output) fwrite(output, 1, needed, stdout);
}

static void add_text(const char *text, int is_last) {
    lengths[lengths_length++] = strlen(text);
    memcpy(texts + texts_length, text, strlen(text));
    texts_length += strlen(text);
    csv[csv_length++] = '"';
    for (; *text; text++) {
        if (*text == '"') csv[csv_length++] = '"';
        csv[csv_length++] = *text;
    }
    csv[csv_length++] = '"';
    csv[csv_length++] = is_last ? '\n' : ',';
}

static void make_texts(void) {
    rows = below(9), columns = 1 + below(6);
    texts_length = csv_length = lengths_length = 0;
    /* The last word isn't UTF-8, and is rare. */
    uint32_t known = COUNT(words) - (below(20) > 0);
    for (uint32_t row = 0; row < rows; row++) {
        counts[row] = columns;
        heights[row] = below(4);
        for (uint32_t column = 0; column < columns; column++) add_text(words[below(known)], column + 1 == columns);
    }
}

static struct comfy_look random_look(void) {
    struct comfy_look look;
    memset(&look, 0, sizeof look);
    look.alignment = below(4);
    if (!below(4)) look.attributes = 1u << below(28);
    look.foreground.kind = (uint8_t)below(4);
    look.foreground.number = (uint8_t)below(256);
    look.foreground.red = (uint8_t)below(256);
    look.background.kind = (uint8_t)(below(3) ? 0 : below(4));
    return look;
}

static void draw_csv(void) {
    char joined[64];
    strcpy(joined, arguments[below(COUNT(arguments))]);
    size_t length = strlen(joined), needed = 0;
    for (size_t at = 0; at < length; at++) joined[at] = joined[at] == ' ' ? 0 : joined[at];
    uint32_t result = comfy_csv_draw((uint8_t *)csv, csv_length, (uint8_t *)joined, length, output, sizeof output, &needed);
    say("csv", result, needed);
}

static void draw_rows(void) {
    static struct comfy_look looks[64];
    static struct comfy_rows_column set[8];
    struct comfy_rows_settings settings;
    memset(&settings, 0, sizeof settings);
    settings.max_height = below(2) ? COMFY_NO_LIMIT : 1 + below(3);
    settings.limit = below(3) ? COMFY_NO_LIMIT : below(5);
    settings.style = below(15);
    settings.width = below(2) ? COMFY_NO_WIDTH : 10 + below(80);
    settings.fills_width = below(2);
    settings.row_lines = below(3);
    settings.expansion = below(2) ? COMFY_EXPANDED_NEVER : below(3);
    settings.has_header = below(2);
    settings.has_bold_header = below(2);
    settings.is_numbered = below(2);
    settings.aligns_decimals = below(2);
    settings.has_sequences = below(2);
    settings.is_markdown = !below(5);
    for (size_t at = 0; at < lengths_length; at++) looks[at] = random_look();
    for (uint32_t at = 0; at < columns; at++) {
        set[at] = (struct comfy_rows_column){(uint16_t)below(3), (uint16_t)below(3), below(5), (uint16_t)below(9), (uint16_t)below(30)};
    }
    size_t needed = 0, has_looks = below(2), has_heights = below(2), has_columns = below(2);
    uint32_t result = comfy_rows_draw((uint8_t *)texts, texts_length, lengths, lengths_length, counts, rows, looks,
                                      has_looks * lengths_length, heights, has_heights * rows, set, has_columns * columns,
                                      &settings, output, sizeof output, &needed);
    say("rows", result, needed);
}

static void draw_cells(void) {
    static struct comfy_cell cells[64];
    static struct comfy_row set_rows[16];
    static struct comfy_column set[8];
    struct comfy_cells_settings settings;
    memset(&settings, 0, sizeof settings);
    memset(set, 0, sizeof set);
    for (size_t at = 0; at < lengths_length; at++) cells[at] = (struct comfy_cell){lengths[at], below(5) ? 0 : 'a', random_look()};
    for (uint32_t at = 0; at < rows; at++) set_rows[at] = (struct comfy_row){counts[at], heights[at]};
    for (uint32_t at = 0; at < columns; at++) {
        set[at].left_padding = (uint16_t)below(3), set[at].right_padding = (uint16_t)below(3);
        set[at].alignment = below(4), set[at].constraint = below(3) ? 0 : below(7);
        set[at].width.is_percentage = (uint16_t)below(2), set[at].width.value = (uint16_t)below(50), set[at].upper.value = 50;
    }
    settings.form = below(3), settings.style = below(14), settings.arrangement = below(3);
    settings.width = below(2) ? COMFY_NO_WIDTH : 20 + below(80);
    settings.has_header = below(2), settings.enforce_styling = below(2);
    settings.style_text_only = below(2), settings.custom_styling = below(2);
    size_t needed = 0;
    uint32_t result = comfy_cells_draw((uint8_t *)texts, texts_length, cells, lengths_length, set_rows, rows, set, columns,
                                       (uint8_t *)"\xe2\x80\xa6", 3, &settings, output, sizeof output, &needed);
    say("cells", result, needed);
}

int main(int count, char **given) {
#ifdef _WIN32
    _setmode(_fileno(stdout), _O_BINARY);
#endif
    int all = count > 1 ? atoi(given[1]) : 1000;
    for (int at = 0; at < all; at++) {
        state = (uint64_t)at * 977 + 5;
        make_texts();
        draw_csv();
        draw_rows();
        draw_cells();
    }
    return 0;
}
