/*
 * Random calls, with any bytes, lengths, arguments, numbers and buffers. Each array that a call reads ends at the end of a page, and
 * no page follows. The same is true of the buffer. So a read or a write after its end ends the program. Prints each fault, and ends
 * with status 1 if there is one. The calls follow from a seed. First one thread makes them, and then four threads at once:
 * random_calls [SEED].
 */
#define _GNU_SOURCE
#include "comfy_table.h"

#include <pthread.h>
#include <stdio.h>
#include <stdlib.h>
#include <string.h>
#include <sys/mman.h>
#include <unistd.h>

enum { CALLS = 100000, THREADS = 4, ROOM = 1 << 14, KEPT = 77, UNTOUCHED = 7 };

/* Pages with no page after them. */
struct region {
    uint8_t *end;
};

static struct region new_region(void) {
    size_t page = (size_t)sysconf(_SC_PAGESIZE), length = (ROOM + page - 1) / page * page;
    uint8_t *start = mmap(NULL, length + page, PROT_READ | PROT_WRITE, MAP_PRIVATE | MAP_ANONYMOUS, -1, 0);
    if (start == MAP_FAILED || mprotect(start + length, page, PROT_NONE)) exit(2);
    return (struct region){start + length};
}

/* The memory for the calls of one thread, and the faults that it found. */
struct caller {
    uint64_t seed;
    long calls, wrong;
    long results[3][6];
    struct region input, lengths, arguments, columns, looks, heights, output;
};

static uint64_t next(struct caller *caller) {
    uint64_t z = caller->seed += 0x9e3779b97f4a7c15;
    z = (z ^ z >> 30) * 0xbf58476d1ce4e5b9;
    z = (z ^ z >> 27) * 0x94d049bb133111eb;
    return z ^ z >> 31;
}

static size_t below(struct caller *caller, size_t limit) {
    return (size_t)(next(caller) % limit);
}

/* A length that is mostly short, and sometimes long. */
static size_t any_length(struct caller *caller) {
    size_t kind = below(caller, 64);
    return below(caller, kind == 0 ? ROOM : kind < 8 ? 600 : 80);
}

/* A width or another number, sometimes an extreme one. */
static uint32_t any_number(struct caller *caller, uint32_t usual) {
    static const uint32_t extremes[] = {0, 1, 65535, 65536, UINT32_MAX};
    return below(caller, 8) ? (uint32_t)below(caller, usual) : extremes[below(caller, 5)];
}

/* Fills memory with pieces of text, or with random bytes. */
static void fill(struct caller *caller, uint8_t *bytes, size_t length, const char *const *pieces, size_t count) {
    size_t noise = below(caller, 8) ? 40 : 2;
    for (size_t i = 0; i < length;) {
        const char *piece = pieces[below(caller, count)];
        size_t rest = length - i, part = strlen(piece) < rest ? strlen(piece) : rest;
        if (part == 0 || below(caller, noise) == 0) {
            bytes[i++] = (uint8_t)next(caller);
            continue;
        }
        memcpy(bytes + i, piece, part);
        i += part;
    }
}

static void fill_input(struct caller *caller, uint8_t *bytes, size_t length) {
    static const char *const pieces[] = {"a", "name", "12", "-3.5", "2026-01-02", " ", ",", ",", ";", "\t", "|", "\n", "\n", "\r\n", "\"", "\"\"",
        "\v", "\x1b[1m", "\xe9\x9b\xa8", "e\xcc\x81", "\xf0\x9f\x91\xa9\xe2\x80\x8d\xf0\x9f\x92\xbb", "\xef\xbb\xbf", "\xff\xfe", "sep=;\n"};
    fill(caller, bytes, length, pieces, sizeof pieces / sizeof *pieces);
}

/* Arguments of csvtable, each with a zero byte at its end. The last one may have none. */
static size_t put_words(struct caller *caller, uint8_t *bytes, size_t room) {
    static const char *const arguments[] = {"-d", ";", "tab", "auto", "-t", "-e", "cp1252", "utf-16", "--no-quotes", "--skip", "1", "-n", "--limit", "2",
        "-c", "1", "2-", "name", "--drop", "a", "-r", "--left", "-w", "40", "0", "65535", "--full", "-x", "--expanded", "never", "-s", "grid", "ascii",
        "UTF8_FULL", "--rows", "--no-rows", "-m", "3", "--markdown", "--color", "always", "--ansi", "--no-decimal", "-", "x.tsv", "--", "", "--help", "-V"};
    size_t length = 0;
    for (size_t count = below(caller, 7); count > 0; count--) {
        const char *argument = arguments[below(caller, sizeof arguments / sizeof *arguments)];
        if (length + strlen(argument) + 1 > room) break;
        memcpy(bytes + length, argument, strlen(argument) + 1);
        length += strlen(argument) + 1;
    }
    return length && below(caller, 2) ? length - 1 : length;
}

/* Returns true if the bytes of the buffer from a position on are unchanged. */
static int is_untouched(const uint8_t *output, size_t from, size_t room) {
    for (size_t i = from; i < room; i++)
        if (output[i] != UNTOUCHED) return 0;
    return 1;
}

/* Returns true if a call wrote only a text of `needed` bytes that ends with a line feed. */
static int is_put(const uint8_t *output, size_t room, size_t needed) {
    return needed <= room && (needed == 0 || output[needed - 1] == '\n') && is_untouched(output, needed, room);
}

static int is_too_small(const uint8_t *output, size_t room, size_t needed) {
    return room < needed && is_untouched(output, 0, room);
}

static int is_as_said(uint32_t status, const uint8_t *output, size_t room, size_t needed) {
    switch (status) {
    case COMFY_DRAWN: return needed <= room && is_untouched(output, needed, room);
    case COMFY_ROOM_TOO_SMALL: return is_too_small(output, room, needed);
    case COMFY_INPUT_REFUSED:
    case COMFY_SETTINGS_REFUSED:
    case COMFY_LENGTHS_REFUSED: return needed == KEPT && is_untouched(output, 0, room);
    default: return 0;
    }
}

static int is_as_said_of_csv(uint32_t status, const uint8_t *output, size_t room, size_t needed) {
    switch (status) {
    case COMFY_DRAWN: return is_put(output, room, needed);
    case COMFY_ROOM_TOO_SMALL: return is_too_small(output, room, needed);
    case COMFY_INPUT_REFUSED:
    case COMFY_SETTINGS_REFUSED: return is_put(output, room, needed) || is_too_small(output, room, needed);
    default: return 0;
    }
}

static uint32_t call_csv(struct caller *caller, size_t length, size_t room, size_t *needed) {
    uint8_t line[256];
    size_t count = put_words(caller, line, sizeof line);
    if (count && below(caller, 16) == 0) line[below(caller, count)] = (uint8_t)next(caller);
    memcpy(caller->arguments.end - count, line, count);
    return comfy_csv_draw(caller->input.end - length, length, caller->arguments.end - count, count, caller->output.end - room, room, needed);
}

/* Numbers at the end of some pages. Mostly they add up to a given sum. */
static size_t put_parts(struct caller *caller, struct region region, size_t sum, size_t most) {
    size_t parts[64], count = 0, rest = sum;
    while (count < 63 && rest && below(caller, 32)) {
        size_t part = below(caller, most + 1);
        parts[count++] = part < rest ? part : rest;
        rest -= parts[count - 1];
    }
    if (below(caller, 16)) parts[count++] = rest;
    if (count && below(caller, 64) == 0) parts[below(caller, count)] = (size_t)next(caller);
    memcpy(region.end - count * sizeof(size_t), parts, count * sizeof(size_t));
    return count;
}

/* A number that is mostly one of a few with a meaning. */
static uint32_t any_of(struct caller *caller, uint32_t count) {
    return below(caller, 32) ? (uint32_t)below(caller, count) : (uint32_t)next(caller);
}

static uint32_t any_character(struct caller *caller) {
    static const uint32_t some[] = {0, ' ', '|', '-', ',', '\n', 0x2502, 0x96e8, 0x301, 0xd800, COMFY_NUL, UINT32_MAX};
    return below(caller, 3) ? some[below(caller, sizeof some / sizeof *some)] : 0;
}

static uint16_t any_padding(struct caller *caller) {
    return (uint16_t)(below(caller, 64) ? below(caller, 3) : any_number(caller, 40));
}

static struct comfy_width any_width(struct caller *caller) {
    return (struct comfy_width){(uint16_t)below(caller, 2), (uint16_t)any_number(caller, 40)};
}

static struct comfy_color any_color(struct caller *caller) {
    uint64_t bits = next(caller);
    return (struct comfy_color){(uint8_t)any_of(caller, 4), (uint8_t)bits, (uint8_t)(bits >> 8), (uint8_t)(bits >> 16), (uint8_t)(bits >> 24)};
}

static struct comfy_look any_look(struct caller *caller) {
    return (struct comfy_look){any_of(caller, 4), below(caller, 2) ? 0 : (uint32_t)(next(caller) & next(caller)), any_color(caller), any_color(caller)};
}

static struct comfy_line any_line(struct caller *caller) {
    return (struct comfy_line){any_character(caller), any_character(caller), any_character(caller), any_character(caller)};
}

static struct comfy_content_line any_content_line(struct caller *caller) {
    return (struct comfy_content_line){any_character(caller), any_character(caller), any_character(caller)};
}

static struct comfy_frame any_frame(struct caller *caller) {
    return (struct comfy_frame){any_line(caller), any_content_line(caller), any_line(caller), any_content_line(caller), any_line(caller), any_line(caller)};
}

/* Columns of a table of rows at the end of some pages. Often only their sides are set. */
static struct comfy_rows_column *put_rows_columns(struct caller *caller, size_t count) {
    struct comfy_rows_column *columns = (struct comfy_rows_column *)(void *)caller->columns.end - count;
    int are_plain = below(caller, 2) == 0;
    for (size_t i = 0; i < count; i++)
        columns[i] = are_plain ? (struct comfy_rows_column){1, 1, any_of(caller, 4), 0, 0}
                               : (struct comfy_rows_column){any_padding(caller), any_padding(caller), any_of(caller, 5),
                                     (uint16_t)any_number(caller, 20), (uint16_t)any_number(caller, 20)};
    return columns;
}

/* 0 or a given number, and sometimes one less than this number. */
static size_t any_count(struct caller *caller, size_t count) {
    if (below(caller, 2)) return 0;
    return count && below(caller, 16) == 0 ? count - 1 : count;
}

static struct comfy_look *put_looks(struct caller *caller, size_t count) {
    struct comfy_look *looks = (struct comfy_look *)(void *)caller->looks.end - count;
    for (size_t i = 0; i < count; i++) looks[i] = any_look(caller);
    return looks;
}

static size_t *put_heights(struct caller *caller, size_t count) {
    size_t *heights = (size_t *)(void *)caller->heights.end - count;
    for (size_t i = 0; i < count; i++) heights[i] = below(caller, 8) ? below(caller, 4) : (size_t)next(caller);
    return heights;
}

static uint32_t call_rows(struct caller *caller, size_t length, size_t room, size_t *needed) {
    struct comfy_rows_settings settings = {
        .max_height = below(caller, 4) ? COMFY_NO_LIMIT : below(caller, 4), .limit = below(caller, 4) ? COMFY_NO_LIMIT : below(caller, 4),
        .style = below(caller, 4) ? any_number(caller, 14) : COMFY_OWN_STYLE, .width = any_number(caller, 120),
        .fills_width = any_number(caller, 2), .row_lines = any_number(caller, 3),
        .expansion = any_number(caller, 3), .has_header = any_number(caller, 2), .has_bold_header = any_number(caller, 2),
        .has_sequences = any_number(caller, 2), .is_markdown = below(caller, 8) == 0, .frame = any_frame(caller)};
    size_t texts = put_parts(caller, caller->lengths, length, 12);
    size_t rows = put_parts(caller, caller->arguments, texts, 5);
    size_t columns = below(caller, 4), looks = any_count(caller, texts), heights = any_count(caller, rows);
    return comfy_rows_draw(caller->input.end - length, length, (size_t *)(void *)caller->lengths.end - texts, texts,
                           (size_t *)(void *)caller->arguments.end - rows, rows, put_looks(caller, looks), looks, put_heights(caller, heights),
                           heights, put_rows_columns(caller, columns), columns, &settings, caller->output.end - room, room, needed);
}

/* Replaces the lengths at the end of some pages by cells of these lengths. */
static struct comfy_cell *put_cells(struct caller *caller, size_t count) {
    size_t lengths[64];
    memcpy(lengths, caller->lengths.end - count * sizeof(size_t), count * sizeof(size_t));
    struct comfy_cell *cells = (struct comfy_cell *)(void *)caller->lengths.end - count;
    for (size_t i = 0; i < count; i++)
        cells[i] = (struct comfy_cell){lengths[i], any_character(caller), any_look(caller)};
    return cells;
}

static struct comfy_row *put_rows(struct caller *caller, size_t count) {
    size_t counts[64];
    memcpy(counts, caller->arguments.end - count * sizeof(size_t), count * sizeof(size_t));
    struct comfy_row *rows = (struct comfy_row *)(void *)caller->arguments.end - count;
    for (size_t i = 0; i < count; i++) rows[i] = (struct comfy_row){counts[i], any_of(caller, 4)};
    return rows;
}

static struct comfy_column *put_columns(struct caller *caller, size_t count) {
    struct comfy_column *columns = (struct comfy_column *)(void *)caller->columns.end - count;
    for (size_t i = 0; i < count; i++)
        columns[i] = (struct comfy_column){any_padding(caller), any_padding(caller), any_character(caller), any_of(caller, 4),
            any_of(caller, 7), any_width(caller), any_width(caller)};
    return columns;
}

static uint32_t call_cells(struct caller *caller, size_t length, size_t room, size_t *needed) {
    const struct comfy_cells_settings settings = {any_of(caller, 3), below(caller, 4) ? any_of(caller, 14) : COMFY_OWN_STYLE, any_of(caller, 3),
        any_number(caller, 120), any_character(caller), any_of(caller, 2), any_of(caller, 2), any_of(caller, 2), any_of(caller, 2), any_frame(caller)};
    size_t texts = put_parts(caller, caller->lengths, length, 12), rows = put_parts(caller, caller->arguments, texts, 5), columns = below(caller, 6);
    const struct comfy_cell *cells = put_cells(caller, texts);
    const struct comfy_row *all = put_rows(caller, rows);
    size_t indicator = below(caller, 3) + (below(caller, 32) == 0);
    return comfy_cells_draw(caller->input.end - length, length, cells, texts, all, rows, put_columns(caller, columns), columns,
                            (const uint8_t *)"..\xff", indicator, &settings, caller->output.end - room, room, needed);
}

/* A call of one of the functions. The bytes that it reads are at the ends of its pages. Its arguments are copied there. */
static void call(struct caller *caller) {
    static const char *const names[] = {"cells", "csv", "rows"};
    size_t length = any_length(caller), room = any_length(caller), needed = KEPT, which = below(caller, 3);
    uint8_t *output = caller->output.end - room;
    fill_input(caller, caller->input.end - length, length);
    memset(output, UNTOUCHED, room);
    uint32_t status = (which == 0 ? call_cells : which == 1 ? call_csv : call_rows)(caller, length, room, &needed);
    if (status < 6) caller->results[which][status]++;
    if (!(which == 1 ? is_as_said_of_csv : is_as_said)(status, output, room, needed)) {
        caller->wrong++;
        printf("wrong: %s, status %u, %zu bytes, room %zu, needed %zu\n", names[which], (unsigned)status, length, room, needed);
    }
}

static void *call_often(void *it) {
    struct caller *caller = it;
    for (long i = 0; i < caller->calls; i++) call(caller);
    return NULL;
}

static struct caller new_caller(uint64_t seed, long calls) {
    return (struct caller){seed, calls, 0, {{0}, {0}, {0}}, new_region(), new_region(), new_region(), new_region(), new_region(), new_region(), new_region()};
}

/* Returns true if each result was returned at least once, except COMFY_OUT_OF_MEMORY. CSV has no lengths to refuse. */
static int has_all(const struct caller *caller) {
    for (int which = 0; which < 3; which++)
        for (uint32_t status = 0; status < (which == 1 ? 5 : 6); status++)
            if (status != COMFY_OUT_OF_MEMORY && !caller->results[which][status]) return 0;
    return 1;
}

int main(int count, char **arguments) {
    uint64_t seed = count > 1 ? strtoull(arguments[1], NULL, 10) : 1;
    struct caller alone = new_caller(seed, CALLS), together[THREADS];
    pthread_t threads[THREADS];
    call_often(&alone);
    long wrong = alone.wrong + !has_all(&alone);
    for (int i = 0; i < THREADS; i++) {
        together[i] = new_caller(seed + 1 + (uint64_t)i, CALLS / THREADS);
        if (pthread_create(&threads[i], NULL, call_often, &together[i])) exit(2);
    }
    for (int i = 0; i < THREADS; i++) {
        pthread_join(threads[i], NULL);
        wrong += together[i].wrong;
    }
    printf("random calls: %d alone and %d from %d threads, seed %llu, %ld wrong\n", CALLS, CALLS, THREADS, (unsigned long long)seed, wrong);
    return wrong ? 1 : 0;
}
