/*
 * Tables drawn as text by the library comfy_table. A table is drawn from rows of texts, from cells with their own settings, or
 * from CSV.
 *
 * Begin with one of the macros COMFY_ROWS_SETTINGS, COMFY_CELLS_SETTINGS and COMFY_COLUMN, and then change fields:
 *
 *     struct comfy_rows_settings settings = COMFY_ROWS_SETTINGS;
 *     settings.width = 80;
 *
 * A struct of zeros isn't the default: its limit of 0 draws no row, and its width is 0. The comment of each field says what 0
 * means. Whole programs are in share/doc/comfy_table/examples.
 *
 * It is proved of each function:
 *  - It returns only results that its comment lists, and each of them only for the reason that the comment gives. The one
 *    exception is COMFY_OUT_OF_MEMORY, whose reason isn't proved.
 *  - Its comment is true of the drawing, of the message about an input, of *needed, and of the bytes that stay unchanged.
 *  - It splits texts by their lengths, and arguments at zero bytes. It uses each text and each argument as its comment says.
 *  - The lines that comfy_cells_draw writes keep all promises on a table's lines in share/doc/comfy_table/PROVED.md. With
 *    COMFY_FORM_TRIMMED, the lines keep the promises before the white space at their ends is removed. After that, the lines may
 *    differ in width.
 *  - The table that comfy_rows_draw writes keeps all promises on rows in PROVED.md. For example, no text is lost, edges are
 *    straight, and the table isn't wider than its width, under the conditions of that page. This is proved if looks and heights
 *    are empty, and if columns have no other settings than COMFY_COLUMN_LEFT, COMFY_COLUMN_RIGHT and COMFY_COLUMN_HIDDEN. With
 *    looks, heights or other settings of columns, the lines of the table keep all promises on a table's lines, as those of
 *    comfy_cells_draw do. A line below the table that counts the rows, such as "2 of 3 rows", isn't one of these lines.
 *  - Each call ends. It reads and writes only its own memory, and the memory that its arguments give it.
 *
 * Not proved, but tested:
 *  - COMFY_OUT_OF_MEMORY is returned only after malloc or realloc returned null.
 *  - A call frees all memory that it allocated. Several threads may call at once.
 *  - A null pointer with length 0 means no bytes.
 *  - Settings are checked before lengths, counts, looks and heights. It is proved that texts are checked after these four.
 *  - csvtable's messages about arguments have the right words. It is proved that these messages have no control character except
 *    line feeds.
 *  - comfy_rows_text, comfy_cells_text and comfy_csv_text do what their comment says.
 *
 * The caller has to ensure the following, because no function checks it:
 *  - Each pointer with a length points to that number of bytes, numbers or structs. If the length is 0, the pointer isn't used, and
 *    may be null. settings points to a struct, and needed to a size_t. Neither settings nor needed may be null.
 *  - The memory of one argument doesn't overlap that of another. During the call nothing else writes to this memory. Nothing else
 *    reads output and *needed.
 *  - malloc, realloc and free belong to one allocator. A block whose size is a multiple of 2, 4, 8 or 16 is aligned to that number
 *    of bytes. The allocators of C libraries do this.
 *  - No call comes from a signal handler, or from the forked child of a process with threads.
 *
 * Lengths of texts, input, arguments and output are in bytes. Other lengths are numbers of structs or of size_t. The bytes written
 * to output are UTF-8. Each line ends with a line feed, unless a comment says otherwise. No zero byte follows the last line.
 *
 * Link libcomfy_c.a, and after it liblibc_c.a, which it calls to allocate memory. For Linux on x86-64, liblibc_c.a is a file of
 * the Rattle toolchain. share/doc/comfy_table/PROVED.md names its source for other systems.
 */
#ifndef COMFY_TABLE_H
#define COMFY_TABLE_H

#include <stddef.h>
#include <stdint.h>
#include <stdlib.h>

/* The version of this header and of its library. */
#define COMFY_TABLE_VERSION "0.1.0"

#ifdef __cplusplus
extern "C" {
#endif

/*
 * The results of the functions.
 *
 *   COMFY_DRAWN             the drawing is the first *needed bytes of output
 *   COMFY_ROOM_TOO_SMALL    the drawing needs *needed bytes, which is more than output_length
 *   COMFY_INPUT_REFUSED     the input can't be drawn: it isn't UTF-8, or not CSV as the arguments describe it
 *   COMFY_OUT_OF_MEMORY     malloc or realloc returned null
 *   COMFY_SETTINGS_REFUSED  settings or arguments describe no table
 *   COMFY_LENGTHS_REFUSED   lengths or counts don't add up, or looks or heights are too few or too many
 *
 * With COMFY_DRAWN, the bytes of output after the drawing are unchanged. With any other result, all bytes of output are unchanged.
 * *needed is changed only with COMFY_DRAWN and COMFY_ROOM_TOO_SMALL. comfy_csv_draw differs with COMFY_INPUT_REFUSED and
 * COMFY_SETTINGS_REFUSED, as its comment says.
 */
enum {
    COMFY_DRAWN,
    COMFY_ROOM_TOO_SMALL,
    COMFY_INPUT_REFUSED,
    COMFY_OUT_OF_MEMORY,
    COMFY_SETTINGS_REFUSED,
    COMFY_LENGTHS_REFUSED
};

/* The presets, which are frames that are ready to use. The last one, COMFY_ROUNDED, is csvtable's frame: COMFY_UTF8_FULL with
 * round corners. */
enum {
    COMFY_ASCII_FULL,
    COMFY_ASCII_FULL_CONDENSED,
    COMFY_ASCII_NO_BORDERS,
    COMFY_ASCII_BORDERS_ONLY,
    COMFY_ASCII_BORDERS_ONLY_CONDENSED,
    COMFY_ASCII_HORIZONTAL_ONLY,
    COMFY_ASCII_MARKDOWN,
    COMFY_UTF8_FULL,
    COMFY_UTF8_FULL_CONDENSED,
    COMFY_UTF8_NO_BORDERS,
    COMFY_UTF8_BORDERS_ONLY,
    COMFY_UTF8_HORIZONTAL_ONLY,
    COMFY_NOTHING,
    COMFY_ROUNDED
};

/* The style for a frame of your own, which is in the field `frame` of the settings. */
#define COMFY_OWN_STYLE UINT32_MAX

/* A field for a character holds the character's code point. 0 means no character, and COMFY_NUL means U+0000. Any other number
 * that isn't the code point of a character means no character. */
#define COMFY_NUL 0x110000

/* The characters of a horizontal line of the frame: at the left end, along each column, between columns, and at the right end. A
 * field of 0 means no character. The comment of struct comfy_frame says how a missing character is drawn. */
struct comfy_line {
    uint32_t left;
    uint32_t fill;
    uint32_t junction;
    uint32_t right;
};

/* The vertical borders of the lines that hold texts: at the left, between two columns, and at the right. A field of 0 means no
 * character. The comment of struct comfy_frame says how a missing character is drawn. */
struct comfy_content_line {
    uint32_t left;
    uint32_t junction;
    uint32_t right;
};

/*
 * A frame of your own. top_border is above the table, and bottom_border below it. header_separator is below the header, and
 * row_separator between two rows. header_lines has the borders in the header's lines of texts, and content_lines those in the rows'
 * lines of texts.
 *
 * Each of the four horizontal lines is drawn if it has a character. There are three vertical borders: at the left, between columns,
 * and at the right. Each border is drawn if at least one of the six lines has a character for this border. In a line or border that
 * is drawn, a missing character is a space.
 *
 * The promises on rows hold for such a frame if none of its characters is a control character or changes the direction of text. The
 * promises on edges and widths also require that each character of the frame takes one terminal column.
 */
struct comfy_frame {
    struct comfy_line top_border;
    struct comfy_content_line header_lines;
    struct comfy_line header_separator;
    struct comfy_content_line content_lines;
    struct comfy_line row_separator;
    struct comfy_line bottom_border;
};

/* A frame without characters, for a table without a frame of your own. */
#define COMFY_NO_FRAME \
    {{0, 0, 0, 0}, {0, 0, 0}, {0, 0, 0, 0}, {0, 0, 0}, {0, 0, 0, 0}, {0, 0, 0, 0}}

/* No width. Each width above 65535 also means no width. A width of 0 gives the narrowest table that the columns allow. */
#define COMFY_NO_WIDTH UINT32_MAX

/* ---- looks of texts */

/* The alignment of a text. COMFY_ALIGNED_BY_COLUMN is the alignment of the text's column. A number that isn't listed means
 * COMFY_ALIGNED_BY_COLUMN too. */
enum { COMFY_ALIGNED_BY_COLUMN, COMFY_ALIGNED_LEFT, COMFY_ALIGNED_RIGHT, COMFY_ALIGNED_CENTER };

/* The kind of a colour: no colour, the terminal's default colour, one of 256 numbered colours, or a colour by its parts of red,
 * green and blue. Any number that isn't listed means no colour. */
enum { COMFY_COLOR_NONE, COMFY_COLOR_TERMINAL, COMFY_COLOR_NUMBERED, COMFY_COLOR_BY_PARTS };

/* The numbers of the first 16 of the 256 colours. */
enum {
    COMFY_BLACK,
    COMFY_DARK_RED,
    COMFY_DARK_GREEN,
    COMFY_DARK_YELLOW,
    COMFY_DARK_BLUE,
    COMFY_DARK_MAGENTA,
    COMFY_DARK_CYAN,
    COMFY_GREY,
    COMFY_DARK_GREY,
    COMFY_RED,
    COMFY_GREEN,
    COMFY_YELLOW,
    COMFY_BLUE,
    COMFY_MAGENTA,
    COMFY_CYAN,
    COMFY_WHITE
};

/* A colour. A struct of zeros means no colour. red, green and blue have no effect unless kind is COMFY_COLOR_BY_PARTS. */
struct comfy_color {
    uint8_t kind;   /* COMFY_COLOR_..; 0 means no colour */
    uint8_t number; /* the number of the colour, from 0 to 255; no effect unless kind is COMFY_COLOR_NUMBERED */
    uint8_t red;    /* the red part, from 0 to 255 */
    uint8_t green;  /* the green part, from 0 to 255 */
    uint8_t blue;   /* the blue part, from 0 to 255 */
};

/* The attributes of a text, one bit for each. A text's attributes are written in the order of this list. The four highest bits have
 * no effect. */
enum {
    COMFY_ATTRIBUTE_RESET = 1 << 0,
    COMFY_ATTRIBUTE_BOLD = 1 << 1,
    COMFY_ATTRIBUTE_DIM = 1 << 2,
    COMFY_ATTRIBUTE_ITALIC = 1 << 3,
    COMFY_ATTRIBUTE_UNDERLINED = 1 << 4,
    COMFY_ATTRIBUTE_DOUBLE_UNDERLINED = 1 << 5,
    COMFY_ATTRIBUTE_UNDERCURLED = 1 << 6,
    COMFY_ATTRIBUTE_UNDERDOTTED = 1 << 7,
    COMFY_ATTRIBUTE_UNDERDASHED = 1 << 8,
    COMFY_ATTRIBUTE_SLOW_BLINK = 1 << 9,
    COMFY_ATTRIBUTE_RAPID_BLINK = 1 << 10,
    COMFY_ATTRIBUTE_REVERSE = 1 << 11,
    COMFY_ATTRIBUTE_HIDDEN = 1 << 12,
    COMFY_ATTRIBUTE_CROSSED_OUT = 1 << 13,
    COMFY_ATTRIBUTE_FRAKTUR = 1 << 14,
    COMFY_ATTRIBUTE_NO_BOLD = 1 << 15,
    COMFY_ATTRIBUTE_NORMAL_INTENSITY = 1 << 16,
    COMFY_ATTRIBUTE_NO_ITALIC = 1 << 17,
    COMFY_ATTRIBUTE_NO_UNDERLINE = 1 << 18,
    COMFY_ATTRIBUTE_NO_BLINK = 1 << 19,
    COMFY_ATTRIBUTE_NO_REVERSE = 1 << 20,
    COMFY_ATTRIBUTE_NO_HIDDEN = 1 << 21,
    COMFY_ATTRIBUTE_NOT_CROSSED_OUT = 1 << 22,
    COMFY_ATTRIBUTE_FRAMED = 1 << 23,
    COMFY_ATTRIBUTE_ENCIRCLED = 1 << 24,
    COMFY_ATTRIBUTE_OVERLINED = 1 << 25,
    COMFY_ATTRIBUTE_NOT_FRAMED_OR_ENCIRCLED = 1 << 26,
    COMFY_ATTRIBUTE_NOT_OVERLINED = 1 << 27
};

/* The look of a text: its alignment, its attributes, and the colours of the text and of its background. */
struct comfy_look {
    uint32_t alignment;  /* COMFY_ALIGNED_..; 0 means the alignment of the column */
    uint32_t attributes; /* COMFY_ATTRIBUTE_.., combined by |; 0 means no attribute */
    struct comfy_color foreground; /* the colour of the text; zeros mean no colour */
    struct comfy_color background; /* the colour of the background; zeros mean no colour */
};

/* ---- rows of texts */

/* No limit on a number of rows or lines. In struct comfy_rows_settings, limit = 0 draws no row, and max_height = 0 counts as 1. */
#define COMFY_NO_LIMIT SIZE_MAX

/* The condition for drawing the style's lines between rows: always, only if a drawn row has more than one line, or never. */
enum { COMFY_LINES_EVERYWHERE, COMFY_LINES_WHERE_NEEDED, COMFY_LINES_NOWHERE };

/* The condition for expanding rows: never, only if the width has no room for all columns, or always. Each expanded row is drawn as
 * a table of its own. In that table each line has the name of a column and the row's text in that column. */
enum { COMFY_EXPANDED_NEVER, COMFY_EXPANDED_AUTO, COMFY_EXPANDED_ALWAYS };

/* The side of a column's texts. With COMFY_COLUMN_BY_CONTENTS, a column of numbers has its texts at the right, and any other
 * column at the left. With COMFY_COLUMN_HIDDEN the column isn't drawn. */
enum { COMFY_COLUMN_BY_CONTENTS, COMFY_COLUMN_LEFT, COMFY_COLUMN_RIGHT, COMFY_COLUMN_HIDDEN, COMFY_COLUMN_CENTER };

/*
 * The settings of a column of a table of rows. Widths are in terminal columns, without paddings. A width of 0 means no limit. Texts
 * that are wider than the greatest width are wrapped. A greatest width that is less than the least width counts as the least width.
 *
 * COMFY_PLAIN_COLUMN is a column without settings. Its paddings are 1.
 */
struct comfy_rows_column {
    uint16_t left_padding;  /* the number of free terminal columns at the left of texts */
    uint16_t right_padding; /* the number of free terminal columns at the right of texts */
    uint32_t side;          /* COMFY_COLUMN_.. */
    uint16_t least;         /* the least width of texts, in terminal columns; 0 means no limit */
    uint16_t greatest;      /* the greatest width of texts, in terminal columns; 0 means no limit */
};

#define COMFY_PLAIN_COLUMN {1, 1, COMFY_COLUMN_BY_CONTENTS, 0, 0}

/* The settings of a table of rows. A flag is set if it isn't 0. COMFY_ROWS_SETTINGS has the settings of csvtable without
 * arguments. max_height and heights don't limit the header. */
struct comfy_rows_settings {
    size_t max_height;        /* the greatest number of lines that are drawn of a row, or COMFY_NO_LIMIT; 0 counts as 1 */
    size_t limit;             /* the greatest number of rows that are drawn below the header, or COMFY_NO_LIMIT; 0 draws none */
    uint32_t style;           /* a preset, COMFY_ROUNDED or COMFY_OWN_STYLE; 0 is COMFY_ASCII_FULL */
    uint32_t width;           /* the table's greatest width in terminal columns, or COMFY_NO_WIDTH; 0 gives the narrowest table */
    uint32_t fills_width;     /* a flag: a narrower table is widened to width; no effect with COMFY_NO_WIDTH */
    uint32_t row_lines;       /* COMFY_LINES_..; 0 draws lines between all rows */
    uint32_t expansion;       /* COMFY_EXPANDED_..; 0 expands no row */
    uint32_t has_header;      /* a flag: the first row is the header */
    uint32_t has_bold_header; /* a flag: the header is written in bold */
    uint32_t is_numbered;     /* a flag: a column before the others has the number of each row, counted from 1 */
    uint32_t aligns_decimals; /* a flag: in a column of numbers, decimal points are below each other */
    uint32_t has_sequences;   /* a flag: SGR sequences (colours and attributes) in texts are kept, and take no terminal columns */
    uint32_t is_markdown;     /* a flag: the table is for Markdown; style, width, max_height and has_bold_header have no effect */
    struct comfy_frame frame; /* the frame that COMFY_OWN_STYLE draws; any other style ignores it */
};

/* These settings draw all rows, without a width, with round corners and with a header. Lines between rows are drawn if a drawn row
 * has several lines. Decimal points are below each other. Rows are expanded only if you set a width that has no room for all
 * columns. */
#define COMFY_ROWS_SETTINGS \
    {COMFY_NO_LIMIT, COMFY_NO_LIMIT, COMFY_ROUNDED, COMFY_NO_WIDTH, 0, COMFY_LINES_WHERE_NEEDED, COMFY_EXPANDED_AUTO, \
     1, 0, 0, 1, 0, 0, COMFY_NO_FRAME}

/*
 * Draws a table of rows into the caller's buffer. The program csvtable writes the same table into a pipe, with the option --count,
 * if its records consist of these texts. Only lines with a count differ, because they have the word "row". Above an expanded row
 * there is, for example, "row 2 of 3". If limit leaves out rows, "2 of 3 rows" is below the table.
 *
 * texts has the texts of all cells in order, without anything between them. lengths has the length of each text in bytes. counts
 * has the number of cells of each row. Rows may have different numbers of cells. columns has a struct for each column, or for the
 * first columns only, or is empty. A column without a struct is as COMFY_PLAIN_COLUMN.
 *
 * looks is empty, or has the look of each text. A text's alignment replaces the alignment of its column. Colours and attributes of
 * texts are always written. In a bold header, the attributes of a text are written after bold.
 *
 * heights is empty, or has a number for each row and for the header. The number is the greatest number of lines that are drawn of
 * the row, in place of max_height. If the number is 0 or COMFY_NO_LIMIT, max_height counts. The header has no limit, whatever its
 * number is.
 *
 * If is_markdown is set, or if expansion isn't COMFY_EXPANDED_NEVER, there can't be looks or heights. The only settings of columns
 * are then COMFY_COLUMN_LEFT, COMFY_COLUMN_RIGHT and COMFY_COLUMN_HIDDEN.
 *
 * The first of these results whose reason holds is returned:
 *
 *   COMFY_SETTINGS_REFUSED  a setting or a column's side is none of those above,
 *                           or there are looks, heights or settings of columns that Markdown or expansion doesn't allow
 *   COMFY_LENGTHS_REFUSED   the sum of lengths isn't texts_length,
 *                           or the sum of counts isn't lengths_length,
 *                           or looks isn't empty, and doesn't have one look for each text,
 *                           or heights isn't empty, and doesn't have one number for the header and for each row
 *   COMFY_INPUT_REFUSED     a text isn't UTF-8
 *   COMFY_SETTINGS_REFUSED  a column that no row has isn't as COMFY_PLAIN_COLUMN,
 *                           or there are rows, but no column is drawn
 */
uint32_t comfy_rows_draw(const uint8_t *texts, size_t texts_length, const size_t *lengths, size_t lengths_length,
                         const size_t *counts, size_t counts_length, const struct comfy_look *looks, size_t looks_length,
                         const size_t *heights, size_t heights_length, const struct comfy_rows_column *columns,
                         size_t columns_length, const struct comfy_rows_settings *settings, uint8_t *output,
                         size_t output_length, size_t *needed);

/* ---- the refused setting */

/* The setting that is the reason for COMFY_SETTINGS_REFUSED. The reasons in the second entry of this name at comfy_rows_draw have
 * no number here. */
enum {
    COMFY_NONE_REFUSED,        /* no setting is refused */
    COMFY_STYLE_REFUSED,       /* style is none of those above */
    COMFY_ROW_LINES_REFUSED,   /* row_lines is none of those above */
    COMFY_EXPANSION_REFUSED,   /* expansion is none of those above */
    COMFY_SIDE_REFUSED,        /* the side of a column is none of those above */
    COMFY_TABLE_ONLY_REFUSED,  /* Markdown and expanded rows can't have these looks, heights or columns */
    COMFY_FORM_REFUSED,        /* form, of a table of cells, is none of those below */
    COMFY_ARRANGEMENT_REFUSED  /* arrangement, of a table of cells, is none of those below */
};

/*
 * Returns the first setting, in the order above, that comfy_rows_draw refuses whatever the texts are, or COMFY_NONE_REFUSED if
 * there is no such setting. Even after COMFY_NONE_REFUSED, comfy_rows_draw can refuse settings of a column that no row has, or a
 * table in which no column is drawn.
 */
uint32_t comfy_rows_refused(const struct comfy_look *looks, size_t looks_length, const size_t *heights, size_t heights_length,
                            const struct comfy_rows_column *columns, size_t columns_length,
                            const struct comfy_rows_settings *settings);

/* ---- cells with their own settings */

/* In the structs below, 0 means that a setting isn't set. A width or a padding of 0 means 0 terminal columns. */

/* A cell of a table of cells: the length of its text, and its settings. */
struct comfy_cell {
    size_t length;       /* the number of bytes of the text; line feeds separate its lines */
    uint32_t delimiter;  /* the character at which long lines may break; 0 means that of the column */
    struct comfy_look look; /* the alignment, the attributes and the colours of the text */
};

/* A row of a table of cells: the number of its cells, and the greatest number of its lines. */
struct comfy_row {
    size_t cells;      /* the number of cells */
    size_t max_height; /* the greatest number of lines that are drawn of the row; 0 and COMFY_NO_LIMIT mean no limit */
};

/*
 * The constraint on a column's width, which includes its paddings. A number that isn't in this list means COMFY_CONSTRAINT_NONE.
 */
enum {
    COMFY_CONSTRAINT_NONE,
    COMFY_CONSTRAINT_HIDDEN,         /* the column isn't drawn */
    COMFY_CONSTRAINT_CONTENT_WIDTH,  /* the column is as wide as its widest text and its paddings */
    COMFY_CONSTRAINT_ABSOLUTE,       /* the column has the width `width` of struct comfy_column */
    COMFY_CONSTRAINT_LOWER_BOUNDARY, /* the column has at least the width `width` */
    COMFY_CONSTRAINT_UPPER_BOUNDARY, /* the column has at most the width `width` */
    COMFY_CONSTRAINT_BOUNDARIES      /* the column has at least the width `width`, and at most the width `upper` */
};

/* A width in a constraint. A percentage has no effect if the table has no width. */
struct comfy_width {
    uint16_t is_percentage; /* a flag: value is a percentage of the table's width without borders; 0 means terminal columns */
    uint16_t value;         /* the percentage, or the number of terminal columns; a percentage above 100 counts as 100 */
};

/* The settings of a column of a table of cells. */
struct comfy_column {
    uint16_t left_padding;    /* the number of free terminal columns at the left of texts */
    uint16_t right_padding;   /* the number of free terminal columns at the right of texts */
    uint32_t delimiter;       /* the character at which long lines may break; 0 means that of the table */
    uint32_t alignment;       /* COMFY_ALIGNED_..; COMFY_ALIGNED_BY_COLUMN means left */
    uint32_t constraint;      /* COMFY_CONSTRAINT_.. */
    struct comfy_width width; /* the width of the constraint; the least width for COMFY_CONSTRAINT_BOUNDARIES */
    struct comfy_width upper; /* the greatest width for COMFY_CONSTRAINT_BOUNDARIES; no effect with any other constraint */
};

/* A column without settings, with paddings of 1. New tables of comfy-table have such columns. */
#define COMFY_COLUMN {1, 1, 0, COMFY_ALIGNED_BY_COLUMN, COMFY_CONSTRAINT_NONE, {0, 0}, {0, 0}}

/* The form of the output: the lines of the table, the trimmed lines, or the widths of contents. Trimmed lines have no white space
 * at their ends, and there is no line feed after the last line. The widths of contents are a number for each column: the width of
 * the column's widest text in terminal columns, in decimal, with a line feed after the number. */
enum { COMFY_FORM_LINES, COMFY_FORM_TRIMMED, COMFY_FORM_CONTENT_WIDTHS };

/* The rule by which columns get their widths. COMFY_DISABLED makes columns as wide as their texts. COMFY_DYNAMIC wraps texts so
 * that the table isn't wider than its width, if its columns can be narrow enough for that. COMFY_DYNAMIC_FULL_WIDTH also widens a
 * narrower table to its width. Without a width, the last two do the same as COMFY_DISABLED. */
enum { COMFY_DISABLED, COMFY_DYNAMIC, COMFY_DYNAMIC_FULL_WIDTH };

/* The settings of a table of cells. A flag is set if it isn't 0. COMFY_CELLS_SETTINGS has the settings of a new table of
 * comfy-table that has a header. With COMFY_DISABLED no text is wrapped to fit the width. */
struct comfy_cells_settings {
    uint32_t form;            /* COMFY_FORM_..; 0 writes the lines of the table */
    uint32_t style;           /* a preset, COMFY_ROUNDED or COMFY_OWN_STYLE; 0 is COMFY_ASCII_FULL */
    uint32_t arrangement;     /* COMFY_DISABLED, COMFY_DYNAMIC or COMFY_DYNAMIC_FULL_WIDTH; 0 is COMFY_DISABLED */
    uint32_t width;           /* the table's width in terminal columns, or COMFY_NO_WIDTH; 0 gives the narrowest table */
    uint32_t delimiter;       /* the character at which long lines may break; 0 means a space */
    uint32_t has_header;      /* a flag: the first row is the header */
    uint32_t enforce_styling; /* a flag: colours and attributes are written; 0 writes none */
    uint32_t style_text_only; /* a flag: colours and attributes apply to texts, and not to the spaces beside texts */
    uint32_t custom_styling;  /* a flag: sequences of colours and attributes (SGR) in texts take no terminal columns */
    struct comfy_frame frame; /* the frame that COMFY_OWN_STYLE draws; any other style ignores it */
};

#define COMFY_CELLS_SETTINGS \
    {COMFY_FORM_LINES, COMFY_ASCII_FULL, COMFY_DISABLED, COMFY_NO_WIDTH, 0, 1, 0, 0, 0, COMFY_NO_FRAME}

/*
 * Draws a table of cells, rows and columns into the caller's buffer, as comfy-table 8.0.1 does, except for the differences that
 * share/doc/comfy_table/DIFFERENCES.md lists.
 *
 * texts has the texts of all cells in order, without anything between them. cells has the length and the settings of each text.
 * rows has the number of cells of each row, and the greatest number of its lines. columns has the settings of each column. A cell
 * without a column isn't drawn. indicator is a text in UTF-8. If a row's max_height cuts a text, the last drawn line of the text
 * ends with indicator, unless the column is narrower than indicator. The indicator of comfy-table is "\xe2\x80\xa6".
 *
 * Texts are drawn unchanged, so control characters and escape sequences in them reach the terminal. Without custom_styling, the
 * characters of an escape sequence take terminal columns. Draw texts that you don't trust by comfy_rows_draw, which replaces
 * control characters and escape sequences.
 *
 * The first of these results whose reason holds is returned:
 *
 *   COMFY_SETTINGS_REFUSED  form, style or arrangement is none of those above
 *   COMFY_LENGTHS_REFUSED   the lengths of the cells don't add up to texts_length,
 *                           or the numbers of cells of the rows don't add up to cells_length
 *   COMFY_INPUT_REFUSED     a text or the indicator isn't UTF-8
 */
uint32_t comfy_cells_draw(const uint8_t *texts, size_t texts_length, const struct comfy_cell *cells, size_t cells_length,
                          const struct comfy_row *rows, size_t rows_length, const struct comfy_column *columns,
                          size_t columns_length, const uint8_t *indicator, size_t indicator_length,
                          const struct comfy_cells_settings *settings, uint8_t *output, size_t output_length, size_t *needed);

/* Returns the first setting that comfy_cells_draw refuses, in the order form, style, arrangement, or COMFY_NONE_REFUSED if there is
 * no such setting. */
uint32_t comfy_cells_refused(const struct comfy_cells_settings *settings);

/* ---- CSV */

/*
 * Draws a table of CSV into the caller's buffer. The program csvtable writes the same table into a pipe, with these arguments and
 * --count, if neither of the environment variables COLUMNS and NO_COLOR is set. `csvtable --help` lists the arguments.
 *
 * arguments is UTF-8, and a zero byte ends each argument. This byte may be missing after the last argument. For example, pass the
 * string "-r\0price\0-w\0" "60" and its size. Then the column price is right-aligned, and the greatest width of the table is 60
 * terminal columns. If arguments_length is 0, there are no arguments.
 *
 * No file is opened. A file name among the arguments names the input in messages. TABs separate the fields if this name ends with
 * .tsv or .tab, no argument sets a delimiter, and the first line isn't sep= with another delimiter.
 *
 * With COMFY_INPUT_REFUSED and COMFY_SETTINGS_REFUSED, *needed is the length of csvtable's message in bytes. The message is written
 * to output if output has room for the whole message. If not, output is unchanged. --help and --version give COMFY_SETTINGS_REFUSED
 * too, with the help or the version as the message.
 */
uint32_t comfy_csv_draw(const uint8_t *input, size_t input_length, const uint8_t *arguments, size_t arguments_length,
                        uint8_t *output, size_t output_length, size_t *needed);

/* ---- drawings in allocated memory */

/*
 * comfy_rows_text draws as comfy_rows_draw does, comfy_cells_text as comfy_cells_draw, and comfy_csv_text as comfy_csv_draw. Each
 * function returns the drawing, or csvtable's message, with a zero byte after it. The text is in memory from malloc, and the caller
 * frees it by free. *result is set to the result of comfy_rows_draw, comfy_cells_draw or comfy_csv_draw, or to COMFY_OUT_OF_MEMORY.
 * A null pointer is returned if memory ran out, or if there is neither a drawing nor a message.
 */
static inline char *comfy_rows_text(const uint8_t *texts, size_t texts_length, const size_t *lengths, size_t lengths_length,
                                    const size_t *counts, size_t counts_length, const struct comfy_look *looks,
                                    size_t looks_length, const size_t *heights, size_t heights_length,
                                    const struct comfy_rows_column *columns, size_t columns_length,
                                    const struct comfy_rows_settings *settings, uint32_t *result) {
    size_t room = 4096 + 4 * texts_length + 8 * lengths_length, needed = 0;
    for (;;) {
        char *output = (char *)malloc(room + 1);
        *result = COMFY_OUT_OF_MEMORY;
        if (!output) return NULL;
        *result = comfy_rows_draw(texts, texts_length, lengths, lengths_length, counts, counts_length, looks, looks_length, heights,
                                  heights_length, columns, columns_length, settings, (uint8_t *)output, room, &needed);
        if (*result == COMFY_DRAWN) {
            output[needed] = 0;
            return output;
        }
        free(output);
        if (*result != COMFY_ROOM_TOO_SMALL) return NULL;
        room = needed;
    }
}

static inline char *comfy_cells_text(const uint8_t *texts, size_t texts_length, const struct comfy_cell *cells, size_t cells_length,
                                     const struct comfy_row *rows, size_t rows_length, const struct comfy_column *columns,
                                     size_t columns_length, const uint8_t *indicator, size_t indicator_length,
                                     const struct comfy_cells_settings *settings, uint32_t *result) {
    size_t room = 4096 + 4 * texts_length + 8 * cells_length, needed = 0;
    for (;;) {
        char *output = (char *)malloc(room + 1);
        *result = COMFY_OUT_OF_MEMORY;
        if (!output) return NULL;
        *result = comfy_cells_draw(texts, texts_length, cells, cells_length, rows, rows_length, columns, columns_length, indicator,
                                   indicator_length, settings, (uint8_t *)output, room, &needed);
        if (*result == COMFY_DRAWN) {
            output[needed] = 0;
            return output;
        }
        free(output);
        if (*result != COMFY_ROOM_TOO_SMALL) return NULL;
        room = needed;
    }
}

static inline char *comfy_csv_text(const uint8_t *input, size_t input_length, const uint8_t *arguments,
                                   size_t arguments_length, uint32_t *result) {
    size_t room = 4096 + 4 * input_length, needed = 0;
    for (;;) {
        char *output = (char *)malloc(room + 1);
        *result = COMFY_OUT_OF_MEMORY;
        if (!output) return NULL;
        *result = comfy_csv_draw(input, input_length, arguments, arguments_length, (uint8_t *)output, room, &needed);
        if (*result != COMFY_OUT_OF_MEMORY && needed <= room) {
            output[needed] = 0;
            return output;
        }
        free(output);
        if (*result == COMFY_OUT_OF_MEMORY) return NULL;
        room = needed;
    }
}

#ifdef __cplusplus
}
#endif

#endif
