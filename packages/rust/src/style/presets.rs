//! Thirteen styles that are ready to use. [`Table::load_style`](crate::Table::load_style) takes one of them.
//!
//! ```text
//! ASCII_FULL            ASCII_FULL_CONDENSED   ASCII_NO_BORDERS
//! +-------+-------+     +-------+-------+       Hello | there
//! | Hello | there |     | Hello | there |      ===============
//! +===============+     +===============+       a     | b
//! | a     | b     |     | a     | b     |      -------+-------
//! |-------+-------|     | c     | d     |       c     | d
//! | c     | d     |     +-------+-------+
//! +-------+-------+
//!
//! ASCII_BORDERS_ONLY    ASCII_HORIZONTAL_ONLY  ASCII_BORDERS_ONLY_CONDENSED
//! +---------------+     ---------------        +---------------+
//! | Hello   there |      Hello   there         | Hello   there |
//! +===============+     ===============        +===============+
//! | a       b     |      a       b             | a       b     |
//! |               |     ---------------        | c       d     |
//! | c       d     |      c       d             +---------------+
//! +---------------+     ---------------
//!
//! ASCII_MARKDOWN        NOTHING
//! | Hello | there |      Hello  there
//! |-------|-------|      a      b
//! | a     | b     |      c      d
//! | c     | d     |
//!
//! UTF8_FULL             UTF8_FULL_CONDENSED    UTF8_NO_BORDERS
//! ┌───────┬───────┐     ┌───────┬───────┐       Hello ┆ there
//! │ Hello ┆ there │     │ Hello ┆ there │      ═══════╪═══════
//! ╞═══════╪═══════╡     ╞═══════╪═══════╡       a     ┆ b
//! │ a     ┆ b     │     │ a     ┆ b     │      ╌╌╌╌╌╌╌┼╌╌╌╌╌╌╌
//! ├╌╌╌╌╌╌╌┼╌╌╌╌╌╌╌┤     │ c     ┆ d     │       c     ┆ d
//! │ c     ┆ d     │     └───────┴───────┘
//! └───────┴───────┘
//!
//! UTF8_BORDERS_ONLY     UTF8_HORIZONTAL_ONLY
//! ┌───────────────┐     ───────────────
//! │ Hello   there │      Hello   there
//! ╞═══════════════╡     ═══════════════
//! │ a       b     │      a       b
//! │ c       d     │     ───────────────
//! └───────────────┘      c       d
//!                       ───────────────
//! ```

use crate::style::{ContentLineStyle, LineStyle, TableStyle};

// Returns the character, or `None` for a space, which means no character in the presets below.
const fn character(character: char) -> Option<char> {
    if character == ' ' { None } else { Some(character) }
}

const fn line([left, fill, junction, right]: [char; 4]) -> LineStyle {
    LineStyle { left: character(left), fill: character(fill), junction: character(junction), right: character(right) }
}

const fn contents([left, junction, right]: [char; 3]) -> ContentLineStyle {
    ContentLineStyle { left: character(left), junction: character(junction), right: character(right) }
}

/// Lines everywhere, in ASCII. A new table has this style.
///
/// ```text
/// +-------+-------+
/// | Hello | there |
/// +===============+
/// | a     | b     |
/// |-------+-------|
/// | c     | d     |
/// +-------+-------+
/// ```
pub const ASCII_FULL: TableStyle = TableStyle {
    top_border: line(['+', '-', '+', '+']),
    header_lines: contents(['|', '|', '|']),
    header_separator: line(['+', '=', '=', '+']),
    content_lines: contents(['|', '|', '|']),
    row_separator: line(['|', '-', '+', '|']),
    bottom_border: line(['+', '-', '+', '+']),
};

/// Lines everywhere except between rows, in ASCII.
///
/// ```text
/// +-------+-------+
/// | Hello | there |
/// +===============+
/// | a     | b     |
/// | c     | d     |
/// +-------+-------+
/// ```
pub const ASCII_FULL_CONDENSED: TableStyle = TableStyle {
    top_border: line(['+', '-', '+', '+']),
    header_lines: contents(['|', '|', '|']),
    header_separator: line(['+', '=', '=', '+']),
    content_lines: contents(['|', '|', '|']),
    row_separator: LineStyle::none(),
    bottom_border: line(['+', '-', '+', '+']),
};

/// Lines everywhere except around the table, in ASCII.
///
/// ```text
///  Hello | there
/// ===============
///  a     | b
/// -------+-------
///  c     | d
/// ```
pub const ASCII_NO_BORDERS: TableStyle = TableStyle {
    top_border: LineStyle::none(),
    header_lines: contents([' ', '|', ' ']),
    header_separator: line([' ', '=', '=', ' ']),
    content_lines: contents([' ', '|', ' ']),
    row_separator: line([' ', '-', '+', ' ']),
    bottom_border: LineStyle::none(),
};

/// Lines around the table and below the header, in ASCII, and a line of spaces between rows.
///
/// ```text
/// +---------------+
/// | Hello   there |
/// +===============+
/// | a       b     |
/// |               |
/// | c       d     |
/// +---------------+
/// ```
pub const ASCII_BORDERS_ONLY: TableStyle = TableStyle {
    top_border: line(['+', '-', '-', '+']),
    header_lines: contents(['|', ' ', '|']),
    header_separator: line(['+', '=', '=', '+']),
    content_lines: contents(['|', ' ', '|']),
    row_separator: line(['|', ' ', ' ', '|']),
    bottom_border: line(['+', '-', '-', '+']),
};

/// Lines around the table and below the header, in ASCII.
///
/// ```text
/// +---------------+
/// | Hello   there |
/// +===============+
/// | a       b     |
/// | c       d     |
/// +---------------+
/// ```
pub const ASCII_BORDERS_ONLY_CONDENSED: TableStyle = TableStyle {
    top_border: line(['+', '-', '-', '+']),
    header_lines: contents(['|', ' ', '|']),
    header_separator: line(['+', '=', '=', '+']),
    content_lines: contents(['|', ' ', '|']),
    row_separator: LineStyle::none(),
    bottom_border: line(['+', '-', '-', '+']),
};

/// Horizontal lines alone, in ASCII.
///
/// ```text
/// ---------------
///  Hello   there
/// ===============
///  a       b
/// ---------------
///  c       d
/// ---------------
/// ```
pub const ASCII_HORIZONTAL_ONLY: TableStyle = TableStyle {
    top_border: line([' ', '-', '-', ' ']),
    header_lines: ContentLineStyle::none(),
    header_separator: line([' ', '=', '=', ' ']),
    content_lines: ContentLineStyle::none(),
    row_separator: line([' ', '-', '-', ' ']),
    bottom_border: line([' ', '-', '-', ' ']),
};

/// The lines of a table for Markdown. Texts aren't escaped. Markdown doesn't read a row with more than one line as one row.
///
/// ```text
/// | Hello | there |
/// |-------|-------|
/// | a     | b     |
/// | c     | d     |
/// ```
pub const ASCII_MARKDOWN: TableStyle = TableStyle {
    top_border: LineStyle::none(),
    header_lines: contents(['|', '|', '|']),
    header_separator: line(['|', '-', '|', '|']),
    content_lines: contents(['|', '|', '|']),
    row_separator: LineStyle::none(),
    bottom_border: LineStyle::none(),
};

/// Lines everywhere, of box drawing characters.
///
/// ```text
/// ┌───────┬───────┐
/// │ Hello ┆ there │
/// ╞═══════╪═══════╡
/// │ a     ┆ b     │
/// ├╌╌╌╌╌╌╌┼╌╌╌╌╌╌╌┤
/// │ c     ┆ d     │
/// └───────┴───────┘
/// ```
pub const UTF8_FULL: TableStyle = TableStyle {
    top_border: line(['┌', '─', '┬', '┐']),
    header_lines: contents(['│', '┆', '│']),
    header_separator: line(['╞', '═', '╪', '╡']),
    content_lines: contents(['│', '┆', '│']),
    row_separator: line(['├', '╌', '┼', '┤']),
    bottom_border: line(['└', '─', '┴', '┘']),
};

/// Lines everywhere except between rows, of box drawing characters.
///
/// ```text
/// ┌───────┬───────┐
/// │ Hello ┆ there │
/// ╞═══════╪═══════╡
/// │ a     ┆ b     │
/// │ c     ┆ d     │
/// └───────┴───────┘
/// ```
pub const UTF8_FULL_CONDENSED: TableStyle = TableStyle {
    top_border: line(['┌', '─', '┬', '┐']),
    header_lines: contents(['│', '┆', '│']),
    header_separator: line(['╞', '═', '╪', '╡']),
    content_lines: contents(['│', '┆', '│']),
    row_separator: LineStyle::none(),
    bottom_border: line(['└', '─', '┴', '┘']),
};

/// Lines everywhere except around the table, of box drawing characters.
///
/// ```text
///  Hello ┆ there
/// ═══════╪═══════
///  a     ┆ b
/// ╌╌╌╌╌╌╌┼╌╌╌╌╌╌╌
///  c     ┆ d
/// ```
pub const UTF8_NO_BORDERS: TableStyle = TableStyle {
    top_border: LineStyle::none(),
    header_lines: contents([' ', '┆', ' ']),
    header_separator: line([' ', '═', '╪', ' ']),
    content_lines: contents([' ', '┆', ' ']),
    row_separator: line([' ', '╌', '┼', ' ']),
    bottom_border: LineStyle::none(),
};

/// Lines around the table and below the header, of box drawing characters.
///
/// ```text
/// ┌───────────────┐
/// │ Hello   there │
/// ╞═══════════════╡
/// │ a       b     │
/// │ c       d     │
/// └───────────────┘
/// ```
pub const UTF8_BORDERS_ONLY: TableStyle = TableStyle {
    top_border: line(['┌', '─', '─', '┐']),
    header_lines: contents(['│', ' ', '│']),
    header_separator: line(['╞', '═', '═', '╡']),
    content_lines: contents(['│', ' ', '│']),
    row_separator: LineStyle::none(),
    bottom_border: line(['└', '─', '─', '┘']),
};

/// Horizontal lines alone, of box drawing characters.
///
/// ```text
/// ───────────────
///  Hello   there
/// ═══════════════
///  a       b
/// ───────────────
///  c       d
/// ───────────────
/// ```
pub const UTF8_HORIZONTAL_ONLY: TableStyle = TableStyle {
    top_border: line([' ', '─', '─', ' ']),
    header_lines: ContentLineStyle::none(),
    header_separator: line([' ', '═', '═', ' ']),
    content_lines: ContentLineStyle::none(),
    row_separator: line([' ', '─', '─', ' ']),
    bottom_border: line([' ', '─', '─', ' ']),
};

/// No lines: only the texts of cells, with their paddings.
///
/// ```text
///  Hello  there
///  a      b
///  c      d
/// ```
pub const NOTHING: TableStyle = TableStyle::new();

// All presets, in the order of comfy_table.h.
pub(crate) const ALL: [TableStyle; 13] = [
    ASCII_FULL,
    ASCII_FULL_CONDENSED,
    ASCII_NO_BORDERS,
    ASCII_BORDERS_ONLY,
    ASCII_BORDERS_ONLY_CONDENSED,
    ASCII_HORIZONTAL_ONLY,
    ASCII_MARKDOWN,
    UTF8_FULL,
    UTF8_FULL_CONDENSED,
    UTF8_NO_BORDERS,
    UTF8_BORDERS_ONLY,
    UTF8_HORIZONTAL_ONLY,
    NOTHING,
];
