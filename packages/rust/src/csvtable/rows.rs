#[cfg(feature = "tty")]
use crate::cell::Cell;
use crate::csvtable::column::Column;
use crate::csvtable::error::Error;
use crate::csvtable::into_cells::IntoCells;
#[cfg(feature = "tty")]
use crate::csvtable::sequences::between_sequences;
use crate::csvtable::style::Style;
use crate::library::numbers::{Frame, RowsColumn, RowsSettings};
use crate::library::{Texts, draw_rows};
#[cfg(feature = "tty")]
use crate::terminal;
use std::borrow::Cow;
use std::cell;
#[cfg(feature = "tty")]
use std::env;
use std::fmt::{self, Display, Write};

/// The condition for expanding rows. An expanded row is drawn as a table of its own. In that table each line has the name of a
/// column and the row's cell in that column.
///
/// ```
/// use comfy_table_proved::csvtable::{Expanded, Rows, Style};
///
/// let rows = Rows::new(["name", "price"]).row(("oats", 3)).expanded(Expanded::Always).style(Style::Ascii);
/// assert!(rows.to_string().contains("| price | 3"));
/// ```
#[derive(Clone, Copy, Debug, Default, PartialEq, Eq)]
#[non_exhaustive]
pub enum Expanded {
    /// Rows are never expanded.
    #[default]
    Never,
    /// Rows are expanded only if the table has a width that is too small for its columns.
    Auto,
    /// Rows are always expanded.
    Always,
}

// The sides of a column in comfy_table.h: by its contents, left, right.
const BY_CONTENTS: u32 = 0;
const LEFT: u32 = 1;
const RIGHT: u32 = 2;

/// A table: rows of values, and settings. Rows may have different numbers of values.
///
/// In a cell, control characters are drawn as U+FFFD and TABs as spaces. Line breaks are kept.
///
/// `Display` writes the drawing that [`Rows::draw`] returns, which ends with a line feed. If memory runs out, `Display` returns an
/// error, and `to_string` panics.
///
/// ```
/// use comfy_table_proved::csvtable::{Rows, Style};
///
/// let mut tides = Rows::new(["harbour", "high water"]);
/// tides.push(("Brest", "07:49"));
/// tides.push(("Saint-Malo", "09:55"));
/// assert_eq!(tides.right(["high water"])?.style(Style::Box).to_string(), "\
/// ┌────────────┬────────────┐
/// │ harbour    ┆ high water │
/// ╞════════════╪════════════╡
/// │ Brest      ┆      07:49 │
/// │ Saint-Malo ┆      09:55 │
/// └────────────┴────────────┘
/// ");
/// # Ok::<(), comfy_table_proved::csvtable::Error>(())
/// ```
#[derive(Clone, Debug)]
pub struct Rows {
    header: Vec<String>,
    // the header and the rows
    texts: Texts,
    // the side of each column; there are as many columns as the longest row has cells
    sides: Vec<u32>,
    // the positions of the columns to draw; an empty list means all columns
    chosen: Vec<usize>,
    style: Style,
    has_row_lines: Option<bool>,
    settings: Settings,
}

// The other settings.
#[derive(Clone, Copy, Debug, Default)]
struct Settings {
    is_numbered: bool,
    leaves_decimals: bool,
    has_header: bool,
    width: Option<u16>,
    is_full: bool,
    max_height: Option<usize>,
    limit: Option<usize>,
    expanded: Expanded,
    has_bold_header: bool,
    has_sequences: bool,
}

impl Rows {
    /// Makes a table with a header and without rows. Each value of `header` is the name of a column. A header without values gets
    /// one empty name. For a table without a header, call [`Rows::without_header`].
    ///
    /// ```
    /// use comfy_table_proved::csvtable::Rows;
    ///
    /// let rows = Rows::new(["name", "price"]).row(("oats", 3)).row(("rye", -12.5));
    /// assert_eq!(rows.to_string(), "\
    /// ╭──────┬───────╮
    /// │ name ┆ price │
    /// ╞══════╪═══════╡
    /// │ oats ┆   3   │
    /// │ rye  ┆ -12.5 │
    /// ╰──────┴───────╯
    /// ");
    /// ```
    pub fn new(header: impl IntoCells) -> Rows {
        let mut rows = Rows::without_header();
        rows.push(header);
        rows.settings.has_header = true;
        rows.header = rows.texts.rows().next().map(|names| names.into_iter().map(String::from).collect()).unwrap_or_default();
        rows
    }

    /// Makes a table without header and rows. An iterator over rows can also be collected into a table without a header:
    ///
    /// ```
    /// use comfy_table_proved::csvtable::Rows;
    ///
    /// let squares: Rows = (8..11).map(|number| [number, number * number]).collect();
    /// assert_eq!(squares.to_string(), "\
    /// ╭────┬─────╮
    /// │  8 ┆  64 │
    /// │  9 ┆  81 │
    /// │ 10 ┆ 100 │
    /// ╰────┴─────╯
    /// ");
    /// ```
    pub fn without_header() -> Rows {
        Rows {
            header: Vec::new(),
            texts: Texts::default(),
            sides: Vec::new(),
            chosen: Vec::new(),
            style: Style::default(),
            has_row_lines: None,
            settings: Settings::default(),
        }
    }

    /// Adds a row below the others. A row without values gets one empty cell.
    pub fn push(&mut self, cells: impl IntoCells) {
        let first = self.texts.lengths.len();
        if self.settings.has_sequences {
            cells.for_each_cell(|value| self.texts.push_text(&plain(&value.to_string())));
        } else {
            self.texts.push_values(cells);
        }
        if self.texts.lengths.len() == first {
            self.texts.push_text("");
        }
        let count = self.texts.lengths.len() - first;
        self.texts.counts.push(count);
        self.sides.resize(self.sides.len().max(count), BY_CONTENTS);
    }

    /// Adds a row as [`push`](Rows::push) does, and returns the table.
    pub fn row(mut self, cells: impl IntoCells) -> Rows {
        self.push(cells);
        self
    }

    /// Returns the number of rows, without the header.
    ///
    /// ```
    /// use comfy_table_proved::csvtable::Rows;
    ///
    /// let rows = Rows::new(["name", "price"]);
    /// assert!(rows.is_empty());
    /// assert_eq!(rows.row(("oats", 3)).len(), 1);
    /// ```
    pub fn len(&self) -> usize {
        self.texts.counts.len() - usize::from(self.settings.has_header)
    }

    /// Returns true if the table has no rows. A header doesn't count.
    pub fn is_empty(&self) -> bool {
        self.len() == 0
    }

    /// Draws only the columns in `columns`, in this order. An empty `columns` draws all columns. Without this call all columns are
    /// drawn.
    ///
    /// ```
    /// use comfy_table_proved::csvtable::{Rows, Style};
    ///
    /// let rows = Rows::new(["name", "price", "stock"]).row(("oats", 3, 40)).style(Style::Ascii);
    /// assert_eq!(rows.columns(["stock", "name"])?.to_string(), "\
    /// +-------+------+
    /// | stock | name |
    /// +==============+
    /// |    40 | oats |
    /// +-------+------+
    /// ");
    /// # Ok::<(), comfy_table_proved::csvtable::Error>(())
    /// ```
    ///
    /// # Errors
    ///
    /// - [`Error::NoColumn`] if a name isn't in the header, or if neither the header nor a row has a cell at a position. Add the
    ///   rows before this call.
    /// - [`Error::AmbiguousColumn`] if a name is in the header twice.
    ///
    /// After an error the table no longer exists.
    pub fn columns<T: Into<Column>>(mut self, columns: impl IntoIterator<Item = T>) -> Result<Rows, Error> {
        self.chosen = self.positions(columns)?;
        Ok(self)
    }

    /// Right-aligns the columns in `columns`, even if they don't hold numbers.
    ///
    /// ```
    /// use comfy_table_proved::csvtable::Rows;
    ///
    /// let rows = Rows::new(["harbour", "high water"]).row(("Brest", "07:49 h")).right([1])?;
    /// assert_eq!(rows.to_string().lines().nth(3), Some("│ Brest   ┆    07:49 h │"));
    /// # Ok::<(), comfy_table_proved::csvtable::Error>(())
    /// ```
    ///
    /// # Errors
    ///
    /// The errors are those of [`columns`](Rows::columns), and [`Error::TwoSides`] if [`left`](Rows::left) was called with one of
    /// the columns. After an error the table no longer exists.
    pub fn right<T: Into<Column>>(self, columns: impl IntoIterator<Item = T>) -> Result<Rows, Error> {
        self.aligned(columns, RIGHT)
    }

    /// Left-aligns the columns in `columns`, even if they hold numbers.
    ///
    /// ```
    /// use comfy_table_proved::csvtable::Rows;
    ///
    /// let rows = Rows::new(["number", "name"]).row((17, "oats")).left(["number"])?;
    /// assert_eq!(rows.to_string().lines().nth(3), Some("│ 17     ┆ oats │"));
    /// # Ok::<(), comfy_table_proved::csvtable::Error>(())
    /// ```
    ///
    /// # Errors
    ///
    /// The errors are those of [`columns`](Rows::columns), and [`Error::TwoSides`] if [`right`](Rows::right) was called with one of
    /// the columns. After an error the table no longer exists.
    pub fn left<T: Into<Column>>(self, columns: impl IntoIterator<Item = T>) -> Result<Rows, Error> {
        self.aligned(columns, LEFT)
    }

    /// Sets the greatest width of the table, in terminal columns. 0 means no limit. Without this call there is no limit. The table
    /// is wider if the width has no room for the frame, the paddings and one terminal column for each column. A table for Markdown
    /// ignores the width.
    ///
    /// ```
    /// use comfy_table_proved::csvtable::{Rows, Style};
    ///
    /// let rows = Rows::new(["bike", "place"]).row((17, "dock 3, at the harbour")).width(22).style(Style::Ascii);
    /// assert_eq!(rows.to_string(), "\
    /// +------+-------------+
    /// | bike | place       |
    /// +====================+
    /// |   17 | dock 3, at  |
    /// |      | the harbour |
    /// +------+-------------+
    /// ");
    /// ```
    pub fn width(mut self, width: u16) -> Rows {
        self.settings.width = (width > 0).then_some(width);
        self
    }

    /// Sets the greatest width of the table to the width of the terminal, in terminal columns. The width of the terminal is the
    /// value of the environment variable `COLUMNS`, if this value is a number from 1 to 65535. Otherwise the system gives the
    /// width. If the system knows no width, the greatest width of the table is 80. The table can be wider, as with
    /// [`width`](Rows::width).
    #[cfg(feature = "tty")]
    pub fn terminal_width(self) -> Rows {
        let set = env::var("COLUMNS").ok().and_then(|text| text.parse().ok()).filter(|columns| *columns > 0);
        self.width(set.or_else(terminal::columns).unwrap_or(80))
    }

    /// Sets whether the table is made as wide as the width that [`width`](Rows::width) or `terminal_width` sets, even if its texts
    /// need less. Without this call it isn't. True has no effect if no width is set, and in a table for Markdown.
    ///
    /// ```
    /// use comfy_table_proved::csvtable::Rows;
    ///
    /// let rows = Rows::without_header().row(["oats"]).width(20).full(true);
    /// assert_eq!(rows.to_string().lines().nth(1), Some("│ oats             │"));
    /// ```
    pub fn full(mut self, is_full: bool) -> Rows {
        self.settings.is_full = is_full;
        self
    }

    /// Sets the greatest number of lines that are drawn of each row. A text with more lines is cut, and ends with `…`. The header
    /// has no limit. 0 counts as 1. Without this call there is no limit. A table for Markdown ignores the limit.
    ///
    /// ```
    /// use comfy_table_proved::csvtable::Rows;
    ///
    /// let rows = Rows::without_header().row(["dock 3\nharbour"]).max_height(1);
    /// assert_eq!(rows.to_string().lines().nth(1), Some("│ dock 3… │"));
    /// ```
    pub fn max_height(mut self, lines: usize) -> Rows {
        self.settings.max_height = Some(lines);
        self
    }

    /// Draws only the first `rows` rows. If the table has more rows, a line such as `1 of 3 rows` is below the table. Without this
    /// call all rows are drawn. 0 draws only the header. Without a header, the drawing is then empty.
    ///
    /// ```
    /// use comfy_table_proved::csvtable::Rows;
    ///
    /// let rows: Rows = (1..4).map(|number| [number]).collect();
    /// assert_eq!(rows.limit(1).to_string(), "╭───╮\n│ 1 │\n╰───╯\n1 of 3 rows\n");
    /// assert_eq!(Rows::without_header().row([1]).limit(0).to_string(), "");
    /// ```
    pub fn limit(mut self, rows: usize) -> Rows {
        self.settings.limit = Some(rows);
        self
    }

    /// Sets the frame of the table. Without this call the frame is [`Style::Rounded`].
    pub fn style(mut self, style: Style) -> Rows {
        self.style = style;
        self
    }

    /// Sets whether lines are drawn between rows. True draws lines between all rows, in each style that has such lines. False draws
    /// no lines between rows. Without this call, the [`Style`] decides.
    ///
    /// ```
    /// use comfy_table_proved::csvtable::{Rows, Style};
    ///
    /// let rows: Rows = [["a"], ["b"]].into_iter().collect();
    /// assert_eq!(rows.style(Style::Ascii).row_lines(false).to_string(), "+---+\n| a |\n| b |\n+---+\n");
    /// ```
    pub fn row_lines(mut self, are_drawn: bool) -> Rows {
        self.has_row_lines = Some(are_drawn);
        self
    }

    /// Sets the condition for expanding rows, which means drawing each row as a table of its own. Without this call, rows aren't
    /// expanded ([`Expanded::Never`]).
    pub fn expanded(mut self, when: Expanded) -> Rows {
        self.settings.expanded = when;
        self
    }

    /// Sets whether the header is written in bold. In expanded rows, the names of the columns are then bold. Bold is written even
    /// if the output isn't a terminal. Without this call the header isn't bold. A table for Markdown has no bold header.
    pub fn bold_header(mut self, is_bold: bool) -> Rows {
        self.settings.has_bold_header = is_bold;
        self
    }

    /// Sets whether the table has a first column, `#`, with the number of each row. Rows are counted from 1. Without this call
    /// there is no such column. Expanded rows don't have this column, because the line above each of them has the number of the
    /// row.
    ///
    /// ```
    /// use comfy_table_proved::csvtable::{Rows, Style};
    ///
    /// let rows = Rows::new(["name"]).row(["oats"]).row(["rye"]).number(true).style(Style::Ascii).row_lines(false);
    /// assert_eq!(rows.to_string(), "\
    /// +---+------+
    /// | # | name |
    /// +==========+
    /// | 1 | oats |
    /// | 2 | rye  |
    /// +---+------+
    /// ");
    /// ```
    pub fn number(mut self, is_numbered: bool) -> Rows {
        self.settings.is_numbered = is_numbered;
        self
    }

    /// Sets whether the decimal points of a column of numbers are put below each other, by spaces after the numbers. Without this
    /// call they are put below each other. True has no effect in Markdown, in expanded rows, and if the width has no room for the
    /// spaces.
    ///
    /// ```
    /// use comfy_table_proved::csvtable::Rows;
    ///
    /// let rows = Rows::without_header().row([3.25]).row([-12.5]);
    /// assert_eq!(rows.to_string(), "╭────────╮\n│   3.25 │\n│ -12.5  │\n╰────────╯\n");
    /// assert_eq!(rows.align_decimals(false).to_string(), "╭───────╮\n│  3.25 │\n│ -12.5 │\n╰───────╯\n");
    /// ```
    pub fn align_decimals(mut self, are_aligned: bool) -> Rows {
        self.settings.leaves_decimals = !are_aligned;
        self
    }

    /// Colours the cells of the rows that were added before this call. The header isn't coloured.
    ///
    /// `painted` is called with the position of a cell's row, the position of the cell's column, and the cell. Both positions count
    /// from 0. `painted` returns a cell, whose text, colours and attributes are drawn in place of those of the given cell. Colours
    /// and attributes are written even if the output isn't a terminal. A table for Markdown has no colours and attributes.
    ///
    /// ```
    /// use comfy_table_proved::Color;
    /// use comfy_table_proved::csvtable::Rows;
    ///
    /// let rows = Rows::new(["name", "change"]).row(("oats", -3)).row(("rye", 2));
    /// let painted = rows.paint(|_, _, cell| if cell.content().starts_with('-') { cell.fg(Color::Red) } else { cell });
    /// assert!(painted.to_string().contains("\x1b[38;5;9m-3\x1b[0m"));
    /// ```
    #[cfg(feature = "tty")]
    pub fn paint(mut self, painted: impl Fn(usize, usize, Cell) -> Cell) -> Rows {
        let rows = std::mem::take(&mut self.texts);
        let was_plain = !self.settings.has_sequences;
        self.settings.has_sequences = true;
        let first = usize::from(self.settings.has_header);
        for (at, row) in rows.rows().enumerate() {
            for (column, text) in row.iter().enumerate() {
                let text = if was_plain { plain(text) } else { (*text).into() };
                let Some(row) = at.checked_sub(first) else {
                    self.texts.push_text(&text);
                    continue;
                };
                let cell = painted(row, column, Cell::new_owned(text));
                self.texts.push_text(&between_sequences(&cell, &cell.text));
            }
            self.texts.counts.push(row.len());
        }
        self
    }

    /// Draws the table. The drawing ends with a line feed. The drawing is empty if there is neither a header nor a row to draw.
    ///
    /// # Errors
    ///
    /// The only error is [`Error::OutOfMemory`], if memory runs out.
    ///
    /// ```
    /// use comfy_table_proved::csvtable::Rows;
    ///
    /// assert_eq!(Rows::without_header().row(["oats"]).draw()?, "╭──────╮\n│ oats │\n╰──────╯\n");
    /// # Ok::<(), comfy_table_proved::csvtable::Error>(())
    /// ```
    pub fn draw(&self) -> Result<String, Error> {
        // The library refuses rows of which nothing is drawn.
        if !self.settings.has_header && self.settings.limit == Some(0) {
            return Ok(String::new());
        }
        let settings = self.settings();
        let is_plain = self.style == Style::Markdown && self.settings.has_sequences;
        let drawn = if is_plain { Cow::Owned(self.texts.without_sequences()) } else { Cow::Borrowed(&self.texts) };
        if self.chosen.is_empty() {
            let columns: Vec<RowsColumn> = self.sides.iter().copied().map(RowsColumn::at).collect();
            return Ok(draw_rows(&drawn, &columns, &settings)?);
        }
        let mut texts = Texts::default();
        for row in drawn.rows() {
            for position in &self.chosen {
                texts.push_text(row.get(*position).unwrap_or(&""));
            }
            texts.counts.push(self.chosen.len());
        }
        let columns: Vec<RowsColumn> = self.chosen.iter().map(|position| RowsColumn::at(self.sides[*position])).collect();
        Ok(draw_rows(&texts, &columns, &settings)?)
    }

    fn positions<T: Into<Column>>(&self, columns: impl IntoIterator<Item = T>) -> Result<Vec<usize>, Error> {
        columns.into_iter().map(|column| column.into().position(&self.header, self.sides.len())).collect()
    }

    fn aligned<T: Into<Column>>(mut self, columns: impl IntoIterator<Item = T>, side: u32) -> Result<Rows, Error> {
        for position in self.positions(columns)? {
            if self.sides[position] != BY_CONTENTS && self.sides[position] != side {
                return Err(Error::TwoSides(position));
            }
            self.sides[position] = side;
        }
        Ok(self)
    }

    // The settings of the table, in the numbers of comfy_table.h.
    fn settings(&self) -> RowsSettings {
        let Settings {
            is_numbered,
            leaves_decimals,
            has_header,
            width,
            is_full,
            max_height,
            limit,
            expanded,
            has_bold_header,
            has_sequences,
        } = self.settings;
        RowsSettings {
            max_height: max_height.unwrap_or(usize::MAX),
            limit: limit.unwrap_or(usize::MAX),
            style: self.style.number(),
            width: width.map_or(u32::MAX, u32::from),
            fills_width: is_full.into(),
            row_lines: match self.has_row_lines {
                Some(true) => 0,
                Some(false) => 2,
                None => self.style.is_compact().into(),
            },
            expansion: match expanded {
                Expanded::Never => 0,
                Expanded::Auto => 1,
                Expanded::Always => 2,
            },
            has_header: has_header.into(),
            has_bold_header: has_bold_header.into(),
            is_numbered: is_numbered.into(),
            aligns_decimals: (!leaves_decimals).into(),
            has_sequences: has_sequences.into(),
            is_markdown: (self.style == Style::Markdown).into(),
            // No style of this module has lines of its own.
            frame: Frame::default(),
        }
    }
}

// The text with its escape characters replaced, so that it has no sequences of colours and attributes.
fn plain(text: &str) -> String {
    text.replace('\x1b', "\u{fffd}")
}

// The text without its sequences of colours and attributes (SGR).
fn visible(text: &str) -> String {
    let mut parts = text.split("\x1b[");
    let first = parts.next().unwrap_or_default().to_owned();
    parts.fold(first, |text, part| {
        let rest = part.trim_start_matches(|it: char| it.is_ascii_digit() || it == ';' || it == ':');
        match rest.strip_prefix('m') {
            Some(rest) => text + rest,
            None => text + "\x1b[" + part,
        }
    })
}

impl Texts {
    fn push_text(&mut self, text: &str) {
        self.joined.push_str(text);
        self.lengths.push(text.len());
    }

    // Appends the text that each value prints to `joined`, and the length of this text in bytes to `lengths`.
    fn push_values(&mut self, values: impl IntoCells) {
        let end = cell::Cell::new(self.joined.len());
        let left = cell::Cell::new(Some((values, &mut self.lengths)));
        let mut joined = Joined { text: &mut self.joined, end: &end };
        write!(joined, "{}", Values { left, end: &end }).expect("a string takes every text");
    }

    // The texts without the sequences of `paint`, because a table for Markdown can't have them.
    fn without_sequences(&self) -> Texts {
        let mut plain = Texts::default();
        for row in self.rows() {
            row.iter().for_each(|text| plain.push_text(&visible(text)));
            plain.counts.push(row.len());
        }
        plain
    }

    fn rows(&self) -> impl Iterator<Item = Vec<&str>> {
        let mut left = self.joined.as_str();
        let mut lengths = self.lengths.iter();
        self.counts.iter().map(move |count| {
            let cut = |length: &usize| {
                let (text, rest) = left.split_at(*length);
                left = rest;
                text
            };
            lengths.by_ref().take(*count).map(cut).collect()
        })
    }
}

// The values of a row. One call of `write!` prints them all, one after another, and notes the length of each text.
struct Values<'a, V> {
    // the values and the list for the lengths of their texts, or `None` after they were printed
    left: cell::Cell<Option<(V, &'a mut Vec<usize>)>>,
    // the number of bytes of the text that the values are appended to
    end: &'a cell::Cell<usize>,
}

impl<V: IntoCells> Display for Values<'_, V> {
    fn fmt(&self, formatter: &mut fmt::Formatter<'_>) -> fmt::Result {
        let Some((values, lengths)) = self.left.take() else {
            return Ok(());
        };
        let mut printed = Ok(());
        values.for_each_cell(|value| {
            let start = self.end.get();
            printed = printed.and(value.fmt(formatter));
            lengths.push(self.end.get() - start);
        });
        printed
    }
}

// The text to which the values are appended. `end` always has its number of bytes.
struct Joined<'a> {
    text: &'a mut String,
    end: &'a cell::Cell<usize>,
}

impl Write for Joined<'_> {
    fn write_str(&mut self, text: &str) -> fmt::Result {
        self.text.push_str(text);
        self.end.set(self.text.len());
        Ok(())
    }
}

impl<R: IntoCells> Extend<R> for Rows {
    fn extend<I: IntoIterator<Item = R>>(&mut self, rows: I) {
        for row in rows {
            self.push(row);
        }
    }
}

impl<R: IntoCells> FromIterator<R> for Rows {
    fn from_iter<I: IntoIterator<Item = R>>(rows: I) -> Rows {
        let mut made = Rows::without_header();
        made.extend(rows);
        made
    }
}

impl fmt::Display for Rows {
    fn fmt(&self, formatter: &mut fmt::Formatter<'_>) -> fmt::Result {
        let drawing = self.draw().map_err(|_| fmt::Error)?;
        formatter.write_str(&drawing)
    }
}
