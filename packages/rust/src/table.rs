mod arrays;

use std::alloc::{Layout, handle_alloc_error};
use std::borrow::Cow;
use std::fmt;
#[cfg(feature = "tty")]
use std::io::{self, IsTerminal};
use std::iter;
use std::slice;
#[cfg(feature = "tty")]
use std::sync::OnceLock;

use crate::column::Column;
use crate::column_cells::{ColumnCellIter, ColumnCellsWithHeaderIter};
use crate::library;
use crate::row::Row;
use crate::style::presets::ASCII_FULL;
use crate::style::{ColumnConstraint, ContentArrangement, TableStyle};
#[cfg(feature = "tty")]
use crate::terminal;

/// A table: a header, rows of cells below it, columns, and settings.
///
/// `Display`, [`lines`](Table::lines) and [`trim_fmt`](Table::trim_fmt) draw it. When a header or a row is added, the table makes
/// the columns that the cells need. Rows may have different numbers of cells. A missing cell is drawn as an empty cell.
///
/// If memory runs out while the table is drawn, the process ends, as it does if a `Vec` gets no memory.
///
/// ```
/// use comfy_table_proved::{ContentArrangement, Table};
///
/// let mut table = Table::new();
/// table.set_content_arrangement(ContentArrangement::Dynamic).set_width(22);
/// table.set_header(["Bike", "Place"]).add_row(["17", "dock 3, at the harbour"]);
/// assert_eq!(table.to_string(), "\
/// +------+-------------+
/// | Bike | Place       |
/// +====================+
/// | 17   | dock 3, at  |
/// |      | the harbour |
/// +------+-------------+");
/// ```
#[derive(Clone, Debug)]
pub struct Table {
    columns: Vec<Column>,
    header: Option<Row>,
    rows: Vec<Row>,
    style: TableStyle,
    arrangement: ContentArrangement,
    delimiter: Option<char>,
    truncation_indicator: Cow<'static, str>,
    width: Option<u16>,
    #[cfg(feature = "tty")]
    terminal: Terminal,
}

// The settings about the terminal. `is_there` keeps the result of the first check.
#[cfg(feature = "tty")]
#[derive(Clone, Debug, Default)]
struct Terminal {
    is_denied: bool,
    is_at_stderr: bool,
    // whether the output is a terminal, once this is known
    is_there: OnceLock<bool>,
    enforces_styling: bool,
    styles_text_only: bool,
}

/// The form of a drawing.
#[derive(Clone, Copy)]
enum Form {
    /// The lines, each with a line feed after it.
    Lines,
    /// The lines without white space at their ends, with line feeds between them.
    Trimmed,
    /// The width of each column's contents in terminal columns: decimal numbers, each with a line feed after it.
    ContentWidths,
}

impl Table {
    /// Makes a table without header and rows. The style of the table is [`ASCII_FULL`], and its arrangement is
    /// [`ContentArrangement::Disabled`].
    ///
    /// ```
    /// use comfy_table_proved::Table;
    ///
    /// assert_eq!(Table::new().add_row(["17", "dock 3"]).to_string(), "\
    /// +----+--------+
    /// | 17 | dock 3 |
    /// +----+--------+");
    /// ```
    pub fn new() -> Table {
        Table {
            columns: Vec::new(),
            header: None,
            rows: Vec::new(),
            style: ASCII_FULL,
            arrangement: ContentArrangement::Disabled,
            delimiter: None,
            truncation_indicator: Cow::Borrowed("…"),
            width: None,
            #[cfg(feature = "tty")]
            terminal: Terminal::default(),
        }
    }
}

/// Drawings.
impl Table {
    /// Returns the drawing without the white space at the ends of its lines. Lines of a style without a right border end with such
    /// white space. Line feeds are between the lines, and not after the last line.
    ///
    /// ```
    /// use comfy_table_proved::{Table, presets::NOTHING};
    ///
    /// let mut table = Table::new();
    /// table.load_style(NOTHING).add_row(["17", "dock 3"]).add_row(["8", "station"]);
    /// assert_eq!(table.to_string(), " 17  dock 3  \n 8   station ");
    /// assert_eq!(table.trim_fmt(), " 17  dock 3\n 8   station");
    /// ```
    pub fn trim_fmt(&self) -> String {
        self.drawn(Form::Trimmed)
    }

    /// Returns the lines of the drawing, from the top, without line feeds. The call draws the whole table before it returns the
    /// iterator.
    ///
    /// ```
    /// use comfy_table_proved::Table;
    ///
    /// let mut table = Table::new();
    /// let lines: Vec<String> = table.add_row(["17", "dock 3"]).lines().collect();
    /// assert_eq!(lines, ["+----+--------+", "| 17 | dock 3 |", "+----+--------+"]);
    /// ```
    pub fn lines(&self) -> impl Iterator<Item = String> {
        let drawing = self.drawn(Form::Lines);
        let mut start = 0;
        iter::from_fn(move || {
            let rest = &drawing[start..];
            let line = &rest[..rest.find('\n')?];
            start += line.len() + 1;
            Some(line.into())
        })
    }

    /// Returns a number for each column: the width of the widest line in the texts of the column, in terminal columns, without
    /// paddings. The header's text counts too. A width above 65535 is returned as 65535. Each cell counts at least 1, even if its
    /// text is empty. A column without cells has the width 0. Hidden columns are included.
    ///
    /// ```
    /// use comfy_table_proved::Table;
    ///
    /// let mut table = Table::new();
    /// table.set_header(["Bike", "Dock"]).add_row(["17", "harbour\nmuseum"]);
    /// assert_eq!(table.column_max_content_widths(), [4, 7]);
    /// ```
    pub fn column_max_content_widths(&self) -> Vec<u16> {
        self.drawn(Form::ContentWidths).lines().filter_map(|width| width.parse().ok()).collect()
    }

    fn drawn(&self, form: Form) -> String {
        let width = self.width();
        let (cells, longest) = arrays::cells_of(self);
        let settings = arrays::settings_of(self, width, form);
        let room = arrays::room_for(self, &cells, longest, width);
        match library::draw_cells(&cells, &self.truncation_indicator, &settings, room) {
            Ok(drawing) => drawing,
            Err(library::OutOfMemory) => handle_alloc_error(Layout::new::<u8>()),
        }
    }
}

/// Header, rows and columns.
impl Table {
    /// Sets the header, and makes the columns that its cells need. An earlier header is replaced. A new table has no header.
    ///
    /// ```
    /// use comfy_table_proved::Table;
    ///
    /// let mut table = Table::new();
    /// table.set_header(["Bike", "Dock"]).add_row([17, 3]);
    /// assert_eq!(table.to_string(), "\
    /// +------+------+
    /// | Bike | Dock |
    /// +=============+
    /// | 17   | 3    |
    /// +------+------+");
    /// ```
    pub fn set_header<T: Into<Row>>(&mut self, row: T) -> &mut Table {
        let header = row.into();
        self.grow_columns(header.cell_count());
        self.header = Some(header);
        self
    }

    /// Returns the header, or `None` if there is none.
    pub fn header(&self) -> Option<&Row> {
        self.header.as_ref()
    }

    /// Adds a row below the others, and makes the columns that its cells need. The row is a [`Row`], or anything that iterates
    /// over values with `Display`.
    ///
    /// ```
    /// use comfy_table_proved::{Cell, CellAlignment, Row, Table};
    ///
    /// let mut table = Table::new();
    /// table.add_row([1.5, 20.0]);
    /// table.add_row(vec![Cell::new("a"), Cell::new("b").set_alignment(CellAlignment::Right)]);
    /// table.add_row(Row::from("xyz".chars()));
    /// assert_eq!(table.column_count(), 3);
    /// ```
    pub fn add_row<T: Into<Row>>(&mut self, row: T) -> &mut Table {
        let row = row.into();
        self.grow_columns(row.cell_count());
        self.rows.push(row);
        self
    }

    /// Adds a row if `predicate` returns true. The arguments of `predicate` are the number of rows that the table has without the
    /// header, and the row.
    ///
    /// ```
    /// use comfy_table_proved::Table;
    ///
    /// let mut table = Table::new();
    /// for bike in [[17, 3], [8, 0], [21, 5]] {
    ///     table.add_row_if(|_, [_, dock]| *dock > 0, bike);
    /// }
    /// assert_eq!(table.row_count(), 2);
    /// ```
    pub fn add_row_if<P, T>(&mut self, predicate: P, row: T) -> &mut Table
    where
        P: Fn(usize, &T) -> bool,
        T: Into<Row>,
    {
        if predicate(self.rows.len(), &row) { self.add_row(row) } else { self }
    }

    /// Adds rows in their order, each as [`add_row`](Table::add_row) does.
    ///
    /// ```
    /// use comfy_table_proved::Table;
    ///
    /// let mut table = Table::new();
    /// table.add_rows([["17", "dock 3"], ["8", "station"]]);
    /// assert_eq!(table.to_string(), "\
    /// +----+---------+
    /// | 17 | dock 3  |
    /// |----+---------|
    /// | 8  | station |
    /// +----+---------+");
    /// ```
    pub fn add_rows<I>(&mut self, rows: I) -> &mut Table
    where
        I: IntoIterator,
        I::Item: Into<Row>,
    {
        let rows = rows.into_iter();
        self.rows.reserve(rows.size_hint().0);
        for row in rows {
            self.add_row(row);
        }
        self
    }

    /// Adds all rows of `rows` if `predicate` returns true, and otherwise none of them. The arguments of `predicate` are the number
    /// of rows that the table has without the header, and `rows`.
    ///
    /// ```
    /// use comfy_table_proved::Table;
    ///
    /// let mut table = Table::new();
    /// table.add_rows_if(|count, rows| count + rows.len() <= 2, [[17, 3], [8, 0]]);
    /// table.add_rows_if(|count, rows| count + rows.len() <= 2, [[21, 5]]);
    /// assert_eq!(table.row_count(), 2);
    /// ```
    pub fn add_rows_if<P, I>(&mut self, predicate: P, rows: I) -> &mut Table
    where
        P: Fn(usize, &I) -> bool,
        I: IntoIterator,
        I::Item: Into<Row>,
    {
        if predicate(self.rows.len(), &rows) { self.add_rows(rows) } else { self }
    }

    /// Returns the number of rows, without the header.
    ///
    /// ```
    /// use comfy_table_proved::Table;
    ///
    /// let mut table = Table::new();
    /// table.set_header(["Bike", "Dock"]);
    /// assert_eq!(table.row_count(), 0);
    /// assert!(table.is_empty());
    /// assert_eq!(table.add_row([17, 3]).row_count(), 1);
    /// ```
    pub fn row_count(&self) -> usize {
        self.rows.len()
    }

    /// Returns true if the table has no rows. A header doesn't count.
    pub fn is_empty(&self) -> bool {
        self.rows.is_empty()
    }

    /// Returns the row at a position, counted from 0 below the header, or `None` if there are fewer rows.
    pub fn row(&self, index: usize) -> Option<&Row> {
        self.rows.get(index)
    }

    /// Returns a mutable reference to the row at a position, counted from 0 below the header, or `None` if there are fewer rows.
    ///
    /// ```
    /// use comfy_table_proved::Table;
    ///
    /// let mut table = Table::new();
    /// table.add_row(["17", "dock 3\nharbour"]);
    /// if let Some(row) = table.row_mut(0) {
    ///     row.max_height(1);
    /// }
    /// assert_eq!(table.lines().nth(1).as_deref(), Some("| 17 | dock 3… |"));
    /// ```
    pub fn row_mut(&mut self, index: usize) -> Option<&mut Row> {
        self.rows.get_mut(index)
    }

    /// Returns an iterator over the rows, from the top, without the header.
    ///
    /// ```
    /// use comfy_table_proved::{Row, Table};
    ///
    /// let mut table = Table::new();
    /// table.add_row(["17", "dock 3"]).add_row(["8"]);
    /// let lengths: Vec<usize> = table.row_iter().map(Row::cell_count).collect();
    /// assert_eq!(lengths, [2, 1]);
    /// ```
    pub fn row_iter(&self) -> slice::Iter<'_, Row> {
        self.rows.iter()
    }

    /// Returns an iterator over mutable references to the rows, from the top, without the header.
    ///
    /// ```
    /// use comfy_table_proved::Table;
    ///
    /// let mut table = Table::new();
    /// table.add_row(["17\ndock 3"]).add_row(["8\nstation"]);
    /// for row in table.row_iter_mut() {
    ///     row.max_height(1);
    /// }
    /// assert_eq!(table.lines().count(), 5);
    /// ```
    pub fn row_iter_mut(&mut self) -> slice::IterMut<'_, Row> {
        self.rows.iter_mut()
    }

    /// Calls [`discover_columns`](Table::discover_columns), and then returns the number of columns, including hidden columns.
    ///
    /// ```
    /// use comfy_table_proved::Table;
    ///
    /// let mut table = Table::new();
    /// table.set_header(["Bike", "Dock"]).add_row(["17", "3", "rented"]);
    /// assert_eq!(table.column_count(), 3);
    /// ```
    pub fn column_count(&mut self) -> usize {
        self.discover_columns();
        self.columns.len()
    }

    /// Returns the column at a position, counted from 0, or `None` if there are fewer columns.
    pub fn column(&self, index: usize) -> Option<&Column> {
        self.columns.get(index)
    }

    /// Returns a mutable reference to the column at a position, counted from 0, or `None` if there are fewer columns.
    ///
    /// ```
    /// use comfy_table_proved::{CellAlignment, Table};
    ///
    /// let mut table = Table::new();
    /// table.set_header(["Bike", "Euros"]).add_row([17, 5]);
    /// if let Some(euros) = table.column_mut(1) {
    ///     euros.set_cell_alignment(CellAlignment::Right);
    /// }
    /// assert_eq!(table.lines().nth(3).as_deref(), Some("| 17   |     5 |"));
    /// ```
    pub fn column_mut(&mut self, index: usize) -> Option<&mut Column> {
        self.columns.get_mut(index)
    }

    /// Returns an iterator over the columns, from the left. Hidden columns are included.
    pub fn column_iter(&self) -> slice::Iter<'_, Column> {
        self.columns.iter()
    }

    /// Returns an iterator over mutable references to the columns, from the left. Hidden columns are included.
    ///
    /// ```
    /// use comfy_table_proved::Table;
    ///
    /// let mut table = Table::new();
    /// table.add_row(["17", "dock 3"]);
    /// for column in table.column_iter_mut() {
    ///     column.set_padding((0, 0));
    /// }
    /// assert_eq!(table.lines().nth(1).as_deref(), Some("|17|dock 3|"));
    /// ```
    pub fn column_iter_mut(&mut self) -> slice::IterMut<'_, Column> {
        self.columns.iter_mut()
    }

    /// Returns an iterator over the cells of a column, from the top, without the header. `column_index` is the position of the
    /// column, counted from 0. There is one item for each row. The item is `None` if the row has no cell in this column.
    ///
    /// ```
    /// use comfy_table_proved::{Cell, Table};
    ///
    /// let mut table = Table::new();
    /// table.add_row(["17", "dock 3"]).add_row(["8"]);
    /// let places: Vec<Option<String>> = table.column_cells_iter(1).map(|cell| cell.map(Cell::content)).collect();
    /// assert_eq!(places, [Some("dock 3".into()), None]);
    /// ```
    pub fn column_cells_iter(&self, column_index: usize) -> ColumnCellIter<'_> {
        ColumnCellIter::new(&self.rows, column_index)
    }

    /// Returns an iterator over the cells of a column, which begins with the cell of the header. `column_index` is the position of
    /// the column, counted from 0. The first item is `None` if there is no header, or if the header has no cell in this column. The
    /// other items are those of [`column_cells_iter`](Table::column_cells_iter).
    ///
    /// ```
    /// use comfy_table_proved::{Cell, Table};
    ///
    /// let mut table = Table::new();
    /// table.set_header(["Bike", "Place"]).add_row(["17", "dock 3"]).add_row(["8"]);
    /// let places: Vec<Option<String>> = table.column_cells_with_header_iter(1).map(|cell| cell.map(Cell::content)).collect();
    /// assert_eq!(places, [Some("Place".into()), Some("dock 3".into()), None]);
    /// ```
    pub fn column_cells_with_header_iter(&self, column_index: usize) -> ColumnCellsWithHeaderIter<'_> {
        ColumnCellsWithHeaderIter::new(self.header.as_ref(), &self.rows, column_index)
    }

    /// Makes the columns that are missing, so that each cell of each row has a column. Call this after adding cells to a row that
    /// is already in the table, because cells without a column aren't drawn.
    ///
    /// ```
    /// use comfy_table_proved::{Cell, Table};
    ///
    /// let mut table = Table::new();
    /// table.add_row(["17"]);
    /// if let Some(row) = table.row_mut(0) {
    ///     row.add_cell(Cell::new("dock 3"));
    /// }
    /// assert_eq!(table.lines().nth(1).as_deref(), Some("| 17 |"));
    /// table.discover_columns();
    /// assert_eq!(table.lines().nth(1).as_deref(), Some("| 17 | dock 3 |"));
    /// ```
    pub fn discover_columns(&mut self) {
        self.grow_columns(self.rows.iter().map(Row::cell_count).max().unwrap_or(0));
    }

    fn grow_columns(&mut self, count: usize) {
        self.columns.extend((self.columns.len()..count).map(Column::new));
    }
}

/// Settings.
impl Table {
    /// Sets the style, which is the characters of the frame: one of the [`presets`](crate::presets), or a style of your own.
    ///
    /// ```
    /// use comfy_table_proved::{Table, presets::UTF8_FULL};
    ///
    /// let mut table = Table::new();
    /// table.load_style(UTF8_FULL.with_rounded_corners()).add_row(["17", "dock 3"]);
    /// assert_eq!(table.to_string(), "\
    /// ╭────┬────────╮
    /// │ 17 ┆ dock 3 │
    /// ╰────┴────────╯");
    /// ```
    pub fn load_style(&mut self, style: TableStyle) -> &mut Table {
        self.style = style;
        self
    }

    /// Returns the style: the characters of the frame.
    ///
    /// ```
    /// use comfy_table_proved::{Table, presets::ASCII_FULL};
    ///
    /// assert_eq!(Table::new().style(), ASCII_FULL);
    /// ```
    pub fn style(&self) -> TableStyle {
        self.style
    }

    /// Returns a mutable reference to the style: the characters of the frame.
    ///
    /// ```
    /// use comfy_table_proved::Table;
    ///
    /// let mut table = Table::new();
    /// table.style_mut().content_lines.junction = Some('/');
    /// assert_eq!(table.add_row(["17", "dock 3"]).lines().nth(1).as_deref(), Some("| 17 / dock 3 |"));
    /// ```
    pub fn style_mut(&mut self) -> &mut TableStyle {
        &mut self.style
    }

    /// Sets the rule by which columns get their widths. A new table has [`ContentArrangement::Disabled`].
    ///
    /// ```
    /// use comfy_table_proved::{ContentArrangement, Table};
    ///
    /// let mut table = Table::new();
    /// table.set_content_arrangement(ContentArrangement::DynamicFullWidth).set_width(20).add_row(["17"]);
    /// assert_eq!(table.lines().nth(1).as_deref(), Some("| 17               |"));
    /// ```
    pub fn set_content_arrangement(&mut self, arrangement: ContentArrangement) -> &mut Table {
        self.arrangement = arrangement;
        self
    }

    /// Returns the rule by which columns get their widths, which [`set_content_arrangement`](Table::set_content_arrangement) sets.
    pub fn content_arrangement(&self) -> ContentArrangement {
        self.arrangement.clone()
    }

    /// Sets the width of the table, in terminal columns. Without this call it is the width of the terminal. It isn't known if the
    /// output isn't a terminal, or if the feature `tty` is off.
    ///
    /// The [`ContentArrangement`] decides what the width does:
    ///
    /// - [`Dynamic`](ContentArrangement::Dynamic): texts are wrapped so that the table isn't wider than this width, if its columns
    ///   can be narrow enough for that.
    /// - [`DynamicFullWidth`](ContentArrangement::DynamicFullWidth): texts are wrapped as under `Dynamic`, and the table is made as
    ///   wide as this width, even if its texts need less.
    /// - [`Disabled`](ContentArrangement::Disabled), which a new table has: no text is wrapped to fit the table. Only a
    ///   [`Width::Percentage`](crate::Width::Percentage) depends on the width.
    ///
    /// In the first two arrangements, 0 gives the narrowest table that the columns allow.
    ///
    /// ```
    /// use comfy_table_proved::{ContentArrangement, Table};
    ///
    /// let mut table = Table::new();
    /// table.add_row(["17", "dock 3, at the harbour"]).set_width(20);
    /// assert_eq!(table.lines().nth(1).as_deref(), Some("| 17 | dock 3, at the harbour |"));
    /// table.set_content_arrangement(ContentArrangement::Dynamic);
    /// assert_eq!(table.to_string(), "\
    /// +----+-------------+
    /// | 17 | dock 3, at  |
    /// |    | the harbour |
    /// +----+-------------+");
    /// ```
    pub fn set_width(&mut self, width: u16) -> &mut Table {
        self.width = Some(width);
        self
    }

    /// Returns the width of the table, in terminal columns. This is the width that [`set_width`](Table::set_width) has set. Without
    /// that call it is the width of the terminal, or `None` if the output isn't a terminal ([`is_tty`](Table::is_tty)) or the
    /// terminal's width isn't known.
    #[cfg(feature = "tty")]
    pub fn width(&self) -> Option<u16> {
        self.width.or_else(|| if self.is_tty() { terminal::columns() } else { None })
    }

    /// Returns the width that [`set_width`](Table::set_width) has set, in terminal columns, or `None` without that call.
    #[cfg(not(feature = "tty"))]
    pub fn width(&self) -> Option<u16> {
        self.width
    }

    /// Sets the constraints of the first columns: the first constraint for the first column, and so on. Constraints for which there
    /// is no column are ignored, so call this after a header or a row was added. Columns after the last constraint keep their own
    /// constraints.
    ///
    /// ```
    /// use comfy_table_proved::{ColumnConstraint::*, Table, Width::*};
    ///
    /// let mut table = Table::new();
    /// table.add_row(["17", "dock 3", "rented"]).set_constraints([LowerBoundary(Fixed(8)), Hidden]);
    /// assert_eq!(table.lines().nth(1).as_deref(), Some("| 17     | rented |"));
    /// ```
    pub fn set_constraints<T: IntoIterator<Item = ColumnConstraint>>(&mut self, constraints: T) -> &mut Table {
        for (column, constraint) in self.columns.iter_mut().zip(constraints) {
            column.set_constraint(constraint);
        }
        self
    }

    /// Sets the table's delimiter: the character at which long lines may break. In a new table it is a space. The delimiter of a
    /// column or a cell takes precedence over the delimiter of the table.
    ///
    /// ```
    /// use comfy_table_proved::{ContentArrangement, Table};
    ///
    /// let mut table = Table::new();
    /// table.set_content_arrangement(ContentArrangement::Dynamic).set_width(9).set_delimiter('/').add_row(["home/bikes"]);
    /// assert_eq!(table.to_string(), "\
    /// +-------+
    /// | home  |
    /// | bikes |
    /// +-------+");
    /// ```
    pub fn set_delimiter(&mut self, delimiter: char) -> &mut Table {
        self.delimiter = Some(delimiter);
        self
    }

    /// Sets the truncation indicator. If [`Row::max_height`] cuts the text of a cell, the last drawn line of the text ends with the
    /// indicator. If the column has no room for the indicator after this line, the indicator replaces the last characters of the
    /// line. The indicator isn't drawn if it is wider than the column. In a new table the indicator is `…`.
    ///
    /// ```
    /// use comfy_table_proved::{Row, Table};
    ///
    /// let mut row = Row::from(["dock 3\nthe harbour"]);
    /// row.max_height(1);
    /// let mut table = Table::new();
    /// table.set_truncation_indicator("..").add_row(row);
    /// assert_eq!(table.lines().nth(1).as_deref(), Some("| dock 3..    |"));
    /// ```
    pub fn set_truncation_indicator(&mut self, indicator: &str) -> &mut Table {
        self.truncation_indicator = Cow::Owned(indicator.into());
        self
    }

    #[cfg(feature = "tty")]
    fn writes_styles(&self) -> bool {
        self.should_style()
    }

    #[cfg(feature = "tty")]
    fn styles_texts_only(&self) -> bool {
        self.terminal.styles_text_only
    }

    #[cfg(not(feature = "tty"))]
    fn writes_styles(&self) -> bool {
        false
    }

    #[cfg(not(feature = "tty"))]
    fn styles_texts_only(&self) -> bool {
        false
    }
}

/// The terminal.
#[cfg(feature = "tty")]
impl Table {
    /// Makes the table behave as if the output weren't a terminal. The width of the terminal isn't used. Colours and attributes
    /// are written only after [`enforce_styling`](Table::enforce_styling).
    ///
    /// ```
    /// use comfy_table_proved::Table;
    ///
    /// let mut table = Table::new();
    /// table.force_no_tty();
    /// assert!(!table.is_tty());
    /// assert_eq!(table.width(), None);
    /// ```
    pub fn force_no_tty(&mut self) -> &mut Table {
        self.terminal.is_denied = true;
        self
    }

    /// Makes [`is_tty`](Table::is_tty) check whether standard error is a terminal, and not whether standard output is one. Call
    /// this before the table is drawn, because the result of the first check is kept.
    pub fn use_stderr(&mut self) -> &mut Table {
        self.terminal.is_at_stderr = true;
        self
    }

    /// Returns true if the output is a terminal. The output is standard output, or standard error after
    /// [`use_stderr`](Table::use_stderr). After [`force_no_tty`](Table::force_no_tty) the result is always false. Without that
    /// call, the first call of `is_tty` checks the output, and later calls return the same result.
    pub fn is_tty(&self) -> bool {
        let ask = || if self.terminal.is_at_stderr { io::stderr().is_terminal() } else { io::stdout().is_terminal() };
        !self.terminal.is_denied && *self.terminal.is_there.get_or_init(ask)
    }

    /// Makes the table write colours and attributes even if the output isn't a terminal. No colour is written if the environment
    /// variable `NO_COLOR` is set and not empty.
    ///
    /// ```
    /// use comfy_table_proved::{Attribute, Cell, Table};
    ///
    /// let mut table = Table::new();
    /// table.force_no_tty().enforce_styling().add_row([Cell::new("17").add_attribute(Attribute::Bold)]);
    /// assert_eq!(table.lines().nth(1).as_deref(), Some("|\x1b[1m 17 \x1b[0m|"));
    /// ```
    pub fn enforce_styling(&mut self) -> &mut Table {
        self.terminal.enforces_styling = true;
        self
    }

    /// Returns true if colours and attributes are written: if the output is a terminal ([`is_tty`](Table::is_tty)), or after
    /// [`enforce_styling`](Table::enforce_styling). Even then, no colour is written if the environment variable `NO_COLOR` is set
    /// and not empty.
    pub fn should_style(&self) -> bool {
        self.terminal.enforces_styling || self.is_tty()
    }

    /// Applies colours and attributes to texts only. Without this call, colours and attributes also apply to the spaces beside a
    /// text, so that a background fills the whole cell.
    ///
    /// ```
    /// use comfy_table_proved::{Attribute, Cell, Table};
    ///
    /// let mut table = Table::new();
    /// table.enforce_styling().add_row([Cell::new("17").add_attribute(Attribute::Bold)]);
    /// table.style_text_only();
    /// assert_eq!(table.lines().nth(1).as_deref(), Some("| \x1b[1m17\x1b[0m |"));
    /// ```
    pub fn style_text_only(&mut self) {
        self.terminal.styles_text_only = true;
    }
}

impl Default for Table {
    fn default() -> Table {
        Table::new()
    }
}

impl fmt::Display for Table {
    fn fmt(&self, formatter: &mut fmt::Formatter<'_>) -> fmt::Result {
        let drawing = self.drawn(Form::Lines);
        formatter.write_str(drawing.strip_suffix('\n').unwrap_or(&drawing))
    }
}
