//! Converts a table to the numbers and texts that the functions of comfy_table.h take.

use crate::cell::Cell;
use crate::column::Column;
use crate::library::CellTable;
use crate::library::numbers::{self, of_character};
use crate::row::Row;
#[cfg(feature = "tty")]
use crate::style::Color;
use crate::style::{CellAlignment, ColumnConstraint, ContentArrangement, ContentLineStyle, LineStyle, TableStyle, Width};
use crate::table::{Form, Table};
#[cfg(feature = "tty")]
use crate::terminal;
use crate::text;

/// Returns the texts, cells, rows and columns of a table in the numbers of comfy_table.h. The header is the first row. Also returns
/// the greatest number of bytes in the texts of a row.
pub fn cells_of(table: &Table) -> (CellTable, usize) {
    let mut longest = 0;
    let mut made = CellTable {
        texts: String::with_capacity(rows_of(table).map(bytes_in).sum()),
        cells: Vec::with_capacity(rows_of(table).map(Row::cell_count).sum()),
        rows: Vec::with_capacity(table.rows.len() + 1),
        columns: table.columns.iter().map(of_column).collect(),
    };
    for row in rows_of(table) {
        let start = made.texts.len();
        made.rows.push(numbers::Row { cells: row.cells.len(), max_height: row.max_height.unwrap_or(0) });
        text::push_all(&mut made.texts, &row.cells);
        made.cells.extend(row.cells.iter().map(of_cell));
        longest = longest.max(made.texts.len() - start);
    }
    (made, longest)
}

fn rows_of(table: &Table) -> impl Iterator<Item = &Row> {
    table.header.iter().chain(&table.rows)
}

fn bytes_in(row: &Row) -> usize {
    row.cells.iter().map(|cell| cell.text.len()).sum()
}

/// Estimates how many bytes the drawing of a table has at most. `width` is in terminal columns, and `None` means no width. An
/// estimate that is too great costs nothing, because the system provides memory only for pages that are written. If the estimate is
/// too small, the table is drawn a second time.
///
/// For each row, the estimate counts the lines that its texts may take, a line of the frame, and the SGR sequences of its cells.
/// `longest` is the greatest number of bytes in the texts of a row.
pub fn room_for(table: &Table, cells: &CellTable, longest: usize, width: Option<u16>) -> usize {
    const SEQUENCES: usize = 64;
    const MOST: usize = 1 << 30;
    let columns = table.columns.len();
    let paddings: usize = table.columns.iter().map(|column| usize::from(column.padding_width())).sum();
    // The longest texts of the columns may be in different rows.
    let unwrapped = 2 * longest + paddings + columns + 1;
    let line = match (&table.arrangement, width) {
        (ContentArrangement::Dynamic | ContentArrangement::DynamicFullWidth, Some(width)) => {
            usize::from(width).max(paddings + 2 * columns + 1)
        }
        _ => unwrapped.min(4096),
    };
    let lines = 2 + unwrapped / line;
    let row = lines * (line + 4 * columns + 4) + 4 * line;
    let styled = if table.writes_styles() { cells.cells.len() } else { 0 };
    let estimate = (cells.rows.len() + 3).saturating_mul(row).saturating_add(SEQUENCES * lines * styled);
    estimate.min(MOST) + 4 * cells.texts.len()
}

/// Returns the settings of a table in the numbers of comfy_table.h. [`cells_of`] returns the table's contents and columns. `form`
/// is the form of the drawing. `width` is in terminal columns, and `None` means no width.
pub fn settings_of(table: &Table, width: Option<u16>, form: Form) -> numbers::CellsSettings {
    numbers::CellsSettings {
        form: match form {
            Form::Lines => 0,
            Form::Trimmed => 1,
            Form::ContentWidths => 2,
        },
        style: numbers::OWN_STYLE,
        arrangement: match table.arrangement {
            ContentArrangement::Disabled => 0,
            ContentArrangement::Dynamic => 1,
            ContentArrangement::DynamicFullWidth => 2,
        },
        width: width.map_or(u32::MAX, u32::from),
        delimiter: of_character(table.delimiter),
        has_header: table.header.is_some().into(),
        enforce_styling: table.writes_styles().into(),
        style_text_only: table.styles_texts_only().into(),
        custom_styling: cfg!(feature = "custom_styling").into(),
        frame: of_style(&table.style),
    }
}

fn of_style(style: &TableStyle) -> numbers::Frame {
    let TableStyle { top_border, header_lines, header_separator, content_lines, row_separator, bottom_border } = style;
    numbers::Frame {
        top_border: of_line(top_border),
        header_lines: of_content_line(header_lines),
        header_separator: of_line(header_separator),
        content_lines: of_content_line(content_lines),
        row_separator: of_line(row_separator),
        bottom_border: of_line(bottom_border),
    }
}

fn of_cell(cell: &Cell) -> numbers::Cell {
    numbers::Cell { length: cell.text.len(), delimiter: of_character(cell.delimiter), look: look_of(cell) }
}

fn look_of(cell: &Cell) -> numbers::Look {
    let look = numbers::Look { alignment: of_alignment(cell.alignment), ..numbers::Look::default() };
    #[cfg(feature = "tty")]
    let look = numbers::Look {
        attributes: cell.attributes.iter().fold(0, |bits, attribute| bits | 1 << *attribute as u32),
        foreground: of_color(cell.foreground),
        background: of_color(cell.background),
        ..look
    };
    look
}

fn of_column(column: &Column) -> numbers::Column {
    let none = numbers::Width::default();
    let (constraint, width, upper) = match column.constraint {
        None => (0, none, none),
        Some(ColumnConstraint::Hidden) => (1, none, none),
        Some(ColumnConstraint::ContentWidth) => (2, none, none),
        Some(ColumnConstraint::Absolute(width)) => (3, of_width(width), none),
        Some(ColumnConstraint::LowerBoundary(width)) => (4, of_width(width), none),
        Some(ColumnConstraint::UpperBoundary(width)) => (5, of_width(width), none),
        Some(ColumnConstraint::Boundaries { lower, upper }) => (6, of_width(lower), of_width(upper)),
    };
    numbers::Column {
        left_padding: column.padding.0,
        right_padding: column.padding.1,
        delimiter: of_character(column.delimiter),
        alignment: of_alignment(column.cell_alignment),
        constraint,
        width,
        upper,
    }
}

fn of_width(width: Width) -> numbers::Width {
    match width {
        Width::Fixed(value) => numbers::Width { is_percentage: 0, value },
        Width::Percentage(value) => numbers::Width { is_percentage: 1, value },
    }
}

fn of_alignment(alignment: Option<CellAlignment>) -> u32 {
    match alignment {
        None => 0,
        Some(CellAlignment::Left) => 1,
        Some(CellAlignment::Right) => 2,
        Some(CellAlignment::Center) => 3,
    }
}

// The numbers of a colour. If NO_COLOR is set and not empty, they are the numbers of no colour.
#[cfg(feature = "tty")]
fn of_color(color: Option<Color>) -> numbers::Color {
    let of_kind = |kind| numbers::Color { kind, ..numbers::Color::default() };
    match color.filter(|_| !terminal::is_without_colors()) {
        None => of_kind(0),
        Some(Color::Rgb { r, g, b }) => numbers::Color { red: r, green: g, blue: b, ..of_kind(3) },
        Some(color) => match color.number() {
            Some(number) => numbers::Color { number, ..of_kind(2) },
            None => of_kind(1),
        },
    }
}

fn of_line(line: &LineStyle) -> numbers::Line {
    numbers::Line {
        left: of_character(line.left),
        fill: of_character(line.fill),
        junction: of_character(line.junction),
        right: of_character(line.right),
    }
}

fn of_content_line(line: &ContentLineStyle) -> numbers::ContentLine {
    numbers::ContentLine { left: of_character(line.left), junction: of_character(line.junction), right: of_character(line.right) }
}
