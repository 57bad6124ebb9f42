use std::slice;

use crate::cell::{Cell, Cells};
use crate::text;

/// The cells of a row, and the greatest number of lines that are drawn of the row.
///
/// ```
/// use comfy_table_proved::{Cell, Row};
///
/// let mut row = Row::from(["17", "dock 3"]);
/// row.add_cell(Cell::new("rented")).max_height(2);
/// assert_eq!(row.cell_count(), 3);
/// ```
#[derive(Clone, Debug, Default)]
pub struct Row {
    pub(crate) cells: Vec<Cell>,
    // the greatest number of lines that are drawn, at least 1, or `None` for no limit
    pub(crate) max_height: Option<usize>,
}

impl Row {
    /// Makes a row without cells.
    pub fn new() -> Row {
        Row::default()
    }

    /// Adds a cell after the others. A row that is already in a table can get more cells than the table has columns. The cells
    /// without a column aren't drawn until [`discover_columns`](crate::Table::discover_columns) is called.
    pub fn add_cell(&mut self, cell: Cell) -> &mut Row {
        self.cells.push(cell);
        self
    }

    /// Sets the greatest number of lines that are drawn of this row. A text with more lines is cut, and ends with the table's
    /// [truncation indicator](crate::Table::set_truncation_indicator), unless the column is narrower than the indicator. 0 counts
    /// as 1. Without this call there is no limit.
    ///
    /// ```
    /// use comfy_table_proved::{Row, Table};
    ///
    /// let mut row = Row::from(["17", "dock 3\nharbour\nmuseum"]);
    /// row.max_height(2);
    /// let mut table = Table::new();
    /// assert_eq!(table.add_row(row).to_string(), "\
    /// +----+---------+
    /// | 17 | dock 3  |
    /// |    | harbou… |
    /// +----+---------+");
    /// ```
    pub fn max_height(&mut self, lines: usize) -> &mut Row {
        self.max_height = Some(lines.max(1));
        self
    }

    /// Returns the number of cells.
    pub fn cell_count(&self) -> usize {
        self.cells.len()
    }

    /// Returns an iterator over the cells, from the left.
    ///
    /// ```
    /// use comfy_table_proved::{Cell, Row};
    ///
    /// let texts: Vec<String> = Row::from([17, 8]).cell_iter().map(Cell::content).collect();
    /// assert_eq!(texts, ["17", "8"]);
    /// ```
    pub fn cell_iter(&self) -> slice::Iter<'_, Cell> {
        self.cells.iter()
    }
}

impl<T: Into<Cells>> From<T> for Row {
    fn from(cells: T) -> Row {
        let mut cells = cells.into().0;
        text::join(&mut cells);
        Row { cells, max_height: None }
    }
}
