use std::slice;

use crate::cell::Cell;
use crate::row::Row;

/// An iterator over the cells of a column, from the top, without the header. For a row that has no cell in the column, the item is
/// `None`. [`Table::column_cells_iter`](crate::Table::column_cells_iter) makes this iterator.
pub struct ColumnCellIter<'a> {
    rows: slice::Iter<'a, Row>,
    column: usize,
}

impl<'a> ColumnCellIter<'a> {
    pub(crate) fn new(rows: &'a [Row], column: usize) -> ColumnCellIter<'a> {
        ColumnCellIter { rows: rows.iter(), column }
    }
}

impl<'a> Iterator for ColumnCellIter<'a> {
    type Item = Option<&'a Cell>;

    fn next(&mut self) -> Option<Option<&'a Cell>> {
        let row = self.rows.next()?;
        Some(row.cells.get(self.column))
    }
}

/// An iterator over the cells of a column. The first item is the cell of the header, or `None` if there is no header or the header
/// has no cell in the column. The other items are those of [`ColumnCellIter`].
/// [`Table::column_cells_with_header_iter`](crate::Table::column_cells_with_header_iter) makes this iterator.
pub struct ColumnCellsWithHeaderIter<'a> {
    // the item for the header, or `None` after it was returned
    header: Option<Option<&'a Cell>>,
    rows: ColumnCellIter<'a>,
}

impl<'a> ColumnCellsWithHeaderIter<'a> {
    pub(crate) fn new(header: Option<&'a Row>, rows: &'a [Row], column: usize) -> ColumnCellsWithHeaderIter<'a> {
        let cell = header.and_then(|header| header.cells.get(column));
        ColumnCellsWithHeaderIter { header: Some(cell), rows: ColumnCellIter::new(rows, column) }
    }
}

impl<'a> Iterator for ColumnCellsWithHeaderIter<'a> {
    type Item = Option<&'a Cell>;

    fn next(&mut self) -> Option<Option<&'a Cell>> {
        self.header.take().or_else(|| self.rows.next())
    }
}
