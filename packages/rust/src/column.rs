use crate::style::{CellAlignment, ColumnConstraint};

/// The settings of a column. When a header or a row is added to a table, the table makes the columns that the cells need.
///
/// ```
/// use comfy_table_proved::{ColumnConstraint, Table, Width};
///
/// let mut table = Table::new();
/// table.add_row(["17", "dock 3"]);
/// let column = table.column_mut(0).expect("two columns");
/// column.set_padding((0, 1)).set_constraint(ColumnConstraint::LowerBoundary(Width::Fixed(6)));
/// assert_eq!(table.lines().nth(1).as_deref(), Some("|17    | dock 3 |"));
/// ```
#[derive(Clone, Debug)]
pub struct Column {
    /// A number for the caller's use. The table doesn't read it: a column's cells are found by the position of the column in the
    /// table.
    pub index: usize,
    pub(crate) padding: (u16, u16),
    pub(crate) delimiter: Option<char>,
    pub(crate) cell_alignment: Option<CellAlignment>,
    pub(crate) constraint: Option<ColumnConstraint>,
}

impl Column {
    /// Makes a column with a padding of one terminal column on each side, and no other setting. The field [`index`](Column::index)
    /// gets the given number.
    pub fn new(index: usize) -> Column {
        Column { index, padding: (1, 1), delimiter: None, cell_alignment: None, constraint: None }
    }

    /// Sets the paddings of the column: the numbers of free terminal columns at the left and at the right of each text, in this
    /// order. 0 means no padding.
    ///
    /// ```
    /// use comfy_table_proved::Table;
    ///
    /// let mut table = Table::new();
    /// table.add_row(["17", "dock 3"]);
    /// table.column_mut(1).expect("two columns").set_padding((4, 0));
    /// assert_eq!(table.lines().nth(1).as_deref(), Some("| 17 |    dock 3|"));
    /// ```
    pub fn set_padding(&mut self, padding: (u16, u16)) -> &mut Column {
        self.padding = padding;
        self
    }

    /// Returns the sum of the left and the right padding in terminal columns, or 65535 if the sum is greater.
    ///
    /// ```
    /// use comfy_table_proved::Column;
    ///
    /// assert_eq!(Column::new(0).padding_width(), 2);
    /// assert_eq!(Column::new(0).set_padding((4, 0)).padding_width(), 4);
    /// ```
    pub fn padding_width(&self) -> u16 {
        let (left, right) = self.padding;
        left.saturating_add(right)
    }

    /// Sets the column's delimiter: the character at which its long lines may break. This delimiter takes precedence over that of
    /// the table. The delimiter of a cell takes precedence over that of the column.
    pub fn set_delimiter(&mut self, delimiter: char) -> &mut Column {
        self.delimiter = Some(delimiter);
        self
    }

    /// Sets the constraint on the width of the column. It replaces an earlier constraint.
    ///
    /// ```
    /// use comfy_table_proved::{ColumnConstraint, Table, Width};
    ///
    /// let mut table = Table::new();
    /// table.add_row(["17", "dock 3"]);
    /// let column = table.column_mut(0).expect("two columns");
    /// column.set_constraint(ColumnConstraint::Absolute(Width::Fixed(8)));
    /// assert_eq!(table.lines().nth(1).as_deref(), Some("| 17     | dock 3 |"));
    /// ```
    pub fn set_constraint(&mut self, constraint: ColumnConstraint) -> &mut Column {
        self.constraint = Some(constraint);
        self
    }

    /// Returns the constraint on the width of the column, or `None` if no constraint is set.
    pub fn constraint(&self) -> Option<&ColumnConstraint> {
        self.constraint.as_ref()
    }

    /// Removes the constraint on the width of the column. A hidden column is then drawn again.
    pub fn remove_constraint(&mut self) -> &mut Column {
        self.constraint = None;
        self
    }

    /// Returns true if the column isn't drawn, because its constraint is [`ColumnConstraint::Hidden`].
    pub fn is_hidden(&self) -> bool {
        self.constraint == Some(ColumnConstraint::Hidden)
    }

    /// Sets the alignment of the column's texts. The alignment of a cell takes precedence over the column's alignment. Without this
    /// call, texts are left-aligned.
    ///
    /// ```
    /// use comfy_table_proved::{CellAlignment, Table};
    ///
    /// let mut table = Table::new();
    /// table.set_header(["Euros"]).add_row([5]).add_row([-12]);
    /// table.column_mut(0).expect("one column").set_cell_alignment(CellAlignment::Right);
    /// assert_eq!(table.to_string(), "\
    /// +-------+
    /// | Euros |
    /// +=======+
    /// |     5 |
    /// |-------|
    /// |   -12 |
    /// +-------+");
    /// ```
    pub fn set_cell_alignment(&mut self, alignment: CellAlignment) {
        self.cell_alignment = Some(alignment);
    }
}
