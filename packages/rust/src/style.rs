//! Styles, colours, alignments, and constraints on widths.

pub mod presets;
#[cfg(feature = "tty")]
mod sequences;
mod table_style;

#[cfg(feature = "tty")]
pub use sequences::{Attribute, Color};
pub use table_style::{ContentLineStyle, LineStyle, TableStyle};

/// The position of a text in its column.
///
/// ```text
/// | Left           |
/// |     Center     |
/// |          Right |
/// ```
#[derive(Clone, Copy, Debug, PartialEq, Eq, Hash)]
pub enum CellAlignment {
    /// The text is at the left, as a text without an alignment is.
    Left,
    /// The text is at the right.
    Right,
    /// The text is in the middle. If the number of free terminal columns is odd, one more is before the text than after it.
    Center,
}

/// A constraint on the width of a column. Widths include the column's paddings.
///
/// [`Table::set_constraints`](crate::Table::set_constraints) sets the constraints of several columns, and
/// [`Column::set_constraint`](crate::Column::set_constraint) the constraint of one column.
///
/// If the columns need less than the table's width, [`ContentArrangement::DynamicFullWidth`] widens all of them, even columns with
/// a constraint.
#[derive(Clone, Copy, Debug, PartialEq, Eq)]
pub enum ColumnConstraint {
    /// The column isn't drawn.
    ///
    /// ```
    /// use comfy_table_proved::{ColumnConstraint::*, Table};
    ///
    /// let mut table = Table::new();
    /// table.add_row(["17", "dock 3"]).set_constraints([Hidden]);
    /// assert_eq!(table.to_string(), "\
    /// +--------+
    /// | dock 3 |
    /// +--------+");
    /// ```
    Hidden,
    /// The column is as wide as the widest line of its texts and its paddings, so none of its texts is wrapped.
    /// [`ContentArrangement::DynamicFullWidth`] can make the column wider.
    ///
    /// ```
    /// use comfy_table_proved::{ColumnConstraint::*, ContentArrangement, Table};
    ///
    /// let mut table = Table::new();
    /// table.set_content_arrangement(ContentArrangement::Dynamic).set_width(21);
    /// table.add_row(["2026-11-30", "rain all day"]).set_constraints([ContentWidth]);
    /// assert_eq!(table.to_string(), "\
    /// +------------+------+
    /// | 2026-11-30 | rain |
    /// |            | all  |
    /// |            | day  |
    /// +------------+------+");
    /// ```
    ContentWidth,
    /// The column has this width. If the paddings leave no room for texts, the column is one terminal column wider than its
    /// paddings. [`ContentArrangement::DynamicFullWidth`] can make the column wider.
    ///
    /// ```
    /// use comfy_table_proved::{ColumnConstraint::*, Table, Width::*};
    ///
    /// let mut table = Table::new();
    /// table.add_row(["17", "dock 3"]).set_constraints([Absolute(Fixed(8)), Absolute(Fixed(6))]);
    /// assert_eq!(table.to_string(), "\
    /// +--------+------+
    /// | 17     | dock |
    /// |        | 3    |
    /// +--------+------+");
    /// ```
    Absolute(Width),
    /// The column has at least this width. The dynamic arrangements can still make the column as narrow as its longest line.
    ///
    /// ```
    /// use comfy_table_proved::{ColumnConstraint::*, Table, Width::*};
    ///
    /// let mut table = Table::new();
    /// table.add_row(["17", "dock 3"]).set_constraints([LowerBoundary(Fixed(6)); 2]);
    /// assert_eq!(table.to_string(), "\
    /// +------+--------+
    /// | 17   | dock 3 |
    /// +------+--------+");
    /// ```
    LowerBoundary(Width),
    /// The column has at most this width. There are two exceptions. [`ContentArrangement::DynamicFullWidth`] can make the column
    /// wider. Under [`ContentArrangement::Disabled`], or if the table's width isn't known, the constraint is ignored, unless a text
    /// without paddings is already wider than this width.
    ///
    /// ```
    /// use comfy_table_proved::{ColumnConstraint::*, Table, Width::*};
    ///
    /// let mut table = Table::new();
    /// table.add_row(["17", "dock 3, at the harbour"]).set_constraints([UpperBoundary(Fixed(13)); 2]);
    /// assert_eq!(table.to_string(), "\
    /// +----+-------------+
    /// | 17 | dock 3, at  |
    /// |    | the harbour |
    /// +----+-------------+");
    /// ```
    UpperBoundary(Width),
    /// The column has at least the width `lower`, and at most the width `upper`. `lower` has the effect of a `LowerBoundary`, and
    /// `upper` that of an `UpperBoundary`.
    ///
    /// ```
    /// use comfy_table_proved::{ColumnConstraint::*, Table, Width::*};
    ///
    /// let mut table = Table::new();
    /// table.add_row(["17", "dock 3, at the harbour"]);
    /// table.set_constraints([Boundaries { lower: Fixed(6), upper: Fixed(13) }; 2]);
    /// assert_eq!(table.to_string(), "\
    /// +------+-------------+
    /// | 17   | dock 3, at  |
    /// |      | the harbour |
    /// +------+-------------+");
    /// ```
    Boundaries {
        /// The least width of the column.
        lower: Width,
        /// The greatest width of the column.
        upper: Width,
    },
}

/// The width of a column, including its paddings.
#[derive(Clone, Copy, Debug, PartialEq, Eq)]
pub enum Width {
    /// The width is this number of terminal columns.
    Fixed(u16),
    /// The width is this percentage of the table's width without its borders. A number above 100 counts as 100. A constraint with
    /// this width is ignored if the table's [width](crate::Table::width) isn't known.
    ///
    /// ```
    /// use comfy_table_proved::{ColumnConstraint::*, ContentArrangement, Table, Width::*};
    ///
    /// let mut table = Table::new();
    /// table.set_content_arrangement(ContentArrangement::Dynamic).set_width(23);
    /// table.add_row(["17", "dock 3"]).set_constraints([Absolute(Percentage(50))]);
    /// assert_eq!(table.to_string(), "\
    /// +----------+--------+
    /// | 17       | dock 3 |
    /// +----------+--------+");
    /// ```
    Percentage(u16),
}

/// The rule by which columns get their widths.
///
/// [`Table::set_content_arrangement`](crate::Table::set_content_arrangement) sets this rule.
/// [`Table::set_width`](crate::Table::set_width) sets the table's width. Without that call, the table's width is that of the
/// terminal. It isn't known if the output isn't a terminal, or if the feature `tty` is off.
#[derive(Clone, Debug)]
pub enum ContentArrangement {
    /// Each column is as wide as its widest text, unless it has a constraint. No text is wrapped to fit the table's width. A new
    /// table has this arrangement.
    ///
    /// ```
    /// use comfy_table_proved::Table;
    ///
    /// let mut table = Table::new();
    /// table.set_width(20).add_row(["17", "dock 3, at the harbour"]);
    /// assert_eq!(table.to_string(), "\
    /// +----+------------------------+
    /// | 17 | dock 3, at the harbour |
    /// +----+------------------------+");
    /// ```
    Disabled,
    /// Texts are wrapped so that the table isn't wider than its width, if its columns can be narrow enough for that. Columns with
    /// short texts stay narrow. `Dynamic` does the same as `Disabled` if the table's width isn't known.
    ///
    /// ```
    /// use comfy_table_proved::{ContentArrangement, Table};
    ///
    /// let mut table = Table::new();
    /// table.set_content_arrangement(ContentArrangement::Dynamic).set_width(20).add_row(["17", "dock 3, at the harbour"]);
    /// assert_eq!(table.to_string(), "\
    /// +----+-------------+
    /// | 17 | dock 3, at  |
    /// |    | the harbour |
    /// +----+-------------+");
    /// ```
    Dynamic,
    /// Texts are wrapped as under `Dynamic`. If the columns then need less than the table's width, they are widened until the
    /// table has this width. `DynamicFullWidth` does the same as `Disabled` if the table's width isn't known.
    ///
    /// ```
    /// use comfy_table_proved::{ContentArrangement, Table};
    ///
    /// let mut table = Table::new();
    /// table.set_content_arrangement(ContentArrangement::DynamicFullWidth).set_width(23).add_row(["17", "dock 3"]);
    /// assert_eq!(table.to_string(), "\
    /// +--------+------------+
    /// | 17     | dock 3     |
    /// +--------+------------+");
    /// ```
    DynamicFullWidth,
}
