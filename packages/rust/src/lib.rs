//! Tables drawn as text, with the calls of the crate comfy-table 8.0.1.
//!
//! The package calls a library. It is proved that this library draws tables by written rules. The Rust code of the package is
//! tested, but not proved.
//!
//! ```
//! use comfy_table_proved::{Table, presets::UTF8_FULL};
//!
//! let mut bikes = Table::new();
//! bikes.load_style(UTF8_FULL).set_header(["Bike", "Place"]).add_row(["17", "dock 3"]);
//! assert_eq!(bikes.to_string(), "\
//! ┌──────┬────────┐
//! │ Bike ┆ Place  │
//! ╞══════╪════════╡
//! │ 17   ┆ dock 3 │
//! └──────┴────────┘");
//! ```
//!
//! A program that uses comfy-table can use this package instead. Only one line of the program's Cargo.toml changes, and nothing in
//! its code:
//!
//! ```toml
//! comfy-table = { package = "comfy_table_proved", path = "../comfy_table_proved-0.1.0" }
//! ```
//!
//! # What tables can do
//!
//! - **Width**: [`Table::set_width`] sets the width of a table. Without this call it is the width of the terminal. It isn't known
//!   if the output isn't a terminal, or if the feature `tty` is off. With [`ContentArrangement::Dynamic`], long texts are wrapped
//!   so that the table isn't wider than this width, if its columns can be narrow enough for that.
//!   [`ContentArrangement::DynamicFullWidth`] also makes the table as wide as this width if its texts need less.
//! - **Columns**: a [`ColumnConstraint`] fixes or limits the width of a [`Column`], or hides the column. Each column has its own
//!   padding, which is the free space beside its texts.
//! - **Alignment** of texts, for a column or for one [`Cell`]: [`CellAlignment`].
//! - **Wrapping** at spaces, or at another character: [`Table::set_delimiter`]. [`Row::max_height`] limits the number of lines of
//!   a row.
//! - **Frames**: thirteen [`presets`], or your own characters in a [`TableStyle`].
#![cfg_attr(
    feature = "tty",
    doc = "- **Colours and attributes** of a cell: [`Cell::fg`], [`Cell::bg`] and [`Cell::add_attribute`]."
)]
//! - **Unicode**: a Chinese character or an emoji takes two terminal columns, and a combining character none. Lines are cut
//!   between characters as readers see them, for example not between a letter and its accent.
//! - **Values**: a cell can be made from any value with [`Display`](std::fmt::Display). A row can be made from anything that
//!   iterates over such values.
//! - **CSV and numbers**: the module [`csvtable`] draws CSV text, and rows of values. Columns of numbers are right-aligned, with
//!   their decimal points below each other.
//!
//! # Features of Cargo
//!
//! - `tty`, which is on by default: colours and attributes are written, and tables use the width of the terminal.
//! - `custom_styling`: escape sequences for colours and attributes (SGR) in texts take no terminal columns. This feature turns on
//!   `tty`.
//! - `_debug` and `_integration_test` do nothing. They exist because comfy-table has them.
//! - `reexport_crossterm` ends the build with a message, because `Color` and `Attribute` are this package's own types.
#![warn(missing_docs)]

#[cfg(feature = "reexport_crossterm")]
compile_error!(
    "comfy_table_proved has no feature reexport_crossterm: Color and Attribute are its own types; leave the feature out"
);

mod cell;
mod column;
mod column_cells;
pub mod csvtable;
mod library;
mod row;
mod style;
mod table;
#[cfg(feature = "tty")]
mod terminal;
mod text;

pub use cell::{Cell, Cells};
pub use column::Column;
pub use column_cells::ColumnCellIter;
pub use row::Row;
#[cfg(feature = "tty")]
pub use style::{Attribute, Color};
pub use style::{CellAlignment, ColumnConstraint, ContentArrangement, ContentLineStyle, LineStyle, TableStyle, Width, presets};
pub use table::Table;
