//! The tables of the program csvtable: [`draw_csv`] draws CSV, and [`Rows`] draws rows of values.
//!
//! Columns of numbers are right-aligned, with their decimal points below each other. Control characters in texts are drawn as
//! U+FFFD, so a text can't control the terminal.

mod column;
mod error;
mod into_cells;
mod rows;
#[cfg(feature = "tty")]
mod sequences;
mod style;

pub use column::Column;
pub use error::Error;
pub use into_cells::IntoCells;
pub use rows::{Expanded, Rows};
pub use style::Style;

use crate::library::{self, CsvAnswer};

/// Draws CSV with the arguments of the program csvtable, for example `&["-r", "price", "-w", "60"]`.
///
/// The option `-e` names the encoding of the input. Without this option the input is read as UTF-8, or in another encoding that
/// csvtable recognises.
///
/// No file is opened. A file name among the arguments names the input in messages. TABs separate the fields if this name ends with
/// `.tsv` or `.tab`, no argument sets a delimiter, and the first line isn't `sep=` with another delimiter.
///
/// The table has a greatest width only if the option `-w` sets one. The drawing ends with a line feed. If the input has no records,
/// the drawing is empty.
///
/// # Errors
///
/// - [`Error::Arguments`] if the arguments are refused, or if they request csvtable's help or version. The error has csvtable's
///   message, help or version.
/// - [`Error::Input`] if the input can't be drawn, for example because it isn't text.
/// - [`Error::OutOfMemory`] if memory runs out.
///
/// ```
/// let drawing = comfy_table_proved::csvtable::draw_csv("name,price\noats,3\n", &["-r", "name", "-s", "ascii"]).unwrap();
/// assert_eq!(drawing, "\
/// +------+-------+
/// | name | price |
/// +==============+
/// | oats |     3 |
/// +------+-------+
/// ");
/// ```
pub fn draw_csv(input: impl AsRef<[u8]>, arguments: &[&str]) -> Result<String, Error> {
    if arguments.iter().any(|argument| argument.contains('\0')) {
        return Err(Error::Arguments("an argument holds a zero byte".into()));
    }
    let arguments: String = arguments.iter().flat_map(|argument| [argument, "\0"]).collect();
    match library::draw_csv(input.as_ref(), &arguments)? {
        CsvAnswer::Drawing(drawing) => Ok(drawing),
        CsvAnswer::OfInput(message) => Err(Error::Input(message)),
        CsvAnswer::OfArguments(message) => Err(Error::Arguments(message)),
    }
}
