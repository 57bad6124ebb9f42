use crate::library::OutOfMemory;
use std::fmt;

/// The reason why a function of the module [`csvtable`](crate::csvtable) failed.
///
/// ```
/// use comfy_table_proved::csvtable::{Error, Rows, draw_csv};
///
/// assert!(matches!(draw_csv("a,b\n", &["-w", "wide"]), Err(Error::Arguments(_))));
/// let missing = Rows::new(["name", "price"]).right(["cost"]).unwrap_err();
/// assert_eq!(missing.to_string(), "no column cost");
/// ```
#[derive(Clone, Debug, PartialEq, Eq)]
#[non_exhaustive]
pub enum Error {
    /// The input can't be drawn. The `String` is csvtable's message.
    Input(String),
    /// The arguments are refused, or they request csvtable's help or version. The `String` is csvtable's message, help or version.
    Arguments(String),
    /// The table has no column with this name, or no column at this position, which is counted from 0.
    NoColumn(String),
    /// The header has this name more than once, so it isn't clear which column is meant.
    AmbiguousColumn(String),
    /// The column at this position, counted from 0, was passed both to [`Rows::left`](crate::csvtable::Rows::left) and to
    /// [`Rows::right`](crate::csvtable::Rows::right).
    TwoSides(usize),
    /// Memory ran out.
    OutOfMemory,
}

impl fmt::Display for Error {
    fn fmt(&self, formatter: &mut fmt::Formatter<'_>) -> fmt::Result {
        match self {
            Error::Input(message) | Error::Arguments(message) => formatter.write_str(message.trim_end()),
            Error::NoColumn(column) => write!(formatter, "no column {column}"),
            Error::AmbiguousColumn(name) => write!(formatter, "the header has {name} twice; give the column's position"),
            Error::TwoSides(position) => {
                write!(formatter, "the column at position {position} can't be both right-aligned and left-aligned")
            }
            Error::OutOfMemory => formatter.write_str("out of memory"),
        }
    }
}

impl std::error::Error for Error {}

impl From<OutOfMemory> for Error {
    fn from(_: OutOfMemory) -> Error {
        Error::OutOfMemory
    }
}
