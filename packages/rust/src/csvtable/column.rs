use crate::csvtable::error::Error;

/// The name or the position of a column. The methods of [`Rows`](crate::csvtable::Rows) that take columns also take texts, which
/// are names, and numbers, which are positions.
///
/// ```
/// use comfy_table_proved::csvtable::{Column, Rows};
///
/// let rows = Rows::new(["name", "price"]).row(("oats", 3));
/// let swapped = rows.columns([Column::from("price"), Column::from(0)])?;
/// assert_eq!(swapped.to_string().lines().nth(1), Some("│ price ┆ name │"));
/// # Ok::<(), comfy_table_proved::csvtable::Error>(())
/// ```
#[derive(Clone, Debug, PartialEq, Eq)]
#[non_exhaustive]
pub enum Column {
    /// The name of the column in the header.
    Name(String),
    /// The position of the column, counted from 0.
    Position(usize),
}

impl From<&str> for Column {
    fn from(name: &str) -> Column {
        Column::Name(name.into())
    }
}

impl From<String> for Column {
    fn from(name: String) -> Column {
        Column::Name(name)
    }
}

impl From<usize> for Column {
    fn from(position: usize) -> Column {
        Column::Position(position)
    }
}

impl Column {
    /// Returns the column's position in a table with this header and this number of columns. The error is [`Error::NoColumn`] if
    /// there is no such column, and [`Error::AmbiguousColumn`] if the header has the name twice.
    pub(crate) fn position(&self, header: &[String], count: usize) -> Result<usize, Error> {
        let name = match self {
            Column::Position(position) if *position < count => return Ok(*position),
            Column::Position(position) => return Err(Error::NoColumn(position.to_string())),
            Column::Name(name) => name,
        };
        let mut found = header.iter().enumerate().filter(|(_, it)| *it == name).map(|(position, _)| position);
        match (found.next(), found.next()) {
            (Some(position), None) => Ok(position),
            (Some(_), Some(_)) => Err(Error::AmbiguousColumn(name.clone())),
            (None, _) => Err(Error::NoColumn(name.clone())),
        }
    }
}
