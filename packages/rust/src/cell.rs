use crate::style::CellAlignment;
#[cfg(feature = "tty")]
use crate::style::{Attribute, Color};
use crate::text::Text;

/// A text in a table, with its settings. Line feeds separate the lines of the text.
///
/// ```
/// use comfy_table_proved::{Cell, CellAlignment};
///
/// let debt = Cell::new(-12.5).set_alignment(CellAlignment::Right);
/// assert_eq!(debt.content(), "-12.5");
/// ```
#[derive(Clone, Debug, PartialEq, Eq, Hash)]
pub struct Cell {
    pub(crate) text: Text,
    pub(crate) delimiter: Option<char>,
    pub(crate) alignment: Option<CellAlignment>,
    #[cfg(feature = "tty")]
    pub(crate) foreground: Option<Color>,
    #[cfg(feature = "tty")]
    pub(crate) background: Option<Color>,
    #[cfg(feature = "tty")]
    pub(crate) attributes: Vec<Attribute>,
}

impl Cell {
    /// Makes a cell without settings. Its text is what the value's `to_string` returns.
    ///
    /// ```
    /// use comfy_table_proved::Cell;
    ///
    /// assert_eq!(Cell::new(17).content(), "17");
    /// assert_eq!(Cell::new("dock 3\nharbour").content(), "dock 3\nharbour");
    /// ```
    pub fn new<T: ToString>(content: T) -> Cell {
        Cell::new_owned(content.to_string())
    }

    /// Makes a cell with the text `content`, and without settings. The text is moved into the cell, and not copied.
    pub fn new_owned(content: String) -> Cell {
        Cell {
            text: Text::Own(content),
            delimiter: None,
            alignment: None,
            #[cfg(feature = "tty")]
            foreground: None,
            #[cfg(feature = "tty")]
            background: None,
            #[cfg(feature = "tty")]
            attributes: Vec::new(),
        }
    }

    /// Returns a copy of the cell's text.
    pub fn content(&self) -> String {
        self.text.to_string()
    }

    /// Sets the cell's delimiter: the character at which its long lines may break. This delimiter takes precedence over those of
    /// the column and the table.
    ///
    /// ```
    /// use comfy_table_proved::{Cell, ContentArrangement, Table};
    ///
    /// let mut table = Table::new();
    /// table.set_content_arrangement(ContentArrangement::Dynamic).set_width(9);
    /// table.add_row([Cell::new("north,south").set_delimiter(',')]);
    /// assert_eq!(table.to_string(), "\
    /// +-------+
    /// | north |
    /// | south |
    /// +-------+");
    /// ```
    #[must_use]
    pub fn set_delimiter(self, delimiter: char) -> Cell {
        Cell { delimiter: Some(delimiter), ..self }
    }

    /// Sets the alignment of the text. This alignment takes precedence over that of the column.
    ///
    /// ```
    /// use comfy_table_proved::{Cell, CellAlignment, Table};
    ///
    /// let mut table = Table::new();
    /// table.set_header(["Euros"]).add_row([Cell::new(5).set_alignment(CellAlignment::Right)]);
    /// assert_eq!(table.lines().nth(3).as_deref(), Some("|     5 |"));
    /// ```
    #[must_use]
    pub fn set_alignment(self, alignment: CellAlignment) -> Cell {
        Cell { alignment: Some(alignment), ..self }
    }

    /// Sets the colour of the text. The colour is written only if [`Table::should_style`](crate::Table::should_style) returns
    /// true: if the output is a terminal, or after [`Table::enforce_styling`](crate::Table::enforce_styling). No colour is written
    /// if the environment variable `NO_COLOR` is set and not empty.
    ///
    /// ```
    /// use comfy_table_proved::{Attribute, Cell, Color, Table};
    ///
    /// let mut table = Table::new();
    /// table.enforce_styling().add_row([Cell::new("a").fg(Color::Red).add_attribute(Attribute::Bold)]);
    /// assert_eq!(table.lines().nth(1).as_deref(), Some("|\x1b[38;5;9m\x1b[1m a \x1b[0m|"));
    /// ```
    #[cfg(feature = "tty")]
    #[must_use]
    pub fn fg(self, color: Color) -> Cell {
        Cell { foreground: Some(color), ..self }
    }

    /// Sets the colour of the background. This colour is written under the same conditions as the text's colour, which
    /// [`fg`](Cell::fg) sets.
    ///
    /// ```
    /// use comfy_table_proved::{Cell, Color, Table};
    ///
    /// let mut table = Table::new();
    /// table.enforce_styling().add_row([Cell::new("a").bg(Color::Rgb { r: 32, g: 64, b: 128 })]);
    /// assert_eq!(table.lines().nth(1).as_deref(), Some("|\x1b[48;2;32;64;128m a \x1b[49m|"));
    /// ```
    #[cfg(feature = "tty")]
    #[must_use]
    pub fn bg(self, color: Color) -> Cell {
        Cell { background: Some(color), ..self }
    }

    /// Adds an attribute, such as bold, to the attributes of the cell. Attributes are written only if
    /// [`Table::should_style`](crate::Table::should_style) returns true.
    ///
    /// ```
    /// use comfy_table_proved::{Attribute, Cell, Table};
    ///
    /// let cell = Cell::new("a").add_attribute(Attribute::Bold).add_attribute(Attribute::Underlined);
    /// let mut table = Table::new();
    /// table.enforce_styling().add_row([cell]);
    /// assert_eq!(table.lines().nth(1).as_deref(), Some("|\x1b[1m\x1b[4m a \x1b[0m|"));
    /// ```
    #[cfg(feature = "tty")]
    #[must_use]
    pub fn add_attribute(mut self, attribute: Attribute) -> Cell {
        self.attributes.push(attribute);
        self
    }

    /// Adds several attributes, each as [`add_attribute`](Cell::add_attribute) does.
    #[cfg(feature = "tty")]
    #[must_use]
    pub fn add_attributes(mut self, attributes: Vec<Attribute>) -> Cell {
        self.attributes.extend(attributes);
        self
    }
}

impl<T: ToString> From<T> for Cell {
    fn from(content: T) -> Cell {
        Cell::new(content)
    }
}

/// The cells of a row. Anything that iterates over cells, or over values with `Display`, can be converted to `Cells`.
///
/// ```
/// use comfy_table_proved::Cells;
///
/// assert_eq!(Cells::from([17, 8]).0.len(), 2);
/// assert_eq!(Cells::from("17 8 21".split(' ')).0.len(), 3);
/// ```
pub struct Cells(pub Vec<Cell>);

impl<T> From<T> for Cells
where
    T: IntoIterator,
    T::Item: Into<Cell>,
{
    fn from(values: T) -> Cells {
        Cells(values.into_iter().map(T::Item::into).collect())
    }
}
