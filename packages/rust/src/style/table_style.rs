//! The characters of a table's frame.

/// The characters of a horizontal line of the frame. A line without characters isn't drawn. In a drawn line, a missing `fill` is
/// drawn as spaces. A missing `left`, `junction` or `right` is drawn as a space if another line of the [`TableStyle`] has a
/// character at the same place. Otherwise the place takes no terminal column.
///
/// ```text
///   fill    fill
///   ↓       ↓
/// ├╌╌╌╌╌╌╌┼╌╌╌╌╌╌╌┤
/// ↑       ↑       ↑
/// left    junction
///                 right
/// ```
///
/// ```
/// use comfy_table_proved::{LineStyle, Table, presets::NOTHING};
///
/// let mut table = Table::new();
/// table.load_style(NOTHING.header_separator(LineStyle::none().fill('-'))).set_header(["Bike", "Dock"]).add_row([17, 3]);
/// assert_eq!(table.to_string(), " Bike  Dock \n------------\n 17    3    ");
/// ```
#[derive(Clone, Copy, Debug, Default, PartialEq, Eq)]
pub struct LineStyle {
    /// The character at the left end. `None` means no character.
    pub left: Option<char>,
    /// The character that is repeated along each column. `None` means no character.
    pub fill: Option<char>,
    /// The character between two columns. `None` means no character.
    pub junction: Option<char>,
    /// The character at the right end. `None` means no character.
    pub right: Option<char>,
}

impl LineStyle {
    /// Makes a line with all four characters.
    ///
    /// ```
    /// use comfy_table_proved::{LineStyle, presets::UTF8_FULL};
    ///
    /// assert_eq!(UTF8_FULL.row_separator, LineStyle::new('├', '╌', '┼', '┤'));
    /// ```
    pub const fn new(left: char, fill: char, junction: char, right: char) -> LineStyle {
        LineStyle { left: Some(left), fill: Some(fill), junction: Some(junction), right: Some(right) }
    }

    /// Makes a line without characters, which isn't drawn.
    pub const fn none() -> LineStyle {
        LineStyle { left: None, fill: None, junction: None, right: None }
    }

    /// Sets the character at the left end.
    pub const fn left(mut self, character: char) -> LineStyle {
        self.left = Some(character);
        self
    }

    /// Sets the character that is repeated along each column.
    pub const fn fill(mut self, character: char) -> LineStyle {
        self.fill = Some(character);
        self
    }

    /// Sets the character between two columns.
    pub const fn junction(mut self, character: char) -> LineStyle {
        self.junction = Some(character);
        self
    }

    /// Sets the character at the right end.
    pub const fn right(mut self, character: char) -> LineStyle {
        self.right = Some(character);
        self
    }
}

/// The vertical borders of the lines that hold texts. A missing border is drawn as a space if another line of the [`TableStyle`]
/// has a character at the same place. Otherwise the place takes no terminal column.
///
/// ```text
/// │ Hello ┆ there │
/// ↑       ↑       ↑
/// left    junction
///                 right
/// ```
#[derive(Clone, Copy, Debug, Default, PartialEq, Eq)]
pub struct ContentLineStyle {
    /// The character of the left border. `None` means no character.
    pub left: Option<char>,
    /// The character of the border between two columns. `None` means no character.
    pub junction: Option<char>,
    /// The character of the right border. `None` means no character.
    pub right: Option<char>,
}

impl ContentLineStyle {
    /// Makes the borders of a line of texts, with all three characters.
    ///
    /// ```
    /// use comfy_table_proved::{ContentLineStyle, presets::UTF8_FULL};
    ///
    /// assert_eq!(UTF8_FULL.content_lines, ContentLineStyle::new('│', '┆', '│'));
    /// ```
    pub const fn new(left: char, junction: char, right: char) -> ContentLineStyle {
        ContentLineStyle { left: Some(left), junction: Some(junction), right: Some(right) }
    }

    /// Makes the borders of a line of texts, without characters.
    pub const fn none() -> ContentLineStyle {
        ContentLineStyle { left: None, junction: None, right: None }
    }

    /// Sets the character of the left border.
    pub const fn left(mut self, character: char) -> ContentLineStyle {
        self.left = Some(character);
        self
    }

    /// Sets the character of the border between two columns.
    pub const fn junction(mut self, character: char) -> ContentLineStyle {
        self.junction = Some(character);
        self
    }

    /// Sets the character of the right border.
    pub const fn right(mut self, character: char) -> ContentLineStyle {
        self.right = Some(character);
        self
    }
}

/// The characters of a table's frame, for each of six kinds of lines.
///
/// ```text
/// ┌───────┬───────┐  top_border
/// │ Hello ┆ there │  header_lines
/// ╞═══════╪═══════╡  header_separator
/// │ a     ┆ b     │  content_lines
/// ├╌╌╌╌╌╌╌┼╌╌╌╌╌╌╌┤  row_separator
/// │ c     ┆ d     │  content_lines
/// └───────┴───────┘  bottom_border
/// ```
///
/// There are three vertical borders: at the left, between columns, and at the right. Each border is drawn if at least one of the
/// six lines has a character for this border. Drawn lines without such a character then have a space there.
///
/// Use one of the [`presets`](crate::presets), change a preset, or begin with [`TableStyle::new`]:
///
/// ```
/// use comfy_table_proved::{ContentLineStyle, LineStyle, Table, TableStyle};
///
/// const STYLE: TableStyle = TableStyle::new()
///     .header_separator(LineStyle::none().fill('-').junction('+'))
///     .header_lines(ContentLineStyle::none().junction('|'))
///     .content_lines(ContentLineStyle::none().junction('|'));
/// let mut table = Table::new();
/// table.load_style(STYLE).set_header(["a", "b"]).add_row(["c", "d"]);
/// assert_eq!(table.to_string(), " a | b \n---+---\n c | d ");
/// ```
#[derive(Clone, Copy, Debug, Default, PartialEq, Eq)]
pub struct TableStyle {
    /// The line above the table.
    pub top_border: LineStyle,
    /// The vertical borders in the header.
    pub header_lines: ContentLineStyle,
    /// The line below the header.
    pub header_separator: LineStyle,
    /// The vertical borders in the rows.
    pub content_lines: ContentLineStyle,
    /// The line between two rows.
    pub row_separator: LineStyle,
    /// The line below the table.
    pub bottom_border: LineStyle,
}

impl TableStyle {
    /// Makes a style without characters, which equals [`NOTHING`](crate::presets::NOTHING).
    pub const fn new() -> TableStyle {
        TableStyle {
            top_border: LineStyle::none(),
            header_lines: ContentLineStyle::none(),
            header_separator: LineStyle::none(),
            content_lines: ContentLineStyle::none(),
            row_separator: LineStyle::none(),
            bottom_border: LineStyle::none(),
        }
    }

    /// Sets the line above the table.
    pub const fn top_border(mut self, line: LineStyle) -> TableStyle {
        self.top_border = line;
        self
    }

    /// Sets the vertical borders in the header.
    pub const fn header_lines(mut self, line: ContentLineStyle) -> TableStyle {
        self.header_lines = line;
        self
    }

    /// Sets the line below the header.
    ///
    /// ```
    /// use comfy_table_proved::{LineStyle, Table, presets::ASCII_FULL_CONDENSED};
    ///
    /// let mut table = Table::new();
    /// table.load_style(ASCII_FULL_CONDENSED.header_separator(LineStyle::new('+', '-', '+', '+')));
    /// assert_eq!(table.set_header(["Bike", "Dock"]).add_row([17, 3]).to_string(), "\
    /// +------+------+
    /// | Bike | Dock |
    /// +------+------+
    /// | 17   | 3    |
    /// +------+------+");
    /// ```
    pub const fn header_separator(mut self, line: LineStyle) -> TableStyle {
        self.header_separator = line;
        self
    }

    /// Sets the vertical borders in the rows.
    pub const fn content_lines(mut self, line: ContentLineStyle) -> TableStyle {
        self.content_lines = line;
        self
    }

    /// Sets the line between two rows.
    pub const fn row_separator(mut self, line: LineStyle) -> TableStyle {
        self.row_separator = line;
        self
    }

    /// Sets the line below the table.
    pub const fn bottom_border(mut self, line: LineStyle) -> TableStyle {
        self.bottom_border = line;
        self
    }

    /// Returns this style with round corners in place of its own corners. A style without a top or bottom border gets one that has
    /// only the corners.
    ///
    /// ```
    /// use comfy_table_proved::{Table, presets::UTF8_FULL};
    ///
    /// let mut table = Table::new();
    /// table.load_style(UTF8_FULL.with_rounded_corners()).add_row(["a", "b"]);
    /// assert_eq!(table.to_string(), "\
    /// ╭───┬───╮
    /// │ a ┆ b │
    /// ╰───┴───╯");
    /// ```
    pub const fn with_rounded_corners(mut self) -> TableStyle {
        self.top_border = self.top_border.left('╭').right('╮');
        self.bottom_border = self.bottom_border.left('╰').right('╯');
        self
    }

    /// Returns this style with solid lines, of box drawing characters, between columns and between rows. They replace the style's
    /// own lines there. A style without lines between columns or between rows gets them.
    ///
    /// ```
    /// use comfy_table_proved::{Table, presets::UTF8_FULL};
    ///
    /// let mut table = Table::new();
    /// table.load_style(UTF8_FULL.with_solid_inner_borders()).add_row(["a", "b"]).add_row(["c", "d"]);
    /// assert_eq!(table.to_string(), "\
    /// ┌───┬───┐
    /// │ a │ b │
    /// ├───┼───┤
    /// │ c │ d │
    /// └───┴───┘");
    /// ```
    pub const fn with_solid_inner_borders(mut self) -> TableStyle {
        self.header_lines = self.header_lines.junction('│');
        self.content_lines = self.content_lines.junction('│');
        self.row_separator = self.row_separator.fill('─');
        self
    }
}
