//! Colours and attributes of texts in terminals.

/// An attribute of a text in a terminal. A terminal shows only the attributes that it knows.
///
/// ```
/// use comfy_table_proved::{Attribute, Cell};
///
/// let name = Cell::new("Bike").add_attributes(vec![Attribute::Bold, Attribute::Underlined]);
/// # let _ = name;
/// ```
#[derive(Clone, Copy, Debug, PartialEq, Eq, PartialOrd, Ord, Hash)]
#[non_exhaustive]
pub enum Attribute {
    /// Ends all attributes and colours.
    Reset,
    /// Bold. Some terminals show it as a brighter colour.
    Bold,
    /// Dimmer than usual.
    Dim,
    /// Italic.
    Italic,
    /// Underlined.
    Underlined,
    /// Underlined twice.
    DoubleUnderlined,
    /// Underlined with a wavy line.
    Undercurled,
    /// Underlined with dots.
    Underdotted,
    /// Underlined with dashes.
    Underdashed,
    /// Blinks less than 150 times a minute.
    SlowBlink,
    /// Blinks 150 times a minute or more.
    RapidBlink,
    /// The colours of text and background are exchanged.
    Reverse,
    /// The text isn't shown.
    Hidden,
    /// Crossed out.
    CrossedOut,
    /// In blackletter (Fraktur).
    Fraktur,
    /// Ends `Bold`.
    NoBold,
    /// Ends `Bold` and `Dim`.
    NormalIntensity,
    /// Ends `Italic`.
    NoItalic,
    /// Ends each kind of underline.
    NoUnderline,
    /// Ends both kinds of blinking.
    NoBlink,
    /// Ends `Reverse`.
    NoReverse,
    /// Ends `Hidden`.
    NoHidden,
    /// Ends `CrossedOut`.
    NotCrossedOut,
    /// With a frame around the text.
    Framed,
    /// With a circle around the text.
    Encircled,
    /// With a line above the text.
    OverLined,
    /// Ends `Framed` and `Encircled`.
    NotFramedOrEncircled,
    /// Ends `OverLined`.
    NotOverLined,
}

/// A colour of a terminal. The first 16 of the 256 numbered colours have names.
///
/// ```
/// use comfy_table_proved::{Cell, Color};
///
/// let debt = Cell::new(-12).fg(Color::Red).bg(Color::Rgb { r: 32, g: 32, b: 32 });
/// let credit = Cell::new(84).fg(Color::AnsiValue(28));
/// # let _ = (debt, credit);
/// ```
#[derive(Clone, Copy, Debug, PartialEq, Eq, PartialOrd, Ord, Hash)]
pub enum Color {
    /// The default colour of the terminal.
    Reset,
    /// Colour 0 of the 256 colours of a terminal.
    Black,
    /// Colour 8 of the 256 colours of a terminal.
    DarkGrey,
    /// Colour 9 of the 256 colours of a terminal.
    Red,
    /// Colour 1 of the 256 colours of a terminal.
    DarkRed,
    /// Colour 10 of the 256 colours of a terminal.
    Green,
    /// Colour 2 of the 256 colours of a terminal.
    DarkGreen,
    /// Colour 11 of the 256 colours of a terminal.
    Yellow,
    /// Colour 3 of the 256 colours of a terminal.
    DarkYellow,
    /// Colour 12 of the 256 colours of a terminal.
    Blue,
    /// Colour 4 of the 256 colours of a terminal.
    DarkBlue,
    /// Colour 13 of the 256 colours of a terminal.
    Magenta,
    /// Colour 5 of the 256 colours of a terminal.
    DarkMagenta,
    /// Colour 14 of the 256 colours of a terminal.
    Cyan,
    /// Colour 6 of the 256 colours of a terminal.
    DarkCyan,
    /// Colour 15 of the 256 colours of a terminal.
    White,
    /// Colour 7 of the 256 colours of a terminal.
    Grey,
    /// A colour by its parts of red, green and blue, each from 0 to 255.
    Rgb {
        /// The red part of the colour, from 0 to 255.
        r: u8,
        /// The green part of the colour, from 0 to 255.
        g: u8,
        /// The blue part of the colour, from 0 to 255.
        b: u8,
    },
    /// The colour with this number among the 256 colours of a terminal.
    AnsiValue(u8),
}

impl Color {
    /// The number of this colour among the 256 numbered colours, or `None` for `Reset` and `Rgb`.
    pub(crate) fn number(self) -> Option<u8> {
        Some(match self {
            Color::Reset | Color::Rgb { .. } => return None,
            Color::Black => 0,
            Color::DarkRed => 1,
            Color::DarkGreen => 2,
            Color::DarkYellow => 3,
            Color::DarkBlue => 4,
            Color::DarkMagenta => 5,
            Color::DarkCyan => 6,
            Color::Grey => 7,
            Color::DarkGrey => 8,
            Color::Red => 9,
            Color::Green => 10,
            Color::Yellow => 11,
            Color::Blue => 12,
            Color::Magenta => 13,
            Color::Cyan => 14,
            Color::White => 15,
            Color::AnsiValue(number) => number,
        })
    }
}
