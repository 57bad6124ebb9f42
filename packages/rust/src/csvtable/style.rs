use crate::style::{TableStyle, presets};

/// The frame of a table: one of csvtable's frames, or one of the [`presets`].
///
/// ```
/// use comfy_table_proved::csvtable::{Rows, Style};
///
/// let rows = Rows::new(["name", "price"]).row(("oats", 3)).style(Style::Markdown);
/// assert_eq!(rows.to_string(), "\
/// | name | price |
/// |------|------:|
/// | oats |     3 |
/// ");
/// ```
#[derive(Clone, Copy, Debug, Default, PartialEq, Eq)]
#[non_exhaustive]
pub enum Style {
    /// Lines with round corners. Lines between rows are drawn only if a drawn row has several lines.
    #[default]
    Rounded,
    /// Lines with square corners. Lines between rows are drawn only if a drawn row has several lines.
    Box,
    /// Lines with round corners. Lines are drawn between all rows.
    Grid,
    /// Lines of ASCII characters. Lines are drawn between all rows.
    Ascii,
    /// No lines: spaces separate the columns.
    Plain,
    /// The frame of a table for Markdown. In texts, characters with a meaning in Markdown are escaped. No text is wrapped and no
    /// row is expanded, whatever the width is.
    Markdown,
    /// A preset, made by [`Style::of_preset`].
    Preset(Preset),
}

/// One of the [`presets`]. [`Style::of_preset`] makes it, as a [`Style::Preset`].
#[derive(Clone, Copy, Debug, PartialEq, Eq)]
pub struct Preset(u32);

// The number of UTF8_FULL with round corners, which comes after the presets.
const ROUNDED: u32 = presets::ALL.len() as u32;

impl Style {
    /// Returns the frame of a preset, or `None` if `style` isn't one of the [`presets`].
    ///
    /// ```
    /// use comfy_table_proved::csvtable::{Rows, Style};
    /// use comfy_table_proved::presets::UTF8_HORIZONTAL_ONLY;
    ///
    /// let rows = Rows::new(["name", "price"]).row(("oats", 3)).style(Style::of_preset(UTF8_HORIZONTAL_ONLY).unwrap());
    /// assert_eq!(rows.to_string().lines().nth(2), Some("══════════════"));
    /// ```
    pub fn of_preset(style: TableStyle) -> Option<Style> {
        let position = presets::ALL.iter().position(|preset| *preset == style)?;
        Some(Style::Preset(Preset(position as u32)))
    }

    /// The number of this frame in comfy_table.h.
    pub(crate) fn number(self) -> u32 {
        match self {
            Style::Rounded | Style::Grid | Style::Markdown => ROUNDED,
            Style::Box => 7,
            Style::Ascii => 0,
            Style::Plain => 12,
            Style::Preset(Preset(position)) => position,
        }
    }

    /// True if lines between rows are drawn only if a drawn row has several lines.
    pub(crate) fn is_compact(self) -> bool {
        matches!(self, Style::Rounded | Style::Box)
    }
}
