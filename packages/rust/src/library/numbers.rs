//! The structs of comfy_table.h, in the same order. Their names lack the prefix `comfy_`.

/// The number of a character in comfy_table.h. `None` becomes 0, which means no character.
pub fn of_character(character: Option<char>) -> u32 {
    match character {
        None => 0,
        Some('\0') => NUL,
        Some(character) => character.into(),
    }
}

// The number of U+0000, because 0 means no character.
const NUL: u32 = 0x110000;

#[repr(C)]
#[derive(Clone, Copy, Default)]
pub struct Color {
    pub kind: u8,
    pub number: u8,
    pub red: u8,
    pub green: u8,
    pub blue: u8,
}

#[repr(C)]
#[derive(Clone, Copy, Default)]
pub struct Look {
    pub alignment: u32,
    pub attributes: u32,
    pub foreground: Color,
    pub background: Color,
}

#[repr(C)]
pub struct Cell {
    pub length: usize,
    pub delimiter: u32,
    pub look: Look,
}

#[repr(C)]
pub struct Row {
    pub cells: usize,
    pub max_height: usize,
}

#[repr(C)]
#[derive(Clone, Copy, Default)]
pub struct Width {
    pub is_percentage: u16,
    pub value: u16,
}

#[repr(C)]
pub struct Column {
    pub left_padding: u16,
    pub right_padding: u16,
    pub delimiter: u32,
    pub alignment: u32,
    pub constraint: u32,
    pub width: Width,
    pub upper: Width,
}

#[repr(C)]
#[derive(Clone, Copy, Default)]
pub struct Line {
    pub left: u32,
    pub fill: u32,
    pub junction: u32,
    pub right: u32,
}

#[repr(C)]
#[derive(Clone, Copy, Default)]
pub struct ContentLine {
    pub left: u32,
    pub junction: u32,
    pub right: u32,
}

/// The number of the style whose lines are in the field `frame` of the settings.
pub const OWN_STYLE: u32 = u32::MAX;

#[repr(C)]
#[derive(Clone, Copy, Default)]
pub struct Frame {
    pub top_border: Line,
    pub header_lines: ContentLine,
    pub header_separator: Line,
    pub content_lines: ContentLine,
    pub row_separator: Line,
    pub bottom_border: Line,
}

#[repr(C)]
pub struct CellsSettings {
    pub form: u32,
    pub style: u32,
    pub arrangement: u32,
    pub width: u32,
    pub delimiter: u32,
    pub has_header: u32,
    pub enforce_styling: u32,
    pub style_text_only: u32,
    pub custom_styling: u32,
    pub frame: Frame,
}

#[repr(C)]
#[derive(Clone, Copy)]
pub struct RowsColumn {
    pub left_padding: u16,
    pub right_padding: u16,
    pub side: u32,
    pub least: u16,
    pub greatest: u16,
}

impl RowsColumn {
    /// A column whose texts are at the side `side` of comfy_table.h, with no other setting.
    pub fn at(side: u32) -> RowsColumn {
        RowsColumn { left_padding: 1, right_padding: 1, side, least: 0, greatest: 0 }
    }
}

#[repr(C)]
pub struct RowsSettings {
    pub max_height: usize,
    pub limit: usize,
    pub style: u32,
    pub width: u32,
    pub fills_width: u32,
    pub row_lines: u32,
    pub expansion: u32,
    pub has_header: u32,
    pub has_bold_header: u32,
    pub is_numbered: u32,
    pub aligns_decimals: u32,
    pub has_sequences: u32,
    pub is_markdown: u32,
    pub frame: Frame,
}
