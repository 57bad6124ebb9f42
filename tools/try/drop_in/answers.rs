// Draws a described table, and reads from it. This file is included twice, once for each library.

/// Draws a table in each way.
pub fn drawing(described: &Described) -> Drawing {
    let table = table_of(described);
    Drawing { text: table.to_string(), trimmed: table.trim_fmt(), lines: table.lines().collect() }
}

/// Returns the widths of a table's contents.
pub fn widths(described: &Described) -> Vec<u16> {
    table_of(described).column_max_content_widths()
}

/// Returns everything that can be read from a table, as lines of text. The function `text` is applied to the texts of cells.
pub fn readings(described: &Described, text: fn(&str) -> String) -> String {
    let mut table = table_of(described);
    let content = |cell: &Cell| text(&cell.content());
    let contents = |cell: Option<&Cell>| cell.map(content);
    let mut read = Vec::new();
    for column in 0..7 {
        read.push(format!("{:?}", table.column_cells_iter(column).map(contents).collect::<Vec<_>>()));
        read.push(format!("{:?}", table.column_cells_with_header_iter(column).map(contents).collect::<Vec<_>>()));
    }
    for column in table.column_iter() {
        read.push(format!("{} {} {} {:?}", column.index, column.padding_width(), column.is_hidden(), column.constraint()));
    }
    for row in table.header().into_iter().chain(table.row_iter()) {
        read.push(format!("{} {:?}", row.cell_count(), row.cell_iter().map(content).collect::<Vec<_>>()));
    }
    let counts = (table.row_count(), table.is_empty(), table.column_iter().count(), table.row(1).is_some(), table.column(2).is_some());
    read.push(format!("{counts:?} {:?} {:?}", table.width(), table.content_arrangement()));
    read.push(format!("{:?} {} {}", table.style(), table.is_tty(), table.should_style()));
    read.push(table.column_count().to_string());
    read.join("\n")
}

fn table_of(described: &Described) -> Table {
    let mut table = Table::new();
    for header in &described.headers {
        table.set_header(row_of(header));
    }
    table.add_rows(described.rows.iter().map(row_of));
    for (row, cell) in &described.late_cells {
        table.row_mut(*row).unwrap().add_cell(cell_of(cell));
    }
    if described.discovers_columns {
        table.discover_columns();
    }
    for (column, described) in table.column_iter_mut().zip(&described.columns) {
        set_column(column, described);
    }
    table.load_style(style_of(&described.style)).set_content_arrangement(match described.arrangement {
        0 => ContentArrangement::Disabled,
        1 => ContentArrangement::Dynamic,
        _ => ContentArrangement::DynamicFullWidth,
    });
    described.width.map(|width| table.set_width(width).row_count());
    described.delimiter.map(|delimiter| table.set_delimiter(delimiter).row_count());
    described.indicator.map(|indicator| table.set_truncation_indicator(indicator).row_count());
    table.force_no_tty();
    if described.enforces_styling {
        table.enforce_styling();
    }
    if described.styles_text_only {
        table.style_text_only();
    }
    table
}

fn row_of(described: &DescribedRow) -> Row {
    let mut row = Row::new();
    for cell in &described.cells {
        row.add_cell(cell_of(cell));
    }
    described.max_height.map(|height| row.max_height(height).cell_count());
    row
}

fn cell_of(described: &DescribedCell) -> Cell {
    let mut cell = Cell::new(&described.text);
    if let Some(delimiter) = described.delimiter {
        cell = cell.set_delimiter(delimiter);
    }
    if let Some(alignment) = alignment_of(described.alignment) {
        cell = cell.set_alignment(alignment);
    }
    if let Some(color) = described.foreground {
        cell = cell.fg(color_of(color));
    }
    if let Some(color) = described.background {
        cell = cell.bg(color_of(color));
    }
    cell.add_attributes(described.attributes.iter().map(|number| ATTRIBUTES[*number]).collect())
}

fn set_column(column: &mut Column, described: &DescribedColumn) {
    if let Some(index) = described.index {
        column.index = index;
    }
    described.padding.map(|padding| column.set_padding(padding).index);
    described.delimiter.map(|delimiter| column.set_delimiter(delimiter).index);
    if let Some(alignment) = alignment_of(described.alignment) {
        column.set_cell_alignment(alignment);
    }
    let width = |value: u16| if value % 2 == 1 { Width::Percentage(value) } else { Width::Fixed(value) };
    let (first, second) = described.widths;
    let constraint = match described.constraint {
        0 => ColumnConstraint::Hidden,
        1 => ColumnConstraint::ContentWidth,
        2 => ColumnConstraint::Absolute(width(first)),
        3 => ColumnConstraint::LowerBoundary(width(first)),
        4 => ColumnConstraint::UpperBoundary(width(first)),
        5 => ColumnConstraint::Boundaries { lower: width(first), upper: width(second) },
        _ => return,
    };
    column.set_constraint(constraint);
}

fn alignment_of(number: usize) -> Option<CellAlignment> {
    [CellAlignment::Left, CellAlignment::Right, CellAlignment::Center].get(number).copied()
}

fn color_of(number: u8) -> Color {
    match number {
        0..17 => COLORS[usize::from(number)],
        17..128 => Color::AnsiValue(number),
        _ => Color::Rgb { r: number, g: 255 - number, b: 7 },
    }
}

fn style_of(described: &DescribedStyle) -> TableStyle {
    let c = described.characters;
    let line = |at: usize| LineStyle { left: c[at], fill: c[at + 1], junction: c[at + 2], right: c[at + 3] };
    let content_line = |at: usize| ContentLineStyle { left: c[at], junction: c[at + 1], right: c[at + 2] };
    let mut style = match described.preset {
        Some(number) => PRESETS[number],
        None => TableStyle {
            top_border: line(0),
            header_lines: content_line(4),
            header_separator: line(7),
            content_lines: content_line(11),
            row_separator: line(14),
            bottom_border: line(18),
        },
    };
    if described.is_rounded {
        style = style.with_rounded_corners();
    }
    if described.is_solid {
        style = style.with_solid_inner_borders();
    }
    style
}

const PRESETS: [TableStyle; 13] = [
    presets::ASCII_FULL,
    presets::ASCII_FULL_CONDENSED,
    presets::ASCII_NO_BORDERS,
    presets::ASCII_BORDERS_ONLY,
    presets::ASCII_BORDERS_ONLY_CONDENSED,
    presets::ASCII_HORIZONTAL_ONLY,
    presets::ASCII_MARKDOWN,
    presets::UTF8_FULL,
    presets::UTF8_FULL_CONDENSED,
    presets::UTF8_NO_BORDERS,
    presets::UTF8_BORDERS_ONLY,
    presets::UTF8_HORIZONTAL_ONLY,
    presets::NOTHING,
];

const COLORS: [Color; 17] = [
    Color::Reset,
    Color::Black,
    Color::DarkGrey,
    Color::Red,
    Color::DarkRed,
    Color::Green,
    Color::DarkGreen,
    Color::Yellow,
    Color::DarkYellow,
    Color::Blue,
    Color::DarkBlue,
    Color::Magenta,
    Color::DarkMagenta,
    Color::Cyan,
    Color::DarkCyan,
    Color::White,
    Color::Grey,
];

const ATTRIBUTES: [Attribute; 28] = [
    Attribute::Reset,
    Attribute::Bold,
    Attribute::Dim,
    Attribute::Italic,
    Attribute::Underlined,
    Attribute::DoubleUnderlined,
    Attribute::Undercurled,
    Attribute::Underdotted,
    Attribute::Underdashed,
    Attribute::SlowBlink,
    Attribute::RapidBlink,
    Attribute::Reverse,
    Attribute::Hidden,
    Attribute::CrossedOut,
    Attribute::Fraktur,
    Attribute::NoBold,
    Attribute::NormalIntensity,
    Attribute::NoItalic,
    Attribute::NoUnderline,
    Attribute::NoBlink,
    Attribute::NoReverse,
    Attribute::NoHidden,
    Attribute::NotCrossedOut,
    Attribute::Framed,
    Attribute::Encircled,
    Attribute::OverLined,
    Attribute::NotFramedOrEncircled,
    Attribute::NotOverLined,
];
