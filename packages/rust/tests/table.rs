//! Tests of `Table`. Expected drawings are typed by hand.
use comfy_table_proved::csvtable::{Rows, Style};
use comfy_table_proved::presets::{ASCII_FULL_CONDENSED, UTF8_FULL};
use comfy_table_proved::{
    Cell, CellAlignment, ColumnConstraint, ContentArrangement, LineStyle, Row, Table, TableStyle, Width, presets,
};
use std::thread;

#[test]
fn cells_and_columns_have_their_settings() {
    let mut table = Table::new();
    table
        .load_style(ASCII_FULL_CONDENSED)
        .set_header(["key", "value", "note"])
        .add_row([Cell::new("a"), Cell::new(1).set_alignment(CellAlignment::Right), Cell::new("hidden")])
        .add_row(["b"]);
    table.column_mut(0).unwrap().set_padding((0, 2)).set_constraint(ColumnConstraint::LowerBoundary(Width::Fixed(7)));
    table.column_mut(2).unwrap().set_constraint(ColumnConstraint::Hidden);
    assert_eq!(
        table.to_string(),
        "\
+-------+-------+
|key    | value |
+===============+
|a      |     1 |
|b      |       |
+-------+-------+"
    );
}

#[test]
fn each_constraint_has_its_width() {
    let widths = |constraint: ColumnConstraint| {
        let mut table = Table::new();
        table.set_content_arrangement(ContentArrangement::Dynamic).set_width(33).add_row(["a bcde fg", "x"]);
        table.set_constraints([constraint]);
        table.lines().nth(1).unwrap().split('|').map(str::len).nth(1)
    };
    assert_eq!(widths(ColumnConstraint::ContentWidth), Some(11));
    assert_eq!(widths(ColumnConstraint::Absolute(Width::Fixed(8))), Some(8));
    assert_eq!(widths(ColumnConstraint::Absolute(Width::Percentage(50))), Some(15));
    assert_eq!(widths(ColumnConstraint::LowerBoundary(Width::Fixed(20))), Some(20));
    assert_eq!(widths(ColumnConstraint::UpperBoundary(Width::Fixed(6))), Some(6));
    let (lower, upper) = (Width::Fixed(13), Width::Fixed(14));
    assert_eq!(widths(ColumnConstraint::Boundaries { lower, upper }), Some(13));
}

#[test]
fn a_row_is_cut_at_its_height() {
    let mut row = Row::from(["one two three", "x"]);
    row.max_height(0);
    let mut table = Table::new();
    table.set_content_arrangement(ContentArrangement::Dynamic).set_width(13).set_truncation_indicator("~").add_row(row);
    assert_eq!(table.to_string(), "+-------+---+\n| one~  | x |\n+-------+---+");
}

#[test]
fn delimiters_break_lines_and_the_nearest_one_counts() {
    let drawn = |delimiter: Option<char>, column: Option<char>, cell: Option<char>| {
        let mut table = Table::new();
        table.set_content_arrangement(ContentArrangement::Dynamic).set_width(8);
        let text = Cell::new("a-bc d\0e");
        table.add_row([match cell {
            Some(character) => text.set_delimiter(character),
            None => text,
        }]);
        if let Some(character) = delimiter {
            table.set_delimiter(character);
        }
        if let Some(character) = column {
            table.column_mut(0).unwrap().set_delimiter(character);
        }
        table.lines().nth(1).unwrap()
    };
    assert_eq!(drawn(None, None, None), "| a-bc |");
    assert_eq!(drawn(Some('-'), None, None), "| a    |");
    assert_eq!(drawn(Some('x'), Some('-'), None), "| a    |");
    assert_eq!(drawn(Some('x'), Some('y'), Some('c')), "| a-b  |");
}

#[test]
fn a_style_of_ones_own() {
    const STYLE: TableStyle = TableStyle::new().top_border(LineStyle::none().fill('='));
    let mut table = Table::new();
    table.load_style(STYLE).add_row(["a", "b"]);
    assert_eq!(table.to_string(), "======\n a  b ");
    assert_eq!(table.trim_fmt(), "======\n a  b");
    assert_eq!(table.lines().collect::<Vec<String>>(), ["======", " a  b "]);
    table.load_style(UTF8_FULL.with_rounded_corners().with_solid_inner_borders()).add_row(["c", "d"]);
    assert_eq!(table.to_string(), "╭───┬───╮\n│ a │ b │\n├───┼───┤\n│ c │ d │\n╰───┴───╯");
}

#[test]
fn presets_draw_the_pictures_of_their_comments() {
    const PRESETS: [(&str, TableStyle); 13] = [
        ("ASCII_FULL", presets::ASCII_FULL),
        ("ASCII_FULL_CONDENSED", presets::ASCII_FULL_CONDENSED),
        ("ASCII_NO_BORDERS", presets::ASCII_NO_BORDERS),
        ("ASCII_BORDERS_ONLY", presets::ASCII_BORDERS_ONLY),
        ("ASCII_BORDERS_ONLY_CONDENSED", presets::ASCII_BORDERS_ONLY_CONDENSED),
        ("ASCII_HORIZONTAL_ONLY", presets::ASCII_HORIZONTAL_ONLY),
        ("ASCII_MARKDOWN", presets::ASCII_MARKDOWN),
        ("UTF8_FULL", presets::UTF8_FULL),
        ("UTF8_FULL_CONDENSED", presets::UTF8_FULL_CONDENSED),
        ("UTF8_NO_BORDERS", presets::UTF8_NO_BORDERS),
        ("UTF8_BORDERS_ONLY", presets::UTF8_BORDERS_ONLY),
        ("UTF8_HORIZONTAL_ONLY", presets::UTF8_HORIZONTAL_ONLY),
        ("NOTHING", presets::NOTHING),
    ];
    let source = include_str!("../src/style/presets.rs");
    for (name, style) in PRESETS {
        let mut table = Table::new();
        table.load_style(style).set_header(["Hello", "there"]).add_rows([["a", "b"], ["c", "d"]]);
        let picture: String = table.trim_fmt().lines().map(|line| format!("/// {line}\n")).collect();
        assert!(source.contains(&format!("/// ```text\n{picture}/// ```\npub const {name}:")), "{name}: {picture}");
    }
}

#[test]
fn tables_without_rows() {
    let mut table = Table::default();
    assert!(table.is_empty());
    assert_eq!(table.to_string(), "++\n++");
    table.load_style(presets::NOTHING);
    assert_eq!((table.to_string(), table.lines().count()), (String::new(), 0));
}

#[test]
fn contents_have_widths() {
    let mut table = Table::new();
    table.set_header(["京都", "a\nbcd", ""]).add_row(["x"]);
    assert_eq!(table.column_max_content_widths(), [4, 3, 1]);
}

#[test]
fn a_cell_without_a_column_is_left_out() {
    let mut table = Table::new();
    table.load_style(UTF8_FULL).add_row(["a"]);
    table.row_mut(0).unwrap().add_cell(Cell::new("late"));
    assert_eq!(table.to_string(), "┌───┐\n│ a │\n└───┘");
    assert_eq!(table.column_max_content_widths(), [1]);
    assert_eq!(table.column_count(), 2);
    assert_eq!(table.to_string(), "┌───┬──────┐\n│ a ┆ late │\n└───┴──────┘");
}

// A row of five cells or more keeps the texts of its cells in one allocation.
#[test]
fn a_long_row_has_the_texts_of_its_cells() {
    let mut row = Row::from(["a", "", "c\nd", "é", "e"]);
    row.add_cell(Cell::new("f"));
    let texts: Vec<String> = row.cell_iter().map(Cell::content).collect();
    assert_eq!(texts, ["a", "", "c\nd", "é", "e", "f"]);
    let backwards: Vec<Cell> = row.cell_iter().rev().cloned().collect();
    let mut table = Table::new();
    table.load_style(ASCII_FULL_CONDENSED).add_row(row).add_row(backwards.clone());
    assert_eq!(
        table.to_string(),
        "\
+---+---+---+---+---+---+
| a |   | c | é | e | f |
|   |   | d |   |   |   |
| f | e | é | c |   | a |
|   |   |   | d |   |   |
+---+---+---+---+---+---+"
    );
    drop(table);
    assert_eq!(backwards[2], Cell::new("é"));
    assert!(format!("{:?}", backwards[2]).starts_with("Cell { text: \"é\","));
}

#[test]
fn a_shorter_header_keeps_the_columns() {
    let mut table = Table::new();
    table.set_header(["a", "b"]).set_header(["x"]);
    assert_eq!(table.to_string(), "+---+---+\n| x |   |\n+=======+\n+---+---+");
    let cells: Vec<_> = table.column_cells_with_header_iter(1).collect();
    assert_eq!(cells, [None]);
}

#[test]
fn rows_are_added_if_a_predicate_is_true() {
    let mut table = Table::new();
    table.add_row_if(|count, row| count == 0 && row.len() == 1, ["a"]).add_row_if(|count, _| count == 0, ["b"]);
    table.add_rows_if(|count, rows: &Vec<[u8; 2]>| count == rows.len(), vec![[1, 2]]).add_rows([vec![-1], vec![2, 3]]);
    let firsts: Vec<String> = table.row_iter().map(|row| row.cell_iter().next().unwrap().content()).collect();
    assert_eq!(firsts, ["a", "1", "-1", "2"]);
}

#[test]
fn paddings_and_widths_of_65535() {
    let mut table = Table::new();
    table.add_row(["a"]);
    table.column_mut(0).unwrap().set_padding((65535, 65535));
    let widths: Vec<usize> = table.lines().map(|line| line.len()).collect();
    assert_eq!(widths, [131073; 3]);
    let mut wide = Table::new();
    wide.set_content_arrangement(ContentArrangement::DynamicFullWidth).set_width(65535).add_row(["a", "b"]);
    assert!(wide.lines().all(|line| line.len() == 65535));
}

#[test]
fn threads_draw_at_once() {
    let mut table = Table::new();
    table.load_style(UTF8_FULL).add_rows((0..100).map(|row| [row.to_string(), "年".repeat(row % 7)]));
    let wanted = table.to_string();
    thread::scope(|scope| {
        for _ in 0..4 {
            scope.spawn(|| (0..50).for_each(|_| assert_eq!(table.to_string(), wanted)));
        }
    });
}

#[test]
fn both_kinds_of_tables_are_drawn_side_by_side() {
    let mut table = Table::new();
    table.set_header(["name", "price"]).add_row(["oats", "3"]);
    table.load_style(ASCII_FULL_CONDENSED).column_mut(1).unwrap().set_cell_alignment(CellAlignment::Right);
    let rows = Rows::new(["name", "price"]).row(("oats", 3)).style(Style::Ascii);
    assert_eq!(rows.to_string(), format!("{table}\n"));
}

#[cfg(feature = "tty")]
mod terminal {
    use super::*;
    use comfy_table_proved::{Attribute, Color};

    // The lines of the only cell of a table.
    fn styled(cell: Cell, texts_only: bool) -> String {
        let mut table = Table::new();
        table.force_no_tty().enforce_styling().add_row([cell]);
        if texts_only {
            table.style_text_only();
        }
        table.lines().nth(1).unwrap().trim_matches('|').into()
    }

    #[test]
    fn colours_are_written_if_they_are_requested() {
        let cell = Cell::new("a").fg(Color::Red).bg(Color::Rgb { r: 1, g: 2, b: 3 }).add_attribute(Attribute::Bold);
        let mut table = Table::new();
        table.force_no_tty().add_row([cell.clone()]);
        assert_eq!(table.lines().nth(1).as_deref(), Some("| a |"));
        assert_eq!(styled(cell.clone(), false), "\x1b[48;2;1;2;3m\x1b[38;5;9m\x1b[1m a \x1b[0m");
        assert_eq!(styled(cell, true), " \x1b[48;2;1;2;3m\x1b[38;5;9m\x1b[1ma\x1b[0m ");
    }

    #[test]
    fn each_colour_has_its_number() {
        let named = [
            Color::Black,
            Color::DarkRed,
            Color::DarkGreen,
            Color::DarkYellow,
            Color::DarkBlue,
            Color::DarkMagenta,
            Color::DarkCyan,
            Color::Grey,
            Color::DarkGrey,
            Color::Red,
            Color::Green,
            Color::Yellow,
            Color::Blue,
            Color::Magenta,
            Color::Cyan,
            Color::White,
            Color::AnsiValue(16),
        ];
        for (number, color) in named.into_iter().enumerate() {
            assert_eq!(styled(Cell::new("a").fg(color), false), format!("\x1b[38;5;{number}m a \x1b[39m"));
        }
        assert_eq!(styled(Cell::new("a").bg(Color::Reset), false), "\x1b[49m a \x1b[49m");
    }

    #[test]
    fn the_first_and_the_last_attribute() {
        assert_eq!(styled(Cell::new("a").add_attribute(Attribute::Reset), false), "\x1b[0m a \x1b[0m");
        assert_eq!(styled(Cell::new("a").add_attributes(vec![Attribute::NotOverLined]), false), "\x1b[55m a \x1b[0m");
    }

    #[test]
    fn a_width_that_is_set_comes_before_the_terminal() {
        let mut table = Table::new();
        assert_eq!(table.set_width(7).width(), Some(7));
        assert!(!table.force_no_tty().is_tty());
        assert_eq!(Table::new().force_no_tty().width(), None);
    }
}

#[cfg(feature = "custom_styling")]
#[test]
fn sequences_in_texts_count_no_columns() {
    let mut table = Table::new();
    table.add_row(["\x1b[31ma\x1b[0m"]);
    assert_eq!(table.to_string(), "+---+\n| \x1b[31ma\x1b[0m |\n+---+");
}
