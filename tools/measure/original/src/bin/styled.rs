//! Draws TAB-separated text as tools/measure/styled/main.rt.txt does, by the original with its features `tty` and `custom_styling`.

use comfy_table::presets::ASCII_FULL;
use comfy_table::{Attribute, Cell, Color, ColumnConstraint, Row, Table, Width};
use std::env::args;
use std::io::{Read, Write, stdin, stdout};

fn main() {
    let word = args().nth(1).unwrap_or_default();
    let mut text = String::new();
    stdin().read_to_string(&mut text).unwrap();
    let is_coloured = word == "colours";
    let mut table = Table::new();
    table.load_style(ASCII_FULL);
    let mut lines = text.lines();
    if let Some(first) = lines.next() {
        table.set_header(row_of(first, is_coloured));
    }
    for line in lines {
        table.add_row(row_of(line, is_coloured));
    }
    if is_coloured {
        table.enforce_styling();
    } else if let Ok(width) = word.parse() {
        table.set_constraints([ColumnConstraint::Absolute(Width::Fixed(width)); 6]);
    }
    let mut output = String::new();
    for line in table.lines() {
        output.push_str(&line);
        output.push('\n');
    }
    stdout().write_all(output.as_bytes()).unwrap();
}

fn row_of(line: &str, is_coloured: bool) -> Row {
    let mut row = Row::new();
    for (position, part) in line.split('\t').enumerate() {
        let mut cell = Cell::new(part);
        if is_coloured && position % 2 == 1 {
            cell = cell.fg(Color::Red).add_attribute(Attribute::Bold);
        }
        row.add_cell(cell);
    }
    row
}
