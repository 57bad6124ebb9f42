//! Draws TAB-separated text by the original library, as `ctable [WIDTH|- [disabled|dynamic|full]]` does.

use comfy_table::presets::ASCII_FULL;
use comfy_table::{Cell, ContentArrangement, Row, Table};
use std::env::args;
use std::io::{Read, Write, stdin, stdout};

fn main() {
    let mut input = Vec::new();
    stdin().read_to_end(&mut input).unwrap();
    let mut table = Table::new();
    table.load_style(ASCII_FULL);
    table.set_content_arrangement(match args().nth(2).as_deref() {
        Some("dynamic") => ContentArrangement::Dynamic,
        Some("full") => ContentArrangement::DynamicFullWidth,
        _ => ContentArrangement::Disabled,
    });
    if let Some(width) = args().nth(1).and_then(|word| word.parse().ok()) {
        table.set_width(width);
    }
    let mut lines = std::str::from_utf8(&input).unwrap().lines();
    if let Some(first) = lines.next() {
        table.set_header(row_of(first));
    }
    for line in lines {
        table.add_row(row_of(line));
    }
    let mut output = String::new();
    for line in table.lines() {
        output.push_str(&line);
        output.push('\n');
    }
    stdout().write_all(output.as_bytes()).unwrap();
}

fn row_of(line: &str) -> Row {
    let mut row = Row::new();
    for part in line.split('\t') {
        row.add_cell(Cell::new_owned(part.replace('\u{b}', "\n")));
    }
    row
}
