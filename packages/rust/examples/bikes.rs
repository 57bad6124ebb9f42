//! Prints a table of bikes. In a terminal it has colours, and is at most as wide as the terminal.
use comfy_table_proved::presets::UTF8_FULL;
use comfy_table_proved::{Attribute, Cell, CellAlignment, Color, ContentArrangement, Table};

fn main() {
    let mut bikes = Table::new();
    bikes.load_style(UTF8_FULL.with_rounded_corners()).set_content_arrangement(ContentArrangement::Dynamic).set_header([
        Cell::new("Bike").add_attribute(Attribute::Bold),
        Cell::new("Place"),
        Cell::new("Euros"),
    ]);
    for (bike, place, euros) in [(17, "dock 3, beside the harbour museum, and not on Sundays", -12), (8, "京都", 84)] {
        let color = if euros < 0 { Color::Red } else { Color::Green };
        bikes.add_row([Cell::new(bike), Cell::new(place), Cell::new(euros).fg(color)]);
    }
    if let Some(euros) = bikes.column_mut(2) {
        euros.set_cell_alignment(CellAlignment::Right);
    }
    println!("{bikes}");
}
