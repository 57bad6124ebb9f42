//! Prints a table of boats, in which each `yes` is red:
//!
//! ╭───────┬────────┬──────╮
//! │ boat  ┆ metres ┆ leak │
//! ╞═══════╪════════╪══════╡
//! │ Anna  ┆   11.5 ┆ no   │
//! │ Marie ┆    9.0 ┆ yes  │
//! ╰───────┴────────┴──────╯
use comfy_table_proved::Color;
use comfy_table_proved::csvtable::Rows;

fn main() {
    let mut boats = Rows::new(["boat", "metres", "leak"]);
    for (name, metres, leaks) in [("Anna", 11.5, false), ("Marie", 9.0, true)] {
        boats.push((name, format!("{metres:.1}"), if leaks { "yes" } else { "no" }));
    }
    print!("{}", boats.paint(|_, _, cell| if cell.content() == "yes" { cell.fg(Color::Red) } else { cell }));
}
