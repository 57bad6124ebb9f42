//! calls [WIDTH|- [styled]]: draws standard input in several ways in one process, and compares the drawings. The ways are the
//! original, and `Table`, `Rows` and `draw_csv` of the proved package. `draw_csv` gets the table as CSV. For each way, the best
//! time of some calls is printed. The variable TIMES is the number of these calls, by default one. With ONLY=original, ONLY=table,
//! ONLY=rows or ONLY=csv, one call in this way is made, and nothing else. With `styled`, a third of the cells are bold, green and
//! right-aligned. Then only the original and `Table` draw the table.
use comfy_table_proved::csvtable::{Rows, Style, draw_csv};
use std::io::{Read, stdin};
use std::time::Instant;

/// A table's texts and settings.
struct Input {
    header: Vec<String>,
    rows: Vec<Vec<String>>,
    csv: String,
    width: Option<u16>,
    is_styled: bool,
}

// The cells of a line, which TABs separate. U+000B means a line feed in a cell.
fn cells(line: &str) -> Vec<String> {
    line.split('\t').map(|text| text.replace('\u{b}', "\n")).collect()
}

// The same calls of comfy-table and of the package.
macro_rules! by_calls {
    ($name:ident, $library:ident) => {
        #[unsafe(no_mangle)]
        #[inline(never)]
        fn $name(input: &Input) -> String {
            use $library::{Attribute, Cell, CellAlignment, Color, ContentArrangement, Row, Table};

            let row = |texts: &Vec<String>| {
                Row::from(texts.iter().enumerate().map(|(position, text)| {
                    let cell = Cell::new(text.as_str());
                    if input.is_styled && position % 3 == 2 {
                        return cell.add_attribute(Attribute::Bold).fg(Color::Green).set_alignment(CellAlignment::Right);
                    }
                    cell
                }))
            };
            let mut table = Table::new();
            if let Some(width) = input.width {
                table.set_width(width).set_content_arrangement(ContentArrangement::Dynamic);
            }
            if input.is_styled {
                table.enforce_styling();
            }
            table.set_header(row(&input.header)).add_rows(input.rows.iter().map(row));
            table.to_string()
        }
    };
}

by_calls!(by_original, comfy_table);
by_calls!(by_table, comfy_table_proved);

#[unsafe(no_mangle)]
#[inline(never)]
fn by_rows(input: &Input) -> String {
    let mut rows = Rows::new(&input.header);
    rows.extend(&input.rows);
    let rows = rows.left(0..input.header.len()).expect("columns").style(Style::Ascii);
    rows.width(input.width.unwrap_or(0)).draw().expect("memory")
}

#[unsafe(no_mangle)]
#[inline(never)]
fn by_csv(input: &Input) -> String {
    let width = input.width.unwrap_or(0).to_string();
    draw_csv(&input.csv, &["-d", ",", "-s", "ASCII_FULL", "--left", "1-", "--expanded", "never", "-w", &width]).expect("memory")
}

// A row of CSV.
fn record(texts: &Vec<String>) -> String {
    format!("\"{}\"\n", texts.iter().map(|text| text.replace('"', "\"\"")).collect::<Vec<String>>().join("\",\""))
}

const CALLS: [(&str, fn(&Input) -> String); 4] =
    [("original", by_original), ("table", by_table), ("rows", by_rows), ("csv", by_csv)];

fn main() {
    let words: Vec<String> = std::env::args().skip(1).collect();
    let mut text = String::new();
    stdin().read_to_string(&mut text).expect("UTF-8 on standard input");
    let mut lines = text.lines().map(cells);
    let header = lines.next().expect("a header");
    let rows: Vec<Vec<String>> = lines.collect();
    let csv = record(&header) + &rows.iter().map(record).collect::<String>();
    let is_styled = words.get(1).is_some();
    let input = Input { header, rows, csv, width: words.first().and_then(|word| word.parse().ok()), is_styled };
    if let Ok(only) = std::env::var("ONLY") {
        let (_, call) = CALLS.iter().find(|(name, _)| *name == only).expect("one of the names");
        println!("{} bytes", call(&input).len());
        return;
    }
    let calls = if is_styled { &CALLS[..2] } else { &CALLS[..] };
    let mut best = [f64::MAX; CALLS.len()];
    for _ in 0..std::env::var("TIMES").map_or(1, |word| word.parse().expect("a number")) {
        let mut drawings = Vec::new();
        for ((_, call), best) in calls.iter().zip(&mut best) {
            let begun = Instant::now();
            drawings.push(call(&input));
            *best = best.min(begun.elapsed().as_secs_f64());
        }
        assert!(drawings.iter().all(|drawing| drawing.trim_end() == drawings[0]), "the drawings differ");
    }
    for ((name, _), seconds) in calls.iter().zip(best) {
        print!("  {:.3} ms by {name}", seconds * 1e3);
    }
    println!();
}
