//! Examples of the crate tabled, written for this package. Expected drawings are typed by hand.
use comfy_table_proved::csvtable::{Rows, Style};

struct Language {
    name: &'static str,
    designed_by: &'static str,
    invented_year: u16,
}

const LANGUAGES: [Language; 3] = [
    Language { name: "C", designed_by: "Dennis Ritchie", invented_year: 1972 },
    Language { name: "Go", designed_by: "Rob Pike", invented_year: 2009 },
    Language { name: "Rust", designed_by: "Graydon Hoare", invented_year: 2010 },
];

// Table::new(&languages)
#[test]
fn a_list_of_structs() {
    let mut table = Rows::new(["name", "designed_by", "invented_year"]);
    table.extend(LANGUAGES.iter().map(|it| (it.name, it.designed_by, it.invented_year)));
    assert_eq!(
        table.to_string(),
        "\
╭──────┬────────────────┬───────────────╮
│ name ┆ designed_by    ┆ invented_year │
╞══════╪════════════════╪═══════════════╡
│ C    ┆ Dennis Ritchie ┆          1972 │
│ Go   ┆ Rob Pike       ┆          2009 │
│ Rust ┆ Graydon Hoare  ┆          2010 │
╰──────┴────────────────┴───────────────╯
"
    );
}

// builder.push_record(..)
#[test]
fn records_of_different_lengths() {
    let mut table = Rows::without_header();
    for i in 0..3 {
        table.push((0..=i).map(|j| i * j).collect::<Vec<i32>>());
    }
    assert_eq!(
        table.to_string(),
        "\
╭───┬───┬───╮
│ 0 ┆   ┆   │
│ 0 ┆ 1 ┆   │
│ 0 ┆ 2 ┆ 4 │
╰───┴───┴───╯
"
    );
}

// table.with(Style::markdown())
#[test]
fn markdown() {
    let table = Rows::new(["version", "size"]).row(("0.1", "20 MB")).row(("0.2", "9 MB"));
    assert_eq!(
        table.style(Style::Markdown).to_string(),
        "\
| version |  size |
|--------:|------:|
|     0.1 | 20 MB |
|     0.2 |  9 MB |
"
    );
}

// table.with(Style::ascii())
#[test]
fn characters_of_ascii() {
    let table = Rows::new(["from", "to"]).row(["Brest", "Cork"]);
    assert_eq!(
        table.style(Style::Ascii).to_string(),
        "\
+-------+------+
| from  | to   |
+==============+
| Brest | Cork |
+-------+------+
"
    );
}

// table.with(Width::wrap(16))
#[test]
fn wrapped() {
    let table = Rows::new(["text"]).row(["the quick brown fox jumps"]);
    assert_eq!(
        table.width(16).to_string(),
        "\
╭───────────╮
│ text      │
╞═══════════╡
│ the quick │
│ brown fox │
│ jumps     │
╰───────────╯
"
    );
}

// table.with(Width::increase(20))
#[test]
fn as_wide_as_requested() {
    let table = Rows::new(["a", "b"]).row(["x", "y"]);
    assert_eq!(
        table.width(20).full(true).to_string(),
        "\
╭─────────┬────────╮
│ a       ┆ b      │
╞═════════╪════════╡
│ x       ┆ y      │
╰─────────┴────────╯
"
    );
}

// table.modify(Columns::single(1), Alignment::right())
#[test]
fn a_column_at_the_right() {
    let table = Rows::new(["item", "state"]).row(["oats", "ok"]);
    assert_eq!(
        table.right(["state"]).unwrap().to_string(),
        "\
╭──────┬───────╮
│ item ┆ state │
╞══════╪═══════╡
│ oats ┆    ok │
╰──────┴───────╯
"
    );
}

// table.with(Disable::column(ByColumnName::new("designed_by")))
#[test]
fn without_a_column() {
    let mut table = Rows::new(["name", "designed_by", "invented_year"]);
    table.extend(LANGUAGES[..1].iter().map(|it| (it.name, it.designed_by, it.invented_year)));
    assert_eq!(
        table.columns(["name", "invented_year"]).unwrap().to_string(),
        "\
╭──────┬───────────────╮
│ name ┆ invented_year │
╞══════╪═══════════════╡
│ C    ┆          1972 │
╰──────┴───────────────╯
"
    );
}

// builder.index()
#[test]
fn an_index() {
    let table = Rows::new(["name"]).row(["oats"]).row(["rye"]);
    assert_eq!(
        table.number(true).to_string(),
        "\
╭───┬──────╮
│ # ┆ name │
╞═══╪══════╡
│ 1 ┆ oats │
│ 2 ┆ rye  │
╰───┴──────╯
"
    );
}

// #[tabled(display_with = "..")] on an Option
#[test]
fn options() {
    let stock = [("oats", Some(3)), ("rye", None)];
    let rows = stock.map(|(name, count)| (name, count.map_or("-".to_string(), |it| it.to_string())));
    let mut table = Rows::new(["name", "count"]);
    table.extend(rows);
    assert_eq!(
        table.to_string(),
        "\
╭──────┬───────╮
│ name ┆ count │
╞══════╪═══════╡
│ oats ┆     3 │
│ rye  ┆     - │
╰──────┴───────╯
"
    );
}

// table.modify(Rows::single(1), Color::FG_RED)
#[cfg(feature = "tty")]
#[test]
fn a_row_in_red() {
    use comfy_table_proved::Color;

    let table = Rows::new(["name"]).row(["oats"]).row(["rye"]);
    let painted = table.paint(|row, _, cell| if row == 1 { cell.fg(Color::DarkRed) } else { cell });
    assert_eq!(
        painted.to_string(),
        "\
╭──────╮
│ name │
╞══════╡
│ oats │
│ \u{1b}[38;5;1mrye\u{1b}[0m  │
╰──────╯
"
    );
}

// collecting an iterator
#[test]
fn collected() {
    let table: Rows = ["a b", "c d"].iter().map(|line| line.split(' ').collect::<Vec<&str>>()).collect();
    assert_eq!(
        table.style(Style::Box).to_string(),
        "\
┌───┬───┐
│ a ┆ b │
│ c ┆ d │
└───┴───┘
"
    );
}
