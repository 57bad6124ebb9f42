//! Tests of `Rows`. Expected drawings are typed by hand. If the variable CSVTABLE is set, it is the path of the program csvtable.
//! Then random rows have to be drawn as that program draws them. For the program, the rows are written as CSV with few quotes.
use comfy_table_proved::csvtable::{Error, Expanded, Rows, Style, draw_csv};
use comfy_table_proved::presets;
use std::io::Write;
use std::process::{Command, Stdio};

#[test]
fn rows_below_a_header() {
    let rows = Rows::new(["name", "price"]).row(["oats", "3"]).row(["rye", "-12.5"]).row(["new\nline"]);
    let wanted = "\
╭──────┬───────╮
│ name ┆ price │
╞══════╪═══════╡
│ oats ┆   3   │
├╌╌╌╌╌╌┼╌╌╌╌╌╌╌┤
│ rye  ┆ -12.5 │
├╌╌╌╌╌╌┼╌╌╌╌╌╌╌┤
│ new  ┆       │
│ line ┆       │
╰──────┴───────╯
";
    assert_eq!(rows.to_string(), wanted);
}

#[test]
fn columns_are_chosen_and_aligned() {
    let rows = Rows::new(["a", "b", "c"]).row(["x", "long", "1"]);
    let wanted = "\
┌───┬───┬──────┐
│ c ┆ a ┆    b │
╞═══╪═══╪══════╡
│ 1 ┆ x ┆ long │
└───┴───┴──────┘
";
    assert_eq!(rows.columns([2, 0, 1]).unwrap().left(["c"]).unwrap().right([1]).unwrap().style(Style::Box).to_string(), wanted);
}

#[test]
fn width_height_and_limit() {
    let rows = Rows::without_header().row(["oats"]).row(["rye"]);
    assert_eq!(
        rows.width(12).full(true).limit(1).style(Style::Box).to_string(),
        "\
┌──────────┐
│ oats     │
└──────────┘
1 of 2 rows
"
    );
    let sided = Rows::new(["a"]).row(["x"]).row(["y", "5", "7"]).right([2]).unwrap().limit(1).style(Style::Box);
    assert_eq!(
        sided.to_string(),
        "\
┌───┐
│ a │
╞═══╡
│ x │
└───┘
1 of 2 rows
"
    );
    let cut = Rows::without_header().row(["a\nb\nlong text"]).row(["c"]).max_height(2).row_lines(false);
    assert_eq!(
        cut.to_string(),
        "\
╭───────────╮
│ a         │
│ b…        │
│ c         │
╰───────────╯
"
    );
    assert_eq!(
        Rows::new(["a"]).row(["b"]).row(["c"]).row_lines(true).to_string(),
        "\
╭───╮
│ a │
╞═══╡
│ b │
├╌╌╌┤
│ c │
╰───╯
"
    );
}

#[test]
fn markdown_records_and_bold() {
    let rows = Rows::new(["x", "y"]).row(["a|b", "1"]);
    let drawing = "| x    | y |\n|------|--:|\n| a\\|b | 1 |\n";
    assert_eq!(rows.clone().style(Style::Markdown).to_string(), drawing);
    assert_eq!(
        rows.clone().expanded(Expanded::Always).style(Style::Box).to_string(),
        "\
row 1 of 1
┌───┬─────┐
│ x ┆ a|b │
│ y ┆ 1   │
└───┴─────┘
"
    );
    assert!(rows.bold_header(true).to_string().contains("\x1b[1m"));
}

#[test]
fn no_text_is_taken_for_the_form_of_a_file() {
    let rows = Rows::without_header()
        .row(["\u{feff}id", "sep=;"])
        .row(["sep=;", "\""])
        .row([""; 0])
        .row(["a\tb", "x\",\"y"])
        .row(["\x1b[31m\0", "\u{202e}"]);
    assert_eq!(
        rows.to_string(),
        "\
╭────────┬───────╮
│ \u{feff}id     ┆ sep=; │
│ sep=;  ┆ \"     │
│        ┆       │
│ a   b  ┆ x\",\"y │
│ \u{fffd}[31m\u{fffd} ┆ \u{fffd}     │
╰────────┴───────╯
"
    );
    assert_eq!(Rows::without_header().draw(), Ok(String::new()));
}

#[test]
fn errors() {
    let rows = Rows::new(["a", "b", "a"]).row([1, 2, 3]);
    assert_eq!(rows.clone().right(["c"]).unwrap_err(), Error::NoColumn("c".into()));
    assert_eq!(rows.clone().right([3]).unwrap_err(), Error::NoColumn("3".into()));
    assert_eq!(rows.clone().left(["a"]).unwrap_err(), Error::AmbiguousColumn("a".into()));
    assert_eq!(rows.left(["b"]).unwrap().right([1]).unwrap_err(), Error::TwoSides(1));
    let reported = "csvtable: list.csv: a quote that opens in line 1 is never closed; try --no-quotes";
    assert_eq!(draw_csv("a,\"b\n", &["list.csv"]).unwrap_err().to_string(), reported);
    assert_eq!(draw_csv([0xff], &["-e", "cp1252", "-n", "-s", "ascii"]).unwrap(), "+---+\n| ÿ |\n+---+\n");
    assert!(matches!(draw_csv("a\n", &["-s", "odd"]), Err(Error::Arguments(_))));
}

#[test]
fn rows_of_many_forms() {
    let mut rows = Rows::new(("name", 2024));
    rows.push(("oats", 3.5));
    rows.extend([vec!["rye".to_string(), "12".into()]]);
    rows.push(&["barley", "7"][..]);
    assert_eq!(rows.len(), 3);
    assert_eq!(
        rows.style(Style::Ascii).row_lines(false).to_string(),
        "\
+--------+------+
| name   | 2024 |
+===============+
| oats   |  3.5 |
| rye    | 12   |
| barley |  7   |
+--------+------+
"
    );
    let collected: Rows = [(1, "a"), (2, "b")].into_iter().collect();
    assert_eq!(collected.style(Style::Plain).to_string(), " 1  a \n 2  b \n");
    assert!(Rows::new(["a"]).is_empty());
}

#[cfg(feature = "tty")]
#[test]
fn painted_cells() {
    use comfy_table_proved::{Attribute, Color};

    let rows = Rows::new(["a", "1"]).row((-1, "\x1b"));
    let painted = rows.style(Style::Ascii).paint(|row, column, cell| {
        assert_eq!((row, [-1, 0][column]), (0, cell.content().parse().unwrap_or(0)));
        if column == 0 { cell.fg(Color::Red).bg(Color::Reset).add_attribute(Attribute::DoubleUnderlined) } else { cell }
    });
    let wanted = "+----+---+\n|  a | 1 |\n+========+\n| \x1b[49;38;5;9;4:2m-1\x1b[0m | \u{fffd} |\n+----+---+\n";
    assert_eq!(painted.to_string(), wanted);
    let markdown = painted.style(Style::Markdown).columns(["1", "a"]).unwrap().to_string();
    assert_eq!(markdown, "| 1 |  a |\n|---|---:|\n| \u{fffd} | -1 |\n");
}

#[test]
fn presets_are_frames() {
    let rows = Rows::without_header().row(["a"]);
    let frame = |style| rows.clone().style(Style::of_preset(style).unwrap()).to_string();
    assert_eq!(frame(presets::UTF8_FULL), "┌───┐\n│ a │\n└───┘\n");
    assert_eq!(frame(presets::NOTHING), " a \n");
    assert_eq!(Style::of_preset(presets::UTF8_FULL.with_rounded_corners()), None);
}

#[cfg(feature = "tty")]
#[test]
fn widths_of_terminals() {
    let lines = Rows::without_header().row(["x"]).terminal_width().full(true).to_string();
    assert!(lines.lines().all(|line| line.chars().count() > 1));
}

#[test]
fn a_drawing_that_is_much_longer_than_its_text() {
    let drawing = Rows::without_header().row(["x"; 10]).width(60_000).full(true).to_string();
    let widths: Vec<usize> = drawing.lines().map(|line| line.chars().count()).collect();
    assert_eq!(widths, [60_000; 3]);
}

const PIECES: [&str; 32] = [
    "word",
    "two words",
    "Ångström",
    "Ελένη",
    "Анна",
    "רות",
    "กมล",
    "王小明",
    "김철수",
    "👨‍👩‍👧",
    "🇩🇪",
    "e\u{301}",
    ",",
    ";",
    "|",
    "\"",
    "'",
    "\t",
    "\n",
    "\r",
    "\r\n",
    "\x1b[31m",
    "\0",
    "\u{9b}",
    "\u{feff}",
    "\u{202e}",
    "sep=;",
    "-",
    "=",
    "12",
    "-3.5",
    "1,150.00",
];

// Random numbers from a seed.
struct Chance(u64);

impl Chance {
    fn below(&mut self, count: usize) -> usize {
        self.0 = self.0.wrapping_mul(6364136223846793005).wrapping_add(1442695040888963407);
        (self.0 >> 33) as usize % count
    }

    fn text(&mut self) -> String {
        (0..self.below(4)).map(|_| PIECES[self.below(PIECES.len())]).collect()
    }
}

// A field as other programs write it into CSV, with quotes if it needs them. A byte-order mark at the beginning needs them too,
// because readers drop it if it is without quotes at the beginning of a file.
fn field(text: &str) -> String {
    let needs_quotes = text.is_empty() || text.starts_with('\u{feff}') || text.contains([',', '"', '\n', '\r']);
    if needs_quotes { format!("\"{}\"", text.replace('"', "\"\"")) } else { text.into() }
}

fn by_csvtable(program: &str, text: &str, words: &[&str]) -> String {
    let mut command = Command::new(program);
    command.args(words).env_remove("COLUMNS").env_remove("NO_COLOR").stdin(Stdio::piped()).stdout(Stdio::piped());
    let mut child = command.spawn().unwrap();
    child.stdin.take().unwrap().write_all(text.as_bytes()).unwrap();
    String::from_utf8(child.wait_with_output().unwrap().stdout).unwrap()
}

#[test]
fn random_rows_are_drawn_as_csvtable_draws_their_csv() {
    let Ok(program) = std::env::var("CSVTABLE") else {
        return;
    };
    for seed in 0..300 {
        let mut chance = Chance(seed);
        let (mut rows, mut text) = (Rows::without_header().width(50), String::new());
        for _ in 0..1 + chance.below(6) {
            let cells: Vec<String> = (0..1 + chance.below(4)).map(|_| chance.text()).collect();
            let fields: Vec<String> = cells.iter().map(|cell| field(cell)).collect();
            text += &(fields.join(",") + "\r\n");
            rows = rows.row(cells);
        }
        let wanted = by_csvtable(&program, &text, &["-d", ",", "-e", "utf-8", "-n", "-w", "50", "--expanded", "never"]);
        assert_eq!(rows.to_string(), wanted, "seed {seed}");
    }
}
