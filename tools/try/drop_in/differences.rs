//! The rows of docs/DIFFERENCES.md that can explain a difference between two drawings.

use crate::described::{Described, DescribedCell, UNDISPUTED};
use crate::shown::{Shown, Style, may_be_shown, shown_from, visible};
use crate::{Drawing, original, proved};
use std::panic::catch_unwind;

/// A row of docs/DIFFERENCES.md. `applies_to` is true for tables with the difference. `remedy` changes such a table so that it has
/// no difference. The original has to draw the changed table as the package draws the unchanged table. If `changes` is `Both`, the
/// package draws the changed table too.
struct Row {
    name: &'static str,
    applies_to: fn(&Described) -> bool,
    remedy: fn(&mut Described),
    changes: Changes,
}

#[derive(PartialEq)]
enum Changes {
    Original,
    Both,
    /// `without_junctions` changes the drawing of the original.
    Lines,
    /// The characters of both drawings and their styles are compared, and not the sequences. The styles of white space aren't
    /// compared.
    Sequences,
    /// As `Original`, but only characters are compared. Each character of the package's drawing has to have a style that a cell's
    /// text has.
    Breaks,
}

const CLAIMS_NOTHING: &str =
    "a dynamic arrangement claims 0 for a column without content, or of delimiters alone, and stores 1, so a table passes its width";

const ROWS: [Row; 9] = [
    Row {
        name: "a row with cells that no column knows indexes out of range",
        applies_to: |it| (0..it.rows.len()).any(|row| it.cells_in(row) > it.column_count()),
        remedy: |it| {
            let count = it.column_count();
            let mut cells: Vec<usize> = it.rows.iter().map(|row| row.cells.len()).collect();
            it.late_cells.retain(|(row, _)| {
                cells[*row] += 1;
                cells[*row] <= count
            });
        },
        changes: Changes::Original,
    },
    Row {
        name: "a column's position is its public field `index`",
        applies_to: |it| it.columns.iter().any(|column| column.index.is_some()),
        remedy: |it| it.columns.iter_mut().for_each(|column| column.index = None),
        changes: Changes::Original,
    },
    Row {
        name: CLAIMS_NOTHING,
        applies_to: |it| it.arrangement > 0 && it.headers.last().is_some_and(|header| header.cells.len() < it.column_count()),
        remedy: |it| {
            let count = it.column_count();
            it.headers.last_mut().expect("a header").cells.resize_with(count, Default::default);
        },
        changes: Changes::Original,
    },
    Row {
        name: CLAIMS_NOTHING,
        applies_to: |it| it.arrangement > 0 && has_delimiters_alone(it),
        remedy: without_delimiters_alone,
        changes: Changes::Both,
    },
    Row {
        name: "without vertical lines, top and bottom border still have junctions, and are wider than the rows",
        applies_to: |it| !it.style.has_junctions(),
        remedy: |_| (),
        changes: Changes::Lines,
    },
    Row {
        name: "`ColumnDisplayInfo::width` stops at 65535, and sums in `u16` can overflow",
        applies_to: |it| it.columns.iter().any(has_more_than_65535),
        remedy: |it| it.columns.iter_mut().filter(|column| has_more_than_65535(column)).for_each(|column| column.padding = None),
        changes: Changes::Both,
    },
    Row {
        name: "texts are measured as by `unicode-width` 0.2.3 and divided as by Unicode 18",
        applies_to: |it| it.clone().texts_mut().any(|text| text.chars().any(is_disputed)),
        remedy: |it| it.texts_mut().for_each(|text| *text = text.chars().map(|it| if is_disputed(it) { 'x' } else { it }).collect()),
        changes: Changes::Both,
    },
    Row {
        name: "with `custom_styling`, a line's sequences end with its last visible character",
        applies_to: has_sequences,
        remedy: |_| (),
        changes: Changes::Sequences,
    },
    Row {
        name: "with `custom_styling`, what is visible decides where lines break, and a cut line loses its sequences",
        applies_to: has_sequences,
        remedy: |it| it.texts_mut().for_each(|text| *text = visible(text)),
        changes: Changes::Breaks,
    },
];

fn has_more_than_65535(column: &crate::described::DescribedColumn) -> bool {
    column.padding.is_some_and(|(left, right)| left == u16::MAX || right == u16::MAX)
}

// Removes the delimiters from each line in which nothing else is visible. For a cell without a delimiter, the delimiters of all
// columns count.
fn without_delimiters_alone(described: &mut Described) {
    let columns = described.columns.iter().map(|column| column.delimiter);
    let shared: Vec<char> = columns.chain([described.delimiter, Some(' ')]).flatten().collect();
    for cell in described.cells_mut() {
        let delimiters = cell.delimiter.map_or(shared.clone(), |delimiter| vec![delimiter]);
        let is_alone = |line: &str| visible(line).chars().all(|it| delimiters.contains(&it));
        let shown = |line: &str| if is_alone(line) { line.replace(&delimiters[..], "") } else { line.to_owned() };
        cell.text = cell.text.split('\n').map(shown).collect::<Vec<String>>().join("\n");
    }
}

fn has_delimiters_alone(described: &Described) -> bool {
    let (mut given, mut without) = (described.clone(), described.clone());
    without_delimiters_alone(&mut without);
    !given.texts_mut().eq(without.texts_mut())
}

fn has_sequences(described: &Described) -> bool {
    cfg!(feature = "custom_styling") && described.clone().texts_mut().any(|text| text.contains("\u{1b}["))
}

fn is_disputed(character: char) -> bool {
    let is_of_sequence = cfg!(feature = "custom_styling") && character == '\u{1b}';
    !(' '..='~').contains(&character) && character != '\n' && !is_of_sequence && !UNDISPUTED.contains(character)
}

/// Returns the name of the row that explains the difference between both libraries for a table. If there is no difference, or if
/// several rows explain it together, the returned words say so. If no rows explain it, the result is `None`.
pub fn between(described: &Described) -> Option<&'static str> {
    // With `custom_styling` the original closes and resumes sequences in the text of a cell.
    let text = if cfg!(feature = "custom_styling") { visible } else { str::to_owned };
    if original::readings(described, text) != proved::readings(described, text) {
        return None;
    }
    let rows: Vec<&Row> = ROWS.iter().filter(|row| (row.applies_to)(described)).collect();
    if are_explained(described, &[]) {
        return Some("the same");
    }
    if let Some(row) = rows.iter().find(|row| are_explained(described, &[row])) {
        return Some(row.name);
    }
    // Tries all rows first, and then fewer. A row may apply to a thing that another row's remedy removes.
    let some = |bits: usize| rows.iter().enumerate().filter(|(at, _)| bits >> at & 1 == 1).map(|(_, row)| *row).collect::<Vec<&Row>>();
    let are_several = (0..1 << rows.len()).rev().any(|bits| are_explained(described, &some(bits)));
    are_several.then_some("several of these rows")
}

fn are_explained(described: &Described, rows: &[&Row]) -> bool {
    let (mut ours, mut theirs) = (described.clone(), described.clone());
    for row in rows {
        (row.remedy)(&mut theirs);
        if row.changes == Changes::Both {
            (row.remedy)(&mut ours);
        }
    }
    let mut drawing = proved::drawing(&ours);
    let Ok(mut original) = catch_unwind(|| original::drawing(&theirs)) else {
        return false;
    };
    if rows.iter().any(|row| row.changes == Changes::Lines) {
        original = without_junctions(original, &drawing);
    }
    let mut are_styled = true;
    if rows.iter().any(|row| row.changes == Changes::Breaks) {
        are_styled = are_styled_as(&ours, &drawing);
        drawing = drawing.without_sequences();
        original = original.without_sequences();
    } else if rows.iter().any(|row| row.changes == Changes::Sequences) {
        are_styled = drawing.shown() == original.shown();
        drawing = drawing.without_sequences();
        original = original.without_sequences();
    }
    are_styled && drawing == original && widths_are_explained(described, rows)
}

// True if each character of a drawing has a style that a cell's text can give it, or belongs to the frame or to an indicator.
fn are_styled_as(described: &Described, drawing: &Drawing) -> bool {
    let is_cut = described.headers.iter().chain(&described.rows).any(|row| row.max_height.is_some());
    let cells: Vec<&DescribedCell> = described.cells().collect();
    let styles: Vec<Style> = cells.iter().map(|cell| own_style(described, cell)).collect();
    let allowed: Vec<Shown> = cells.iter().zip(&styles).flat_map(|(cell, own)| may_be_shown(own, &cell.text, is_cut)).collect();
    let plain = Style::default();
    drawing.shown().iter().all(|it| {
        let (character, style) = it;
        let is_of_frame = !character.is_alphanumeric() && *style == plain;
        let is_of_indicator = described.indicator.unwrap_or("…").contains(*character) && (styles.contains(style) || *style == plain);
        is_of_frame || is_of_indicator || allowed.contains(it)
    })
}

// Returns the style that the original gives a cell's text without sequences.
fn own_style(described: &Described, cell: &DescribedCell) -> Style {
    let cell = DescribedCell { text: "x".into(), alignment: usize::MAX, delimiter: None, ..cell.clone() };
    let shown = original::drawing(&described.with_cell_alone(cell)).shown();
    shown.into_iter().find(|(character, _)| *character == 'x').expect("an x is drawn").1
}

// True if both libraries return the same widths of contents. Rows that add cells to the original's table only aren't applied here,
// because an empty cell has a width, and a missing cell has none.
fn widths_are_explained(described: &Described, rows: &[&Row]) -> bool {
    let (mut ours, mut theirs) = (described.clone(), described.clone());
    for row in rows {
        if row.changes == Changes::Both {
            (row.remedy)(&mut ours);
            (row.remedy)(&mut theirs);
        }
    }
    let widths = proved::widths(&ours);
    match catch_unwind(|| original::widths(&theirs)) {
        Ok(original) => widths == original,
        Err(_) => {
            (ROWS[0].remedy)(&mut theirs);
            rows.iter().any(|row| row.name == ROWS[0].name) && catch_unwind(|| original::widths(&theirs)).is_ok_and(|it| it == widths)
        }
    }
}

impl Drawing {
    fn shown(&self) -> Vec<Shown> {
        let texts = [&self.text, &self.trimmed, &self.lines.join("\n")];
        texts.into_iter().flat_map(|text| shown_from(&Style::default(), text)).collect()
    }

    // Trimmed lines are compared without sequences, because a space may come before a sequence.
    fn without_sequences(self) -> Drawing {
        let trimmed: Vec<String> = self.trimmed.split('\n').map(|line| visible(line).trim_end().into()).collect();
        Drawing { text: visible(&self.text), trimmed: trimmed.join("\n"), lines: self.lines.iter().map(|it| visible(it)).collect() }
    }
}

// Returns the original's drawing. Its first and last line are replaced by those of the package, if the latter only lack some
// spaces.
fn without_junctions(mut original: Drawing, drawing: &Drawing) -> Drawing {
    if original.lines.len() != drawing.lines.len() {
        return original;
    }
    let last = original.lines.len().saturating_sub(1);
    for (at, (line, ours)) in original.lines.iter_mut().zip(&drawing.lines).enumerate() {
        if (at == 0 || at == last) && lacks_spaces(ours, line) {
            line.clone_from(ours);
        }
    }
    original.text = original.lines.join("\n");
    original.trimmed = original.lines.iter().map(|line| line.trim_end()).collect::<Vec<&str>>().join("\n");
    original
}

// True if `line` is `other` without some of its spaces.
fn lacks_spaces(line: &str, other: &str) -> bool {
    let mut left = line.chars().peekable();
    let are_spaces = other.chars().all(|character| left.next_if_eq(&character).is_some() || character == ' ');
    are_spaces && left.next().is_none()
}
