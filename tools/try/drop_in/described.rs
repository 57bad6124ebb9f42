//! Random tables as plain data, so that both libraries can make the same ones.

/// The description of a table.
#[derive(Clone, Debug)]
pub struct Described {
    /// The headers, which are set one after another. The rows are added after them.
    pub headers: Vec<DescribedRow>,
    pub rows: Vec<DescribedRow>,
    /// Cells that are added to rows of the table, with the positions of these rows.
    pub late_cells: Vec<(usize, DescribedCell)>,
    pub discovers_columns: bool,
    /// The settings of the first columns.
    pub columns: Vec<DescribedColumn>,
    pub style: DescribedStyle,
    pub arrangement: usize,
    pub width: Option<u16>,
    pub delimiter: Option<char>,
    pub indicator: Option<&'static str>,
    pub enforces_styling: bool,
    pub styles_text_only: bool,
}

#[derive(Clone, Debug)]
pub struct DescribedRow {
    pub cells: Vec<DescribedCell>,
    pub max_height: Option<usize>,
}

#[derive(Clone, Debug, Default)]
pub struct DescribedCell {
    pub text: String,
    pub delimiter: Option<char>,
    pub alignment: usize,
    /// The number of a colour. `attributes` has numbers of attributes.
    pub foreground: Option<u8>,
    pub background: Option<u8>,
    pub attributes: Vec<usize>,
}

#[derive(Clone, Debug)]
pub struct DescribedColumn {
    pub index: Option<usize>,
    pub padding: Option<(u16, u16)>,
    pub delimiter: Option<char>,
    pub alignment: usize,
    /// The number of a constraint. Odd numbers in `widths` are percentages, and even numbers are terminal columns.
    pub constraint: usize,
    pub widths: (u16, u16),
}

/// A preset, or if there is none, a style of these characters. After it, changes of this style.
#[derive(Clone, Debug)]
pub struct DescribedStyle {
    pub preset: Option<usize>,
    pub characters: [Option<char>; 22],
    pub is_rounded: bool,
    pub is_solid: bool,
}

/// Random numbers from a seed.
pub struct Chance(pub u64);

impl Chance {
    pub fn below(&mut self, count: usize) -> usize {
        self.0 = self.0.wrapping_mul(6364136223846793005).wrapping_add(1442695040888963407);
        (self.0 >> 33) as usize % count
    }

    fn is_one_in(&mut self, count: usize) -> bool {
        self.below(count) == 0
    }

    fn one_of<T: Copy>(&mut self, values: &[T]) -> T {
        values[self.below(values.len())]
    }

    /// Returns a value in one of `count` cases, and `None` in the others.
    fn sometimes<T>(&mut self, count: usize, value: impl FnOnce(&mut Chance) -> T) -> Option<T> {
        self.is_one_in(count).then(|| value(self))
    }
}

/// Characters beyond ASCII that all versions of unicode-width and unicode-segmentation measure and divide in the same way.
pub const UNDISPUTED: &str = "äßéΩжאقกあ年快乐한🍰✅…═│";

const PIECES: [&str; 30] = [
    "a", "word", "two words", "incomprehensibilities", " ", "  ", "\n", "-", "a-b-c", "1,150.00", "äß", "éé", "Ω", "жук", "אב", "กา",
    "年", "年快乐", "한", "🍰", "✅✅", "a年b", "…", "", "=|=", "\n\n", "x y z", "xxxxxxxxxxxx yyyyyyyyyyyy", "aé年🍰", "end ",
];

// Texts that some versions measure or divide differently.
const DISPUTED: [&str; 8] = ["\t", "\r", "👩\u{200d}🚀", "क\u{94d}क", "\u{1b}[31m", "\0", "\u{fe0f}✔", "🇩🇪🇫"];

// Escape sequences. Texts have them only with the feature custom_styling, because then they take no columns.
const SEQUENCES: [&str; 5] = ["\u{1b}[31m", "\u{1b}[1m", "\u{1b}[0m", "\u{1b}[38;5;9m", "\u{1b}[4mlined\u{1b}[0m"];

const DELIMITERS: [char; 6] = ['-', ' ', 'b', '年', ',', '\0'];
const INDICATORS: [&str; 5] = ["...", "", "年", "~", "[cut]"];
const FRAME: [char; 9] = ['-', '=', '|', '+', '│', '┆', '╪', '*', ' '];
const HEIGHTS: [usize; 5] = [0, 1, 2, 3, usize::MAX];
const WIDTHS: [u16; 8] = [0, 1, 5, 10, 20, 50, 100, 65535];

impl Described {
    pub fn of(chance: &mut Chance) -> Described {
        let row_count = chance.below(5);
        let with_disputed = chance.is_one_in(20);
        let mut rows: Vec<DescribedRow> = (0..row_count).map(|_| DescribedRow::of(chance, with_disputed)).collect();
        let header_count = chance.one_of(&[0, 1, 1, 1, 1, 2]);
        let headers = rows_of(chance, header_count, with_disputed);
        if chance.is_one_in(8) {
            rows.iter_mut().for_each(|row| row.cells.truncate(1));
        }
        let mut late_cells = Vec::new();
        if row_count > 0 && chance.is_one_in(12) {
            late_cells = (0..1 + chance.below(3)).map(|_| (chance.below(row_count), DescribedCell::of(chance, false))).collect();
        }
        let column_count = chance.below(6);
        Described {
            headers,
            rows,
            late_cells,
            discovers_columns: chance.is_one_in(3),
            columns: (0..column_count).map(|_| DescribedColumn::of(chance)).collect(),
            style: DescribedStyle::of(chance),
            arrangement: chance.below(3),
            width: chance.sometimes(2, |chance| chance.below(100) as u16),
            delimiter: chance.sometimes(8, |chance| chance.one_of(&DELIMITERS)),
            indicator: chance.sometimes(6, |chance| chance.one_of(&INDICATORS)),
            enforces_styling: chance.is_one_in(3),
            styles_text_only: chance.is_one_in(3),
        }
    }

    /// Returns the number of columns of the table.
    pub fn column_count(&self) -> usize {
        let added = self.headers.iter().chain(&self.rows).map(|row| row.cells.len()).max().unwrap_or(0);
        let discovered = if self.discovers_columns { (0..self.rows.len()).map(|row| self.cells_in(row)).max() } else { None };
        added.max(discovered.unwrap_or(0))
    }

    /// Returns the number of cells of a row, including late ones.
    pub fn cells_in(&self, row: usize) -> usize {
        self.rows[row].cells.len() + self.late_cells.iter().filter(|(at, _)| *at == row).count()
    }

    /// Returns a table of one cell, which writes colours and attributes as this one does.
    pub fn with_cell_alone(&self, cell: DescribedCell) -> Described {
        let style = DescribedStyle { preset: Some(0), characters: [None; 22], is_rounded: false, is_solid: false };
        Described {
            headers: Vec::new(),
            rows: vec![DescribedRow { cells: vec![cell], max_height: None }],
            late_cells: Vec::new(),
            discovers_columns: false,
            columns: Vec::new(),
            style,
            arrangement: 0,
            width: None,
            delimiter: None,
            indicator: None,
            enforces_styling: self.enforces_styling,
            styles_text_only: self.styles_text_only,
        }
    }

    pub fn cells(&self) -> impl Iterator<Item = &DescribedCell> {
        let cells = self.headers.iter().chain(&self.rows).flat_map(|row| &row.cells);
        cells.chain(self.late_cells.iter().map(|(_, cell)| cell))
    }

    pub fn cells_mut(&mut self) -> impl Iterator<Item = &mut DescribedCell> {
        let cells = self.headers.iter_mut().chain(&mut self.rows).flat_map(|row| &mut row.cells);
        cells.chain(self.late_cells.iter_mut().map(|(_, cell)| cell))
    }

    pub fn texts_mut(&mut self) -> impl Iterator<Item = &mut String> {
        self.cells_mut().map(|cell| &mut cell.text)
    }
}

fn rows_of(chance: &mut Chance, count: usize, with_disputed: bool) -> Vec<DescribedRow> {
    (0..count).map(|_| DescribedRow::of(chance, with_disputed)).collect()
}

impl DescribedRow {
    fn of(chance: &mut Chance, with_disputed: bool) -> DescribedRow {
        let count = chance.below(6);
        DescribedRow {
            cells: (0..count).map(|_| DescribedCell::of(chance, with_disputed)).collect(),
            max_height: chance.sometimes(5, |chance| chance.one_of(&HEIGHTS)),
        }
    }
}

impl DescribedCell {
    fn of(chance: &mut Chance, with_disputed: bool) -> DescribedCell {
        let mut text = String::new();
        for _ in 0..chance.below(6) {
            text += chance.one_of(&PIECES);
            if with_disputed && chance.is_one_in(4) {
                text += chance.one_of(&DISPUTED);
            }
            if cfg!(feature = "custom_styling") && chance.is_one_in(4) {
                text += chance.one_of(&SEQUENCES);
            }
        }
        let attribute_count = chance.one_of(&[0, 0, 0, 1, 2, 5]);
        DescribedCell {
            text,
            delimiter: chance.sometimes(12, |chance| chance.one_of(&DELIMITERS)),
            alignment: chance.below(12),
            foreground: chance.sometimes(3, |chance| chance.below(256) as u8),
            background: chance.sometimes(6, |chance| chance.below(256) as u8),
            attributes: (0..attribute_count).map(|_| chance.below(28)).collect(),
        }
    }
}

impl DescribedColumn {
    fn of(chance: &mut Chance) -> DescribedColumn {
        let width = |chance: &mut Chance| if chance.is_one_in(6) { chance.one_of(&WIDTHS) } else { chance.below(30) as u16 };
        DescribedColumn {
            index: chance.sometimes(60, |chance| chance.below(7)),
            padding: match chance.below(400) {
                0 => Some((65535, chance.one_of(&[0, 1, 65535]))),
                1..60 => Some((chance.below(4) as u16, chance.below(4) as u16)),
                _ => None,
            },
            delimiter: chance.sometimes(12, |chance| chance.one_of(&DELIMITERS)),
            alignment: chance.below(8),
            constraint: chance.below(14),
            widths: (width(chance), width(chance)),
        }
    }
}

impl DescribedStyle {
    /// Returns true if a line of the style has a junction. Of the presets, only the last one has no junction.
    pub fn has_junctions(&self) -> bool {
        let own = [2, 5, 9, 12, 16, 20].iter().any(|at| self.characters[*at].is_some());
        self.is_solid || self.preset.map_or(own, |number| number < 12)
    }

    fn of(chance: &mut Chance) -> DescribedStyle {
        let preset = if chance.is_one_in(4) { None } else { Some(chance.below(13)) };
        let density = chance.one_of(&[1, 2, 4, 20]);
        DescribedStyle {
            preset,
            characters: std::array::from_fn(|_| chance.sometimes(density, |chance| chance.one_of(&FRAME))),
            is_rounded: chance.is_one_in(6),
            is_solid: chance.is_one_in(6),
        }
    }
}
