use std::fmt;
use std::hash::{Hash, Hasher};
use std::ops::Deref;
use std::sync::Arc;

use crate::cell::Cell;

// The texts of a row are joined if it has at least this number of cells. With fewer cells, joining takes more time than it saves.
const JOINED: usize = 5;

/// The text of a cell. `Own` is a string for this cell alone. `Part` is the range of bytes from `start` to `end` in a longer text,
/// which joins the texts of all cells of a row.
#[derive(Clone)]
pub enum Text {
    Own(String),
    Part { texts: Arc<str>, start: usize, end: usize },
}

impl Text {
    /// Returns the number of bytes of the text.
    pub fn len(&self) -> usize {
        match self {
            Text::Own(text) => text.len(),
            Text::Part { start, end, .. } => end - start,
        }
    }
}

impl Deref for Text {
    type Target = str;

    fn deref(&self) -> &str {
        match self {
            Text::Own(text) => text,
            Text::Part { texts, start, end } => &texts[*start..*end],
        }
    }
}

impl PartialEq for Text {
    fn eq(&self, other: &Text) -> bool {
        **self == **other
    }
}

impl Eq for Text {}

impl Hash for Text {
    fn hash<H: Hasher>(&self, state: &mut H) {
        (**self).hash(state);
    }
}

impl fmt::Debug for Text {
    fn fmt(&self, formatter: &mut fmt::Formatter<'_>) -> fmt::Result {
        (**self).fmt(formatter)
    }
}

/// Moves the texts of a row's cells into one allocation, if the row has at least `JOINED` cells. One allocation is made and freed
/// faster than one for each cell. The allocations that this call frees can serve for the texts of the next row.
pub fn join(cells: &mut [Cell]) {
    if cells.len() < JOINED {
        return;
    }
    let mut texts = String::with_capacity(cells.iter().map(|cell| cell.text.len()).sum());
    for cell in &*cells {
        texts.push_str(&cell.text);
    }
    let texts: Arc<str> = texts.into();
    let mut start = 0;
    for cell in cells {
        let end = start + cell.text.len();
        cell.text = Text::Part { texts: Arc::clone(&texts), start, end };
        start = end;
    }
}

/// Appends the texts of `cells` to `joined`, in the order of the cells.
pub fn push_all(joined: &mut String, cells: &[Cell]) {
    match joined_in(cells) {
        Some(texts) => joined.push_str(texts),
        None => cells.iter().for_each(|cell| joined.push_str(&cell.text)),
    }
}

// The joined text of these cells, if their texts were joined and no cell was added or changed after that.
fn joined_in(cells: &[Cell]) -> Option<&str> {
    let Text::Part { texts, .. } = &cells.first()?.text else {
        return None;
    };
    let mut reached = 0;
    for cell in cells {
        match &cell.text {
            Text::Part { texts: own, start, end } if Arc::ptr_eq(own, texts) && *start == reached => reached = *end,
            _ => return None,
        }
    }
    (reached == texts.len()).then_some(texts)
}
