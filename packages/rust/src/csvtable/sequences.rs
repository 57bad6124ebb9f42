//! Colours and attributes written as escape sequences (SGR).

use crate::cell::Cell;
use crate::style::Color;

// The SGR parameter of each attribute, in the order of the enum `Attribute`.
const PARAMETERS: [&str; 28] = [
    "0", "1", "2", "3", "4", "4:2", "4:3", "4:4", "4:5", "5", "6", "7", "8", "9", "20", "21", "22", "23", "24", "25", "27", "28",
    "29", "51", "52", "53", "54", "55",
];

/// Returns the text, with the sequence for the cell's colours and attributes before it, and the sequence that ends them after it.
/// The text is returned alone if the cell has no colour and no attribute.
pub fn between_sequences(cell: &Cell, text: &str) -> String {
    let foreground = cell.foreground.map(|color| of_color(color, 30));
    let background = cell.background.map(|color| of_color(color, 40));
    let attributes = cell.attributes.iter().map(|attribute| PARAMETERS[*attribute as usize].into());
    let parameters: Vec<String> = background.into_iter().chain(foreground).chain(attributes).collect();
    if parameters.is_empty() { text.into() } else { format!("\x1b[{}m{text}\x1b[0m", parameters.join(";")) }
}

// The SGR parameters of a colour. `ground` is 30 for the text, and 40 for the background.
fn of_color(color: Color, ground: u8) -> String {
    let (set, reset) = (ground + 8, ground + 9);
    match (color, color.number()) {
        (Color::Rgb { r, g, b }, _) => format!("{set};2;{r};{g};{b}"),
        (_, Some(number)) => format!("{set};5;{number}"),
        (_, None) => reset.to_string(),
    }
}
