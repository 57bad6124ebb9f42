//! The characters that a terminal shows for a text with SGR sequences, each with its style.

use std::collections::BTreeMap;

/// Colours and attributes, each with its parameters in an SGR sequence. If one is missing, it is the terminal's default.
#[derive(Clone, Debug, Default, PartialEq)]
pub struct Style(BTreeMap<&'static str, String>);

impl Style {
    /// Changes the style by a sequence with these parameters.
    fn apply(&mut self, parameters: &str) {
        let mut words = parameters.split(';');
        while let Some(word) = words.next() {
            match word {
                "38" => self.set("foreground", color(&mut words)),
                "48" => self.set("background", color(&mut words)),
                _ => self.apply_word(word),
            }
        }
    }

    fn apply_word(&mut self, word: &str) {
        let number: u32 = word.split(':').next().unwrap_or_default().parse().unwrap_or_default();
        match number {
            0 => self.0.clear(),
            1 => self.set("bold", word.into()),
            2 => self.set("dim", word.into()),
            3 => self.set("italic", word.into()),
            4 => self.set("underline", word.into()),
            5 | 6 => self.set("blink", word.into()),
            7 => self.set("reverse", word.into()),
            8 => self.set("hidden", word.into()),
            9 => self.set("crossed out", word.into()),
            20 => self.set("fraktur", word.into()),
            21 => self.end(&["bold"]),
            22 => self.end(&["bold", "dim"]),
            23 => self.end(&["italic", "fraktur"]),
            24 => self.end(&["underline"]),
            25 => self.end(&["blink"]),
            27 => self.end(&["reverse"]),
            28 => self.end(&["hidden"]),
            29 => self.end(&["crossed out"]),
            30..=37 | 90..=97 => self.set("foreground", word.into()),
            39 => self.end(&["foreground"]),
            40..=47 | 100..=107 => self.set("background", word.into()),
            49 => self.end(&["background"]),
            51 | 52 => self.set("frame", word.into()),
            53 => self.set("overline", word.into()),
            54 => self.end(&["frame"]),
            55 => self.end(&["overline"]),
            _ => panic!("no SGR sequence of these libraries has {word}"),
        }
    }

    fn set(&mut self, changed: &'static str, parameters: String) {
        self.0.insert(changed, parameters);
    }

    fn end(&mut self, changed: &[&'static str]) {
        self.0.retain(|it, _| !changed.contains(it));
    }
}

// Returns the parameters of a colour after 38 or 48. They are a number below 256, or red, green and blue.
fn color<'a>(words: &mut impl Iterator<Item = &'a str>) -> String {
    let kind = words.next().unwrap_or_default();
    let count = if kind == "2" { 3 } else { 1 };
    [kind].into_iter().chain(words.take(count)).collect::<Vec<&str>>().join(";")
}

/// A character and its style.
pub type Shown = (char, Style);

/// Returns the characters of a text that begins in a style, without white space.
pub fn shown_from(first: &Style, text: &str) -> Vec<Shown> {
    let mut style = first.clone();
    let mut shown = Vec::new();
    each_part(text, |parameters, visible| {
        parameters.into_iter().for_each(|it| style.apply(it));
        shown.extend(characters(visible).map(|character| (character, style.clone())));
    });
    shown
}

/// Returns the characters that a drawing may show for a cell's text, with their styles. `own` is the style of the cell. Each line
/// begins in this style, changed by the sequences since the last reset. If a greatest height cuts a line, the line has no
/// sequences.
pub fn may_be_shown(own: &Style, text: &str, is_cut: bool) -> Vec<Shown> {
    let mut allowed = shown_from(own, text);
    let mut resumed = own.clone();
    each_part(text, |parameters, visible| {
        match parameters {
            Some("0") => resumed = own.clone(),
            Some(parameters) => resumed.apply(parameters),
            None => (),
        }
        allowed.extend(characters(visible).map(|character| (character, resumed.clone())));
    });
    if is_cut {
        allowed.extend(characters(&visible(text)).map(|character| (character, own.clone())));
    }
    allowed
}

fn characters(text: &str) -> impl Iterator<Item = char> {
    text.chars().filter(|character| !character.is_whitespace())
}

/// Returns a text without its SGR sequences.
pub fn visible(text: &str) -> String {
    let mut joined = String::new();
    each_part(text, |_, visible| joined += visible);
    joined
}

// Calls a function for each sequence, with its parameters and the text up to the next sequence. The text before the first sequence
// comes first, without parameters.
fn each_part<'a>(text: &'a str, mut call: impl FnMut(Option<&'a str>, &'a str)) {
    let mut parts = text.split("\u{1b}[");
    call(None, parts.next().unwrap_or_default());
    for part in parts {
        let rest = part.trim_start_matches(|it: char| it.is_ascii_digit() || it == ';' || it == ':');
        match rest.strip_prefix('m') {
            Some(visible) => call(Some(&part[..part.len() - rest.len()]), visible),
            None => call(None, part),
        }
    }
}
