//! Text that people and other programs write, and how it is shown to them.

use std::fmt::{self, Write};

/// What stands between words, and about a line.
pub(crate) const BLANKS: [char; 3] = [' ', '\t', '\r'];

pub(crate) fn trim(text: &str) -> &str {
    text.trim_matches(BLANKS)
}

/// The lines that say something, each with its number, from 1, and without the blanks about it. A byte-order mark before
/// the first is passed over.
pub(crate) fn lines(text: &str) -> impl Iterator<Item = (usize, &str)> {
    let text = text.strip_prefix('\u{feff}').unwrap_or(text);
    (1..).zip(text.lines().map(trim)).filter(|(_, text)| !text.is_empty())
}

/// The most characters of a word that are shown.
const SHOWN: usize = 40;

/// A word in a message: characters that cannot be seen are shown by their names, and of a long word its beginning.
pub(crate) struct Shown<'a>(pub &'a str);

impl fmt::Display for Shown<'_> {
    fn fmt(&self, f: &mut fmt::Formatter<'_>) -> fmt::Result {
        for letter in self.0.chars().take(SHOWN) {
            match letter {
                '\'' | '"' => f.write_char(letter)?,
                _ => write!(f, "{}", letter.escape_debug())?,
            }
        }
        f.write_str(if self.0.chars().nth(SHOWN).is_some() { ".." } else { "" })
    }
}
