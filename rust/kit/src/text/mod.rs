//! Text cards: one statement a line, read and written.
use crate::files::plain;

mod draft;
mod parse;
mod statement;
mod tokens;
mod write;

pub use parse::{names_of, parse, Parsed};
pub use write::{as_bytes, as_formulas, as_nodes};

/// A mistake in a text: where it is, counted from 1, and what it is.
#[derive(Clone, Debug, PartialEq, Eq)]
pub struct Mistake {
    pub line: usize,
    pub column: usize,
    pub width: usize,
    pub words: String,
}

/// Letters of a line that are shown, and how many of them before what is wrong.
const SHOWN: usize = 120;
const BEFORE: usize = 80;

impl Mistake {
    /// As `FILE:7:12: words`, with the line, or its part around what is wrong, and carets under that.
    pub fn told(&self, file: &str, text: &str) -> String {
        let Mistake { line, column, width, words } = self;
        let whole: Vec<char> = plain(text.lines().nth(line - 1).unwrap_or("")).chars().collect();
        let from = (column - 1).saturating_sub(BEFORE);
        let shown: String = whole[from..].iter().take(SHOWN).collect();
        let before = whole[from..].iter().take(column - 1 - from);
        let under: String = before.map(|&c| if c == '\t' { '\t' } else { ' ' }).collect();
        let carets = "^".repeat((*width).clamp(1, SHOWN - (column - 1 - from)));
        format!("{file}:{line}:{column}: {words}\n{shown}\n{under}{carets}\n")
    }
}
