//! What is told of a card: at length, on one line, or as JSON.
use crate::fields::hex;
use crate::json::{object, Json};
use crate::names::Names;
use crate::paint::Paint;
use crate::why::{Why, Wrong};
use kit_planner::Refusal;

/// An answer, told in every form, with the sheet where there is one.
pub struct Told {
    pub long: String,
    pub line: String,
    pub json: Json,
    pub tally: Tally,
    pub sheet: Option<Vec<u8>>,
}

/// How it counts in a summary.
#[derive(Clone, Copy, PartialEq, Eq)]
pub enum Tally {
    Good,
    Refused(u8),
    Error,
}

impl Tally {
    pub fn status(self) -> u8 {
        match self {
            Tally::Good => 0,
            Tally::Refused(_) => 1,
            Tally::Error => 2,
        }
    }
}

/// What telling goes by.
#[derive(Clone, Copy)]
pub struct Manner<'a> {
    pub names: &'a Names,
    pub paint: Paint,
}

/// `refused 6 at node 3, byte 26`
pub fn refused(refusal: Refusal, why: &Why, of: &str) -> String {
    let place = match refusal.place.word() {
        (word, Some(i)) => format!("{word} {i}"),
        (word, None) => format!("the {word}"),
    };
    let whose = if of == "card" { "" } else { " of the sheet" };
    let at = why.wrong.map_or(String::new(), |wrong| format!(", byte {}{whose}", wrong.at));
    format!("refused {} at {place}{at}", refusal.number)
}

/// The record's bytes, with carets under the wrong ones; one behind the last where bytes are missing.
pub fn carets(bytes: &[u8], wrong: Wrong, paint: Paint) -> String {
    const ROW: usize = 16;
    let (from, len) = wrong.record;
    let shown = &bytes[from.min(bytes.len())..(from + len).min(bytes.len())];
    let marked = match wrong.len {
        0 => wrong.at..wrong.at + 1,
        len => wrong.at..(wrong.at + len).min(from + shown.len()),
    };
    let mut text = String::new();
    let rows = (shown.len() + 1).div_ceil(ROW);
    for row in 0..rows {
        let start = from + row * ROW;
        let part = &shown[row * ROW..shown.len().min((row + 1) * ROW)];
        let under = (start..start + ROW).map(|at| if marked.contains(&at) { "^^" } else { "  " });
        let under = under.collect::<Vec<_>>().join(" ");
        if !part.is_empty() || !under.trim().is_empty() {
            text += &format!("{start:>6}  {}\n", hex(part));
        }
        if !under.trim().is_empty() {
            text += &format!("{:>6}  {}\n", "", paint.bad(under.trim_end()));
        }
    }
    text
}

/// A refusal, told. `of` is the bytes it is about, `card` or `sheet`.
pub fn refusal(
    label: &str,
    begin: Json,
    refusal: Refusal,
    why: Why,
    of: (&str, &[u8]),
    manner: Manner,
) -> Told {
    let head = refused(refusal, &why, of.0);
    let line = format!("{label}: {}: {}\n", manner.paint.bad(&head), why.words);
    let mut long = format!("{label}: {}\n{}\n", manner.paint.bad(&head), why.words);
    if let Some(wrong) = why.wrong {
        long += &format!("\n{}", carets(of.1, wrong, manner.paint));
    }
    let json = refusal_json(begin, refusal, &why, of.0);
    Told { long, line, json, tally: Tally::Refused(refusal.number), sheet: None }
}

/// The fields of a refusal behind those that say of what.
pub fn refusal_json(begin: Json, refusal: Refusal, why: &Why, of: &str) -> Json {
    let (word, index) = refusal.place.word();
    begin
        .with("answer", "refused")
        .with("number", refusal.number)
        .with("place", word)
        .with("index", index)
        .with("of", why.wrong.map(|_| of.to_string()))
        .with("offset", why.wrong.map(|wrong| wrong.at))
        .with("length", why.wrong.map(|wrong| wrong.len))
        .with("reason", why.words.as_str())
}

/// A card that could not be read or written.
pub fn error(label: &str, begin: Json, words: &str) -> Told {
    let line = format!("{label}: error: {words}\n");
    let json = begin.with("answer", "error").with("reason", words);
    Told { long: line.clone(), line, json, tally: Tally::Error, sheet: None }
}

/// An object that begins with the card's file.
pub fn about(card: &str) -> Json {
    object().with("card", card)
}
