//! A line's words, with their places.
use super::Mistake;

/// A word, number or parenthesis; columns count characters from 1.
#[derive(Clone, Debug)]
pub struct Token<'a> {
    pub text: &'a str,
    pub column: usize,
}

impl Token<'_> {
    pub fn width(&self) -> usize {
        self.text.chars().count()
    }
}

/// Letters, digits and a few marks make a word.
fn in_word(c: char) -> bool {
    c.is_alphanumeric() || "_-./+'".contains(c)
}

/// The tokens of a line, without its comment.
pub fn tokens(number: usize, line: &str) -> Result<Vec<Token<'_>>, Mistake> {
    let mut found: Vec<Token> = Vec::new();
    let mut rest = line;
    let mut column = 1;
    while let Some(c) = rest.chars().next() {
        let len = match c {
            '#' => break,
            '(' | ')' => 1,
            c if c.is_whitespace() => 0,
            c if in_word(c) => rest.find(|c| !in_word(c)).unwrap_or(rest.len()),
            c => {
                let shown =
                    if c.is_ascii_graphic() { format!("\"{c}\"") } else { format!("U+{:04X}", u32::from(c)) };
                let words = format!("{shown} cannot stand here");
                return Err(Mistake { line: number, column, width: 1, words });
            }
        };
        let (text, behind) = rest.split_at(len.max(c.len_utf8()));
        if len > 0 {
            found.push(Token { text, column });
        }
        column += text.chars().count();
        rest = behind;
    }
    Ok(found)
}

/// Words of the format: no name can be one.
pub const KEPT: [&str; 23] = [
    "name", "limits", "nesting", "steps", "goal", "rule", "must", "may", "node", "bytes", "both", "either",
    "way", "lend", "to", "gives", "rest", "done", "of", "times", "one", "never", "menu",
];

/// Whether it can be a name's word.
pub fn can_name(word: &str) -> bool {
    word.starts_with(char::is_alphabetic) && !KEPT.contains(&word)
}
