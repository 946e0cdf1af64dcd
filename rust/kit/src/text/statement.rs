//! A statement: its tokens, taken one by one.
use super::tokens::{tokens, Token};
use super::Mistake;

pub type Outcome<T> = Result<T, Mistake>;

/// A statement's tokens, and where the next one stands.
pub struct Statement<'a> {
    line: usize,
    pub tokens: Vec<Token<'a>>,
    pub next: usize,
    pub end: usize,
}

impl<'a> Statement<'a> {
    pub fn new(line: usize, text: &'a str) -> Outcome<Statement<'a>> {
        let tokens = tokens(line, text)?;
        let end = tokens.last().map_or(1, |t| t.column + t.width());
        Ok(Statement { line, tokens, next: 0, end })
    }

    pub fn peek(&self) -> Option<&'a str> {
        self.tokens.get(self.next).map(|t| t.text)
    }

    pub fn column(&self) -> usize {
        self.tokens.get(self.next).map_or(self.end, |t| t.column)
    }

    pub fn mistake<T>(&self, from: usize, to: usize, words: String) -> Outcome<T> {
        Err(Mistake { line: self.line, column: from, width: to.saturating_sub(from).max(1), words })
    }

    /// A mistake about the last token taken.
    pub fn wrong<T>(&self, words: String) -> Outcome<T> {
        let token = &self.tokens[self.next - 1];
        self.mistake(token.column, token.column + token.width(), words)
    }

    /// The next token, or that it is missing.
    pub fn take(&mut self, what: &str) -> Outcome<&'a str> {
        let Some(token) = self.tokens.get(self.next) else {
            return self.mistake(self.end, self.end + 1, format!("{what} is missing"));
        };
        self.next += 1;
        Ok(token.text)
    }

    pub fn expect(&mut self, word: &str) -> Outcome<()> {
        let what = format!("\"{word}\"");
        match self.take(&what)? {
            text if text == word => Ok(()),
            text => self.wrong(format!("\"{text}\" is not expected here, but {what} is")),
        }
    }

    /// A number of at most so much.
    pub fn number(&mut self, what: &str, most: usize) -> Outcome<usize> {
        let text = self.take(what)?;
        if !text.bytes().all(|b| b.is_ascii_digit()) {
            return self.wrong(format!("\"{text}\" is no number: {what} is expected here"));
        }
        match text.parse() {
            Ok(n) if n <= most => Ok(n),
            _ => self.wrong(format!("{text} is too much: {what} goes to {most}")),
        }
    }

    pub fn ended(&mut self) -> Outcome<()> {
        match self.tokens.get(self.next) {
            None => Ok(()),
            Some(token) => {
                self.next += 1;
                self.wrong(format!("\"{}\" is not expected here: the statement ends before it", token.text))
            }
        }
    }
}
