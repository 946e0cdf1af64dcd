//! Words for the numbers of names.
use std::collections::BTreeMap;

/// Words by number and numbers by word.
#[derive(Clone, Default)]
pub struct Names {
    words: BTreeMap<u16, String>,
    numbers: BTreeMap<String, u16>,
}

impl Names {
    /// The name's word; the number itself where it has none.
    pub fn word(&self, number: u16) -> String {
        self.words.get(&number).cloned().unwrap_or_else(|| number.to_string())
    }

    /// The word, if there is one.
    pub fn given(&self, number: u16) -> Option<&str> {
        self.words.get(&number).map(String::as_str)
    }

    pub fn number(&self, word: &str) -> Option<u16> {
        self.numbers.get(word).copied()
    }

    /// Gives a number its word. Tells what stands against it.
    pub fn add(&mut self, word: &str, number: u16) -> Result<(), String> {
        match (self.number(word), self.given(number)) {
            (Some(n), _) if n == number => return Ok(()),
            (Some(n), _) => return Err(format!("\"{word}\" is already name {n}")),
            (_, Some(other)) => return Err(format!("name {number} is already \"{other}\"")),
            (None, None) => {}
        }
        self.words.insert(number, word.to_string());
        self.numbers.insert(word.to_string(), number);
        Ok(())
    }
}
