//! Colour, on a terminal alone.
use std::env;
use std::io::{self, IsTerminal};

/// Whether to colour what is printed.
#[derive(Clone, Copy)]
pub struct Paint(pub bool);

impl Paint {
    /// For standard output: a terminal, and no NO_COLOR in the environment.
    pub fn of_output() -> Paint {
        let kept_plain = env::var_os("NO_COLOR").is_some();
        Paint(io::stdout().is_terminal() && !kept_plain)
    }

    fn by(self, code: &str, text: &str) -> String {
        match self.0 {
            true if !text.is_empty() => format!("\x1b[{code}m{text}\x1b[0m"),
            _ => text.to_string(),
        }
    }

    pub fn good(self, text: &str) -> String {
        self.by("32", text)
    }

    pub fn bad(self, text: &str) -> String {
        self.by("1;31", text)
    }

    pub fn dim(self, text: &str) -> String {
        self.by("2", text)
    }

    /// Nodes, rules, lines, steps and marks each have a colour of their own.
    pub fn part(self, word: &str, text: &str) -> String {
        let code = match word {
            "node" => "36",
            "rule" | "step" => "35",
            "line" | "mark" => "33",
            "behind" => "31",
            _ => return text.to_string(),
        };
        self.by(code, text)
    }
}
