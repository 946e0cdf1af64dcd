//! Pictures: boxes, lines and words, to scale.
use std::fmt::Write;

/// A picture on the way.
#[derive(Default)]
pub struct Svg {
    body: String,
    width: f64,
    height: f64,
}

/// The width of a letter of the picture's type, at its size, and the height of a line.
pub const LETTER: f64 = 7.2;
pub const LINE: f64 = 15.0;

/// Text as it may stand in a picture.
pub fn escaped(text: &str) -> String {
    let mut out = String::new();
    for c in text.chars() {
        match c {
            '&' => out += "&amp;",
            '<' => out += "&lt;",
            '>' => out += "&gt;",
            '"' => out += "&quot;",
            c if c.is_control() || matches!(c, '\u{fffe}' | '\u{ffff}') => out.push('\u{fffd}'),
            c => out.push(c),
        }
    }
    out
}

/// Lines of at most so many letters, divided at spaces where there are some.
pub fn wrapped(text: &str, most: usize) -> Vec<String> {
    let mut lines = vec![String::new()];
    for word in text.split(' ') {
        let long = |line: &String| line.chars().count() + 1 + word.chars().count() > most;
        match lines.last_mut().filter(|line| line.is_empty() || !long(line)) {
            Some(line) if line.is_empty() => line.push_str(word),
            Some(line) => *line += &format!(" {word}"),
            None => lines.push(word.to_string()),
        }
    }
    lines
}

impl Svg {
    fn reach(&mut self, x: f64, y: f64) {
        self.width = self.width.max(x);
        self.height = self.height.max(y);
    }

    /// A box with its words in the middle, and more of them where it is pointed at.
    pub fn block(&mut self, at: (f64, f64), size: (f64, f64), fill: &str, words: &str, title: &str) {
        let (x, y) = at;
        let (width, height) = size;
        let (middle, base) = (x + width / 2.0, y + height / 2.0 + 4.0);
        let _ = writeln!(
            self.body,
            "<g><title>{}</title>\
             <rect x=\"{x}\" y=\"{y}\" width=\"{width}\" height=\"{height}\" fill=\"{fill}\" stroke=\"#333\"/>\
             <text x=\"{middle}\" y=\"{base}\" text-anchor=\"middle\">{}</text></g>",
            escaped(title),
            escaped(words)
        );
        self.reach(x + width, y + height);
    }

    /// Lines of words below each other; how far they reach.
    pub fn words(&mut self, (x, y): (f64, f64), class: &str, lines: &[String]) -> (f64, f64) {
        let mut reach = (x, y);
        for (i, line) in lines.iter().enumerate() {
            let y = y + LINE * i as f64;
            let _ =
                writeln!(self.body, "<text x=\"{x}\" y=\"{y}\" class=\"{class}\">{}</text>", escaped(line));
            reach = (reach.0.max(x + LETTER * line.chars().count() as f64), y + LINE);
            self.reach(reach.0, y + 4.0);
        }
        reach
    }

    /// A line down and then to the right.
    pub fn elbow(&mut self, (x, y): (f64, f64), (to_x, to_y): (f64, f64)) {
        let _ =
            writeln!(self.body, "<path d=\"M {x} {y} V {to_y} H {to_x}\" fill=\"none\" stroke=\"#777\"/>");
    }

    /// The whole picture.
    pub fn done(self, title: &str) -> String {
        let (width, height) = ((self.width + 12.0).ceil(), (self.height + 12.0).ceil());
        format!(
            "<?xml version=\"1.0\" encoding=\"UTF-8\"?>\n\
             <svg xmlns=\"http://www.w3.org/2000/svg\" width=\"{width}\" height=\"{height}\" viewBox=\"0 0 {width} {height}\">\n\
             <title>{}</title>\n\
             <style>text {{ font: 12px monospace; fill: #111 }} .dim {{ fill: #666 }} .head {{ font-weight: bold }} .bad {{ fill: #b3261e }}</style>\n\
             <rect width=\"100%\" height=\"100%\" fill=\"#fff\"/>\n{}</svg>\n",
            escaped(title),
            self.body
        )
    }
}
