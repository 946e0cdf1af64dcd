//! The drawing: every byte of a card or sheet in order, by field, with what it is. Any bytes can be drawn.
use crate::card::{Card, FRONT, HEIGHT_LIMIT, NODE_LIMIT};
use crate::kinds::Holds;
use crate::names::Names;
use crate::way::{side_of, Step, SIDES};
use crate::why::{count, served, taken_by};
use std::fmt;

/// The part of a card or sheet that a field belongs to.
#[derive(Clone, Copy, Debug, PartialEq, Eq)]
pub enum Part {
    Front,
    Node(usize),
    Rule(usize),
    Line(usize),
    Step(usize),
    Mark(usize),
    Behind,
}

impl Part {
    /// Its word, without its number.
    pub fn word(self) -> &'static str {
        match self {
            Part::Front => "front",
            Part::Node(_) => "node",
            Part::Rule(_) => "rule",
            Part::Line(_) => "line",
            Part::Step(_) => "step",
            Part::Mark(_) => "mark",
            Part::Behind => "behind",
        }
    }

    pub fn index(self) -> Option<usize> {
        match self {
            Part::Node(i) | Part::Rule(i) | Part::Line(i) | Part::Step(i) | Part::Mark(i) => Some(i),
            Part::Front | Part::Behind => None,
        }
    }
}

impl fmt::Display for Part {
    fn fmt(&self, f: &mut fmt::Formatter) -> fmt::Result {
        match self.index() {
            Some(i) => write!(f, "{} {i}", self.word()),
            None => Ok(()),
        }
    }
}

/// A field: its bytes, what it belongs to, its own name, its value in words, and at a record's end what the record is.
pub struct Field {
    pub at: usize,
    pub len: usize,
    pub part: Part,
    pub name: &'static str,
    pub value: String,
    pub note: String,
}

impl Field {
    pub fn bytes<'a>(&self, of: &'a [u8]) -> &'a [u8] {
        &of[self.at..self.at + self.len]
    }

    /// Its bytes in hex.
    pub fn hex(&self, of: &[u8]) -> String {
        hex(self.bytes(of))
    }

    /// All that is said of it, on one line.
    pub fn about(&self) -> String {
        let whose = format!("{} {}", self.part, self.name);
        let note = if self.note.is_empty() { String::new() } else { format!("; {}", self.note) };
        format!("{}: {}{note}", whose.trim(), self.value)
    }
}

/// Bytes in hex, with spaces.
pub fn hex(bytes: &[u8]) -> String {
    bytes.iter().map(|b| format!("{b:02X}")).collect::<Vec<_>>().join(" ")
}

/// Fields in order, cut where the bytes end.
struct Drawing<'a> {
    bytes: &'a [u8],
    fields: Vec<Field>,
}

impl Drawing<'_> {
    fn field(&mut self, at: usize, len: usize, part: Part, name: &'static str, value: String) {
        let there = self.bytes.len().saturating_sub(at).min(len);
        if there > 0 {
            let value = if there < len { "cut off".to_string() } else { value };
            self.fields.push(Field { at, len: there, part, name, value, note: String::new() });
        }
    }

    /// What the record at the last field is.
    fn note(&mut self, part: Part, note: String) {
        if let Some(field) = self.fields.last_mut().filter(|f| f.part == part && f.value != "cut off") {
            field.note = note;
        }
    }

    /// Whatever stands behind, sixteen bytes a row.
    fn behind(mut self, mut at: usize) -> Vec<Field> {
        while at < self.bytes.len() {
            let len = (self.bytes.len() - at).min(16);
            self.field(at, len, Part::Behind, "behind the end", count(len, "byte"));
            at += len;
        }
        self.fields
    }
}

/// The fields of a card.
pub fn card_fields(card: Card, names: &Names) -> Vec<Field> {
    let mut drawing = Drawing { bytes: card.bytes, fields: Vec::new() };
    card_front(&mut drawing, card, names);
    let heights = card.heights();
    // on a broken card a formula can be as long as one likes: it is told where the format allows it
    let told = |i: usize| i < NODE_LIMIT && heights.get(i).is_some_and(|&height| height <= HEIGHT_LIMIT);
    let formula = |i: usize| if told(i) { card.formula(i, names) } else { format!("node {i}") };
    for (i, height) in heights.iter().enumerate() {
        let (at, part) = (card.node_at(i), Part::Node(i));
        let number = card.node(i).kind;
        let kind = card.kind(i).map_or("unknown", |kind| kind.word);
        drawing.field(at, 1, part, "kind", format!("{number}, {kind}"));
        drawing.field(at + 1, 2, part, "left", field_value(card, i, 0, names));
        drawing.field(at + 3, 2, part, "right", field_value(card, i, 1, names));
        drawing.note(part, format!("node {i} is {}, height {height}", formula(i)));
    }
    let mut at = card.rule_at(0);
    for i in (0..card.rules()).take_while(|&i| card.rule_at(i) < card.bytes.len()) {
        let node = card.rule(i);
        drawing.field(at, 2, Part::Rule(i), "node", format!("node {node}: {}", formula(node)));
        drawing.note(Part::Rule(i), format!("entry {i}"));
        at += 2;
    }
    for i in (0..card.lines()).take_while(|&i| card.line_at(i) < card.bytes.len()) {
        let (line, part) = (card.line(i), Part::Line(i));
        drawing.field(at, 2, part, "node", format!("node {}: {}", line.node, formula(line.node)));
        drawing.field(at + 2, 1, part, "mm", format!("{}, {}", line.must, must_word(line.must)));
        drawing.note(part, format!("entry {}", card.rules() + i));
        at += 3;
    }
    drawing.behind(card.formula_length().max(FRONT))
}

/// A must/may byte in words.
pub fn must_word(must: u8) -> &'static str {
    match must {
        0 => "may",
        1 => "must",
        _ => "unknown",
    }
}

fn card_front(drawing: &mut Drawing, card: Card, names: &Names) {
    let (nodes, rules, lines) = (card.nodes(), card.rules(), card.lines());
    let length = card.length();
    let sum = format!("{length} = 11 + 5 * {nodes} + 2 * {rules} + 3 * {lines}");
    let length = if length == card.formula_length() { sum } else { length.to_string() };
    let goal = card.goal();
    let goal = format!("node {goal}: {}", card.formula(goal, names));
    let fields = [
        (0, 2, "length", length),
        (2, 1, "version", card.byte(2).to_string()),
        (3, 1, "P", count(rules, "rule")),
        (4, 1, "T", count(lines, "line")),
        (5, 2, "N", count(nodes, "node")),
        (7, 2, "goal", goal),
        (9, 1, "d", format!("{}, the nesting limit", card.nesting_limit())),
        (10, 1, "s", format!("{}, the step limit", card.step_limit())),
    ];
    for (at, len, name, value) in fields {
        drawing.field(at, len, Part::Front, name, value);
    }
}

fn field_value(card: Card, i: usize, side: usize, names: &Names) -> String {
    let value = card.node(i).fields[side];
    let Some(kind) = card.kind(i) else { return value.to_string() };
    match kind.fields[side] {
        Holds::Name => names.given(value).map_or(value.to_string(), |word| format!("{value}, {word}")),
        Holds::Nothing => format!("{value}, unused"),
        Holds::Goal | Holds::Clause => format!("node {value}, {}", kind.roles[side]),
    }
}

/// A mark in words.
pub fn mark_word(mark: u8) -> &'static str {
    match mark {
        0 => "left on the tray",
        1 => "used",
        2 => "taken by rest",
        3 => "used one way only",
        _ => "unknown",
    }
}

/// A step in words: what the byte says and, where the walk reached it, what that does.
fn step_value(card: Card, byte: u8, reached: Option<&Step>, taken: &[Step], names: &Names) -> String {
    let number = usize::from(byte);
    let says = match side_of(byte) {
        Some(side) => format!("{byte}, {}", SIDES[side]),
        None => format!("entry {number}, {}", card.entry(number)),
    };
    match reached {
        None => says,
        Some(Step::Use(one)) => {
            let (clause, whom) = (card.formula(one.clause, names), served(one, taken));
            format!("{says}, nesting {}: {clause} for {whom}", one.nesting)
        }
        Some(Step::Choice(choice)) => format!("{says}: {}", taken_by(choice, card, taken, names)),
    }
}

/// The fields of a sheet. Steps that the walk reached are told with what they use or choose.
pub fn sheet_fields(card: Card, sheet: &[u8], taken: &[Step], names: &Names) -> Vec<Field> {
    let mut drawing = Drawing { bytes: sheet, fields: Vec::new() };
    let front = Card::new(sheet);
    let (length, k, t) = (front.length(), usize::from(front.byte(3)), usize::from(front.byte(4)));
    let sum = format!("{length} = 5 + {k} + {t}");
    let length = if length == 5 + k + t { sum } else { length.to_string() };
    let fields = [
        (0, 2, "length", length),
        (2, 1, "version", front.byte(2).to_string()),
        (3, 1, "k", count(k, "step")),
        (4, 1, "T", count(t, "line")),
    ];
    for (at, len, name, value) in fields {
        drawing.field(at, len, Part::Front, name, value);
    }
    for i in 0..k {
        let value = step_value(card, front.byte(5 + i), taken.get(i), taken, names);
        drawing.field(5 + i, 1, Part::Step(i), "", value);
    }
    for i in 0..t {
        let mark = front.byte(5 + k + i);
        drawing.field(5 + k + i, 1, Part::Mark(i), "", format!("{mark}, line {i} is {}", mark_word(mark)));
    }
    drawing.behind(5 + k + t)
}
