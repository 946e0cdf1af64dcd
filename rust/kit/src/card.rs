//! A card's bytes by field. Whether they are right is the proved check's to say: here any bytes will do.
use crate::kinds::{self, Kind};
use crate::names::Names;
use kit_planner::Refusal;

/// Bytes of the front.
pub const FRONT: usize = 11;

/// The format's limits. A formula that is higher is cut there.
pub const HEIGHT_LIMIT: usize = 8;
pub const NODE_LIMIT: usize = 512;
pub const RULE_LIMIT: usize = 64;
pub const LINE_LIMIT: usize = 64;
pub const NESTING_LIMIT: usize = 16;
pub const STEP_LIMIT: usize = 255;
pub const NAME_LIMIT: usize = 999;

/// The bytes of a card.
#[derive(Clone, Copy)]
pub struct Card<'a> {
    pub bytes: &'a [u8],
}

/// A node's three fields.
#[derive(Clone, Copy, Debug, PartialEq, Eq, Hash)]
pub struct Node {
    pub kind: u8,
    pub fields: [u16; 2],
}

/// A line of the tray.
#[derive(Clone, Copy, Debug, PartialEq, Eq)]
pub struct Line {
    pub node: usize,
    pub must: u8,
}

impl<'a> Card<'a> {
    pub fn new(bytes: &'a [u8]) -> Card<'a> {
        Card { bytes }
    }

    /// The byte there; 0 behind the end.
    pub fn byte(self, at: usize) -> u8 {
        self.bytes.get(at).copied().unwrap_or(0)
    }

    /// The number of two bytes there.
    pub fn word(self, at: usize) -> u16 {
        u16::from_be_bytes([self.byte(at), self.byte(at + 1)])
    }

    pub fn length(self) -> usize {
        usize::from(self.word(0))
    }

    /// P.
    pub fn rules(self) -> usize {
        usize::from(self.byte(3))
    }

    /// T.
    pub fn lines(self) -> usize {
        usize::from(self.byte(4))
    }

    /// N.
    pub fn nodes(self) -> usize {
        usize::from(self.word(5))
    }

    pub fn goal(self) -> usize {
        usize::from(self.word(7))
    }

    /// d.
    pub fn nesting_limit(self) -> usize {
        usize::from(self.byte(9))
    }

    /// s.
    pub fn step_limit(self) -> usize {
        usize::from(self.byte(10))
    }

    /// The length that the counts ask for.
    pub fn formula_length(self) -> usize {
        self.line_at(self.lines())
    }

    pub fn node_at(self, i: usize) -> usize {
        FRONT + 5 * i
    }

    pub fn rule_at(self, i: usize) -> usize {
        self.node_at(self.nodes()) + 2 * i
    }

    pub fn line_at(self, i: usize) -> usize {
        self.rule_at(self.rules()) + 3 * i
    }

    pub fn node(self, i: usize) -> Node {
        let at = self.node_at(i);
        Node { kind: self.byte(at), fields: [self.word(at + 1), self.word(at + 3)] }
    }

    /// The node that a rule names.
    pub fn rule(self, i: usize) -> usize {
        usize::from(self.word(self.rule_at(i)))
    }

    pub fn line(self, i: usize) -> Line {
        let at = self.line_at(i);
        Line { node: usize::from(self.word(at)), must: self.byte(at + 2) }
    }

    /// The node's kind, where it has one.
    pub fn kind(self, i: usize) -> Option<&'static Kind> {
        kinds::numbered(self.node(i).kind)
    }

    /// How many nodes the bytes reach to.
    pub fn nodes_held(self) -> usize {
        self.nodes().min(self.bytes.len().saturating_sub(FRONT).div_ceil(5))
    }

    /// Each node's height: 1 without parts, else 1 more than the greater of its parts'. A part that is not lower counts as none.
    pub fn heights(self) -> Vec<usize> {
        let mut heights: Vec<usize> = Vec::new();
        for i in 0..self.nodes_held() {
            let parts = (0..2).filter_map(|side| self.part(i, side));
            heights.push(1 + parts.map(|part| heights[part]).max().unwrap_or(0));
        }
        heights
    }

    /// The part that a field names, if it is lower.
    pub fn part(self, i: usize, side: usize) -> Option<usize> {
        let holds = self.kind(i)?.fields[side];
        let part = usize::from(self.node(i).fields[side]);
        (holds.part() && part < i).then_some(part)
    }

    /// The formula in words, with parentheses around whatever has parts.
    pub fn formula(self, i: usize, names: &Names) -> String {
        self.words(i, names, HEIGHT_LIMIT)
    }

    fn words(self, i: usize, names: &Names, depth: usize) -> String {
        let Some(kind) = self.kind(i).filter(|_| i < self.nodes() && depth > 0) else {
            return format!("node {i}");
        };
        if kind.number == kinds::NAME {
            return names.word(self.node(i).fields[0]);
        }
        if !kind.fields[0].part() {
            return kind.word.to_string();
        }
        let part = |side: usize| match self.part(i, side) {
            Some(part) => self.words(part, names, depth - 1),
            None => format!("node {}", self.node(i).fields[side]),
        };
        let [before, between] = kind.around;
        let space = if before.is_empty() { "" } else { " " };
        format!("({before}{space}{} {between} {})", part(0), part(1))
    }
}

/// A card that the proved check found sound.
#[derive(Clone, Copy)]
pub struct Sound<'a> {
    card: Card<'a>,
}

impl<'a> Sound<'a> {
    /// Asks the proved check.
    pub fn checked(bytes: &'a [u8]) -> Result<Sound<'a>, Refusal> {
        kit_planner::check(bytes)?;
        Ok(Sound { card: Card::new(bytes) })
    }

    /// The names that a clause gives, each once: the right parts of recipes and both sides of menus followed down.
    pub fn heads(self, clause: usize) -> Vec<u16> {
        let node = self.node(clause);
        let [left, right] = node.fields.map(usize::from);
        match node.kind {
            kinds::NAME => vec![node.fields[0]],
            kinds::RECIPE => self.heads(right),
            kinds::MENU => {
                let mut heads = self.heads(left);
                let others = self.heads(right).into_iter().filter(|head| !heads.contains(head));
                heads.extend(others.collect::<Vec<_>>());
                heads
            }
            _ => Vec::new(),
        }
    }
}

impl<'a> std::ops::Deref for Sound<'a> {
    type Target = Card<'a>;

    fn deref(&self) -> &Card<'a> {
        &self.card
    }
}

/// What an entry number stands for.
#[derive(Clone, Copy, Debug, PartialEq, Eq)]
pub enum Entry {
    Rule(usize),
    Line(usize),
    Lent(usize),
}

impl Entry {
    pub fn word(self) -> &'static str {
        match self {
            Entry::Rule(_) => "rule",
            Entry::Line(_) => "line",
            Entry::Lent(_) => "lent",
        }
    }

    pub fn index(self) -> usize {
        match self {
            Entry::Rule(i) | Entry::Line(i) | Entry::Lent(i) => i,
        }
    }
}

impl std::fmt::Display for Entry {
    fn fmt(&self, f: &mut std::fmt::Formatter) -> std::fmt::Result {
        write!(f, "{} {}", self.word(), self.index())
    }
}

impl Card<'_> {
    /// Rules from 0, lines from P, lent clauses from P + T.
    pub fn entry(self, number: usize) -> Entry {
        let (rules, lines) = (self.rules(), self.lines());
        match number {
            n if n < rules => Entry::Rule(n),
            n if n < rules + lines => Entry::Line(n - rules),
            n => Entry::Lent(n - rules - lines),
        }
    }
}
