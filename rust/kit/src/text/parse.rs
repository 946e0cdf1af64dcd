//! Statements and formulas.
use super::draft::Draft;
use super::statement::{Outcome, Statement};
use super::tokens::can_name;
use super::Mistake;
use crate::card::{Line, Node, LINE_LIMIT, NAME_LIMIT, NESTING_LIMIT, RULE_LIMIT, STEP_LIMIT};
use crate::kinds::{self, Holds};
use crate::names::Names;

/// What a text holds: a card by statements, or bytes as they stand; and its names.
pub struct Parsed {
    pub bytes: Vec<u8>,
    pub names: Names,
}

/// Parentheses are nested no deeper: formulas of a card are not.
const DEPTH_LIMIT: usize = 64;

/// A formula's node and where it is written.
#[derive(Clone, Copy)]
struct Part {
    node: usize,
    from: usize,
    to: usize,
}

/// A parser's state: the card so far, and the names that it knows from the first line on.
struct Parser {
    names: Names,
    draft: Draft,
    raw: Option<Vec<u8>>,
}

const STATEMENTS: [&str; 8] = ["name", "limits", "goal", "rule", "must", "may", "node", "bytes"];

/// The lines of a text, counted from 1.
fn lines(text: &str) -> impl Iterator<Item = (usize, &str)> {
    text.lines().enumerate().map(|(i, line)| (i + 1, line))
}

/// The names that a text gives, beside those known before. Its other statements are left alone.
pub fn names_of(text: &str, known: &Names) -> Outcome<Names> {
    match gathered(text, known) {
        (names, None) => Ok(names),
        (_, Some(mistake)) => Err(mistake),
    }
}

/// All names that are rightly given, and the first mistake.
fn gathered(text: &str, known: &Names) -> (Names, Option<Mistake>) {
    let mut names = known.clone();
    let mut first = None;
    for (number, line) in lines(text) {
        let begun = Statement::new(number, line).and_then(|mut statement| match statement.peek() {
            Some("name") => name(&mut statement, &mut names),
            _ => known_statement(&mut statement),
        });
        first = first.or(begun.err());
    }
    (names, first)
}

/// Nothing, or what begins a statement.
fn known_statement(statement: &mut Statement) -> Outcome<()> {
    let Some(word) = statement.peek().filter(|word| !STATEMENTS.contains(word)) else { return Ok(()) };
    statement.next = 1;
    statement.wrong(format!("\"{word}\" begins no statement: {} do", STATEMENTS.join(", ")))
}

/// `name WORD NUMBER`
fn name(statement: &mut Statement, names: &mut Names) -> Outcome<()> {
    statement.expect("name")?;
    let word = statement.take("a word")?;
    if !can_name(word) {
        return statement.wrong(format!(
            "\"{word}\" cannot be a name's word: it begins with no letter, or the format keeps it"
        ));
    }
    let number = statement.number("a name's number", NAME_LIMIT)?;
    names.add(word, number as u16).or_else(|words| statement.wrong(words))?;
    statement.ended()
}

/// The card that a text writes, or its first mistake.
pub fn parse(text: &str, known: &Names) -> Outcome<Parsed> {
    let (names, first) = gathered(text, known);
    let parsed = with_names(text, names);
    match (first, parsed) {
        (Some(first), Err(other)) if other.line < first.line => Err(other),
        (Some(first), _) => Err(first),
        (None, parsed) => parsed,
    }
}

fn with_names(text: &str, names: Names) -> Outcome<Parsed> {
    let mut parser = Parser { names, draft: Draft::default(), raw: None };
    let mut last = 1;
    for (number, line) in lines(text) {
        parser.statement(&mut Statement::new(number, line)?)?;
        last = number;
    }
    let Parser { names, draft, raw } = parser;
    let missing = if draft.goal.is_none() { "goal" } else { "limits" };
    match raw.or_else(|| draft.bytes()) {
        Some(bytes) => Ok(Parsed { bytes, names }),
        None => {
            let words = format!("the card has no \"{missing}\" statement");
            Err(Mistake { line: last, column: 1, width: 1, words })
        }
    }
}

impl Parser {
    fn statement(&mut self, s: &mut Statement) -> Outcome<()> {
        known_statement(s)?;
        let Some(word) = s.peek().filter(|&word| word != "name") else { return Ok(()) };
        s.next = 1;
        let begun = !self.draft.is_empty() || self.draft.limits.is_some();
        if word != "bytes" && self.raw.is_some() || word == "bytes" && begun {
            return s.wrong("a card is written by \"bytes\" alone, or without".to_string());
        }
        match word {
            "limits" => self.limits(s)?,
            "goal" => self.goal(s)?,
            "rule" => self.rule(s)?,
            "node" => self.node(s)?,
            "bytes" => self.bytes(s)?,
            _ => self.line(s, u8::from(word == "must"))?,
        }
        s.ended()
    }

    /// `limits nesting D steps S`
    fn limits(&mut self, s: &mut Statement) -> Outcome<()> {
        if self.draft.limits.is_some() {
            return s.wrong("the limits are told twice".to_string());
        }
        s.expect("nesting")?;
        let nesting = s.number("the nesting limit", NESTING_LIMIT)?;
        s.expect("steps")?;
        let steps = s.number("the step limit", STEP_LIMIT)?;
        self.draft.limits = Some((nesting as u8, steps as u8));
        Ok(())
    }

    fn goal(&mut self, s: &mut Statement) -> Outcome<()> {
        if self.draft.goal.is_some() {
            return s.wrong("the goal is told twice".to_string());
        }
        self.draft.goal = Some(self.root(s, Holds::Goal, "the goal")?);
        Ok(())
    }

    fn rule(&mut self, s: &mut Statement) -> Outcome<()> {
        if self.draft.rules.len() == RULE_LIMIT {
            return s.wrong(format!("a card has at most {RULE_LIMIT} rules"));
        }
        let node = self.root(s, Holds::Clause, "a rule")?;
        self.draft.rules.push(node);
        Ok(())
    }

    /// `must CLAUSE [times N]`, and `may`
    fn line(&mut self, s: &mut Statement, must: u8) -> Outcome<()> {
        let node = self.root(s, Holds::Clause, "a line")?;
        let mut times = 1;
        if s.peek() == Some("times") {
            s.next += 1;
            times = s.number("the number of lines", LINE_LIMIT)?;
            if times == 0 {
                return s.wrong("0 times something is no line".to_string());
            }
        }
        if self.draft.lines.len() + times > LINE_LIMIT {
            s.next = 1;
            return s.wrong(format!("a card has at most {LINE_LIMIT} lines"));
        }
        self.draft.lines.extend((0..times).map(|_| Line { node, must }));
        Ok(())
    }

    /// `node I` of the nodes before, or a formula; with the reading asked for.
    fn root(&mut self, s: &mut Statement, holds: Holds, what: &str) -> Outcome<usize> {
        let part = if s.peek() == Some("node") {
            let from = s.column();
            s.next += 1;
            let node = self.number_of_node(s)?;
            Part { node, from, to: s.end }
        } else {
            self.formula(s, DEPTH_LIMIT)?
        };
        self.reading(s, part, holds, what)?;
        Ok(part.node)
    }

    fn reading(&self, s: &Statement, part: Part, holds: Holds, what: &str) -> Outcome<()> {
        if holds.fits(self.draft.reads(part.node)) {
            return Ok(());
        }
        let asked = match holds {
            Holds::Goal => "no goal: a recipe (\"gives\") or a menu is none",
            _ => "no clause: a name, rest, a recipe (\"gives\") or a menu is one",
        };
        s.mistake(part.from, part.to, format!("{what} cannot be this, which is {asked}"))
    }

    fn number_of_node(&self, s: &mut Statement) -> Outcome<usize> {
        let node = s.number("a node's number", usize::from(u16::MAX))?;
        match self.draft.len() {
            n if node < n => Ok(node),
            _ => s.wrong(format!("there is no node {node} yet")),
        }
    }

    /// `node I`, its kind's words and the numbers of its parts.
    fn node(&mut self, s: &mut Statement) -> Outcome<()> {
        let i = s.number("a node's number", usize::from(u16::MAX))?;
        if i != self.draft.len() {
            return s.wrong(format!("node {} is expected here", self.draft.len()));
        }
        let from = s.column();
        let node = self.written(s)?;
        match self.draft.add(node) {
            Ok(_) => Ok(()),
            Err(words) => s.mistake(from, s.end, words),
        }
    }

    fn written(&mut self, s: &mut Statement) -> Outcome<Node> {
        let word = s.take("what the node is")?;
        let pair = |kind: u8, left: usize, right: usize| Node { kind, fields: [left as u16, right as u16] };
        let parts = |s: &mut Statement, between: Option<&str>| -> Outcome<(usize, usize)> {
            let left = self.number_of_node(s)?;
            between.map_or(Ok(()), |word| s.expect(word))?;
            Ok((left, self.number_of_node(s)?))
        };
        Ok(match word {
            "name" => pair(kinds::NAME, self.name(s)?, 0),
            "rest" => pair(kinds::REST, 0, 0),
            "done" => pair(kinds::DONE, 0, 0),
            "never" => pair(kinds::NEVER, 0, 0),
            "both" => parts(s, None).map(|(l, r)| pair(kinds::BOTH, l, r))?,
            "menu" => parts(s, None).map(|(l, r)| pair(kinds::MENU, l, r))?,
            "either" => {
                s.expect("way")?;
                parts(s, None).map(|(l, r)| pair(kinds::EITHER_WAY, l, r))?
            }
            "one" => {
                s.expect("of")?;
                parts(s, None).map(|(l, r)| pair(kinds::ONE_OF, l, r))?
            }
            "lend" => parts(s, Some("to")).map(|(l, r)| pair(kinds::LEND, l, r))?,
            _ => {
                s.next -= 1;
                parts(s, Some("gives")).map(|(l, r)| pair(kinds::RECIPE, l, r))?
            }
        })
    }

    /// A name by word or number.
    fn name(&self, s: &mut Statement) -> Outcome<usize> {
        let text = s.take("a name")?;
        if text.starts_with(|c: char| c.is_ascii_digit()) {
            s.next -= 1;
            return s.number("a name", NAME_LIMIT);
        }
        match self.names.number(text) {
            Some(number) => Ok(usize::from(number)),
            None => s.wrong(format!("\"{text}\" is no name")),
        }
    }

    /// `bytes 00 28`: a card's bytes as they stand.
    fn bytes(&mut self, s: &mut Statement) -> Outcome<()> {
        let bytes = self.raw.get_or_insert_with(Vec::new);
        while s.peek().is_some() {
            let text = s.take("a byte")?;
            let two = text.len() == 2 && text.bytes().all(|b| b.is_ascii_hexdigit());
            match u8::from_str_radix(text, 16) {
                Ok(byte) if two => bytes.push(byte),
                _ => return s.wrong(format!("\"{text}\" is no byte: two hex digits are")),
            }
        }
        Ok(())
    }

    fn formula(&mut self, s: &mut Statement, depth: usize) -> Outcome<Part> {
        let from = s.column();
        let text = s.take("a formula")?;
        if depth == 0 {
            return s.wrong("parentheses are nested too deep".to_string());
        }
        let node = match text {
            "(" => self.inner(s, depth - 1)?,
            "rest" => self.leaf(s, kinds::REST)?,
            "done" => self.leaf(s, kinds::DONE)?,
            "never" => self.leaf(s, kinds::NEVER)?,
            ")" => return s.wrong("a formula is missing before \")\"".to_string()),
            _ => {
                s.next -= 1;
                let name = self.name(s)?;
                self.shared(s, Node { kind: kinds::NAME, fields: [name as u16, 0] }, from)?
            }
        };
        let last = &s.tokens[s.next - 1];
        Ok(Part { node, from, to: last.column + last.width() })
    }

    fn leaf(&mut self, s: &Statement, kind: u8) -> Outcome<usize> {
        self.shared(s, Node { kind, fields: [0, 0] }, s.tokens[s.next - 1].column)
    }

    fn shared(&mut self, s: &Statement, node: Node, from: usize) -> Outcome<usize> {
        let last = &s.tokens[s.next - 1];
        self.draft.share(node).or_else(|words| s.mistake(from, last.column + last.width(), words))
    }

    /// Behind "(", up to its ")".
    fn inner(&mut self, s: &mut Statement, depth: usize) -> Outcome<usize> {
        let from = s.tokens[s.next - 1].column;
        if s.tokens.get(s.next + 1).is_some_and(|t| t.text == "of") {
            return self.quantity(s, depth, from);
        }
        let lends = s.peek() == Some("lend");
        s.next += usize::from(lends);
        let left = self.formula(s, depth)?;
        let number = if lends {
            s.expect("to")?;
            kinds::LEND
        } else {
            match s.take("\")\"")? {
                ")" => return Ok(left.node),
                "both" => kinds::BOTH,
                "gives" => kinds::RECIPE,
                "menu" => kinds::MENU,
                "either" => s.expect("way").map(|()| kinds::EITHER_WAY)?,
                "one" => s.expect("of").map(|()| kinds::ONE_OF)?,
                text => {
                    let words = "both, either way, one of, gives, menu or \")\" is";
                    return s.wrong(format!("\"{text}\" is not expected here: {words}"));
                }
            }
        };
        let right = self.formula(s, depth)?;
        s.expect(")")?;
        let kind = kinds::numbered(number).expect("it is in the table");
        for (part, side) in [left, right].into_iter().zip(0..) {
            self.reading(s, part, kind.fields[side], kind.roles[side])?;
        }
        self.shared(s, Node { kind: number, fields: [left.node as u16, right.node as u16] }, from)
    }

    /// `(3 of G)`: the balanced "both" of so many.
    fn quantity(&mut self, s: &mut Statement, depth: usize, from: usize) -> Outcome<usize> {
        let times = s.number("how many", STEP_LIMIT)?;
        if times == 0 {
            return s.wrong("0 of something is no formula: \"done\" asks for nothing".to_string());
        }
        s.expect("of")?;
        let part = self.formula(s, depth)?;
        s.expect(")")?;
        self.reading(s, part, Holds::Goal, "a quantity")?;
        self.times(s, part.node, times, from)
    }

    fn times(&mut self, s: &Statement, node: usize, times: usize, from: usize) -> Outcome<usize> {
        if times == 1 {
            return Ok(node);
        }
        let left = self.times(s, node, times.div_ceil(2), from)?;
        let right = self.times(s, node, times / 2, from)?;
        self.shared(s, Node { kind: kinds::BOTH, fields: [left as u16, right as u16] }, from)
    }
}
