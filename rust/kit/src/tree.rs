//! The way of doing the job as a tree: indented, for Graphviz, as a picture, or as JSON.
use crate::card::{Entry, Sound};
use crate::json::{object, Json};
use crate::names::Names;
use crate::paint::Paint;
use crate::svg::{Svg, LETTER};
use crate::way::{use_at, Step, Way, SIDES};
use std::fmt::Write;

/// What a row of the tree is.
#[derive(Clone, Copy, PartialEq, Eq)]
pub enum Sort {
    Use(Entry),
    Leaf,
    Parts,
    Lend,
}

/// A row: how deep it stands, under which row, what it is to that one, and its words.
pub struct Row {
    pub depth: usize,
    pub under: Option<usize>,
    pub role: String,
    pub sort: Sort,
    pub words: String,
}

impl Row {
    /// Its words, with its role before them.
    fn told(&self) -> String {
        match self.role.as_str() {
            "" => self.words.clone(),
            role => format!("{role}: {}", self.words),
        }
    }
}

/// A walk that reached its end.
pub struct Tree<'a> {
    pub card: Sound<'a>,
    pub taken: &'a [Step],
    pub way: &'a Way,
    pub names: &'a Names,
}

impl Tree<'_> {
    /// The rows in walking order.
    pub fn rows(&self) -> Vec<Row> {
        let mut rows = Vec::new();
        self.row(&mut rows, self.way, None, String::new());
        rows
    }

    /// What a goal of the way is, and its parts with their roles.
    fn parts<'a>(&self, way: &'a Way) -> (Sort, String, Vec<(String, &'a Way)>) {
        let pair =
            |parts: &'a [Way; 2], roles: [&str; 2]| roles.map(String::from).into_iter().zip(parts).collect();
        match way {
            Way::Rest => (Sort::Leaf, "rest".to_string(), Vec::new()),
            Way::Done => (Sort::Leaf, "done".to_string(), Vec::new()),
            Way::Both(parts) => (Sort::Parts, "both".to_string(), pair(parts, ["", ""])),
            Way::Either(parts) => {
                (Sort::Parts, "either way".to_string(), pair(parts, ["one way", "the other way"]))
            }
            Way::Lend { number, clause, goal } => {
                let lent = self.card.entry(*number);
                let words = format!("lend {} as {lent}", self.card.formula(*clause, self.names));
                (Sort::Lend, words, vec![("to".to_string(), goal)])
            }
            Way::Never { .. } => (Sort::Leaf, "never".to_string(), Vec::new()),
            Way::OneOf { step, goal } => {
                let words = format!("one of, {} [step {step}]", self.side(*step));
                (Sort::Parts, words, vec![("chosen".to_string(), goal)])
            }
            Way::Need { step, choices, conditions } => {
                let one = use_at(self.taken, *step);
                let name = self.names.word(one.name);
                let clause = self.card.formula(one.clause, self.names);
                let recipe = if clause == name { String::new() } else { format!(", {clause}") };
                let sides: String =
                    choices.iter().map(|&step| format!(", {} [step {step}]", self.side(step))).collect();
                let words = format!("{name} by {} [step {step}]{sides}{recipe}", one.entry);
                let roles = (0..conditions.len()).map(|count| format!("condition {count}"));
                (Sort::Use(one.entry), words, roles.zip(conditions).collect())
            }
        }
    }

    /// The side that is chosen at a step.
    fn side(&self, step: usize) -> &'static str {
        match &self.taken[step] {
            Step::Choice(choice) => SIDES[choice.side],
            Step::Use(_) => "",
        }
    }

    fn row(&self, rows: &mut Vec<Row>, way: &Way, under: Option<usize>, role: String) {
        let (sort, words, parts) = self.parts(way);
        let depth = under.map_or(0, |above| rows[above].depth + 1);
        let here = rows.len();
        rows.push(Row { depth, under, role, sort, words });
        for (role, part) in parts {
            self.row(rows, part, Some(here), role);
        }
    }

    /// Indented by two for each row above.
    pub fn text(&self, paint: Paint) -> String {
        let mut text = String::new();
        for row in self.rows() {
            let role = if row.role.is_empty() { String::new() } else { format!("{}: ", row.role) };
            let word = match row.sort {
                Sort::Use(entry) => entry.word(),
                _ => "",
            };
            let _ = writeln!(
                text,
                "{:width$}{}{}",
                "",
                paint.dim(&role),
                paint.part(word, &row.words),
                width = 2 * row.depth
            );
        }
        text
    }

    /// A graph for Graphviz. No word of a card has a quotation mark or a backslash.
    pub fn dot(&self) -> String {
        let mut text = String::from("digraph way {\n  node [shape=box, style=filled, fontname=monospace];\n");
        let rows = self.rows();
        for (i, row) in rows.iter().enumerate() {
            let _ = writeln!(text, "  n{i} [label=\"{}\", fillcolor=\"{}\"];", row.words, colour(row.sort));
        }
        for (i, row) in rows.iter().enumerate() {
            if let Some(above) = row.under {
                let _ = writeln!(text, "  n{above} -> n{i} [label=\"{}\"];", row.role);
            }
        }
        text + "}\n"
    }

    /// The picture.
    pub fn svg(&self, title: &str) -> String {
        const ROW: f64 = 30.0;
        const INDENT: f64 = 28.0;
        let mut svg = Svg::default();
        svg.words((12.0, 20.0), "head", &[title.to_string()]);
        let left = |depth: usize| 12.0 + INDENT * depth as f64;
        for (i, row) in self.rows().iter().enumerate() {
            let (x, y) = (left(row.depth), 36.0 + ROW * i as f64);
            if let Some(above) = row.under {
                let from = (left(row.depth - 1) + INDENT / 2.0, 36.0 + ROW * above as f64 + 22.0);
                svg.elbow(from, (x, y + 11.0));
            }
            let width = LETTER * (row.told().chars().count() + 2) as f64;
            svg.block((x, y), (width, 22.0), colour(row.sort), &row.told(), &row.told());
        }
        svg.done(title)
    }

    /// Nested objects.
    pub fn json(&self) -> Json {
        self.node_json(self.way, "")
    }

    fn node_json(&self, way: &Way, role: &str) -> Json {
        let (_, words, parts) = self.parts(way);
        let begin = object().with("role", Some(role).filter(|role| !role.is_empty()));
        let begin = match way {
            Way::Need { step, choices, .. } => {
                let one = use_at(self.taken, *step);
                let begin = begin.with("is", "use").with("step", *step).with("entry", one.number);
                let begin = begin.with("kind", one.entry.word()).with("index", one.entry.index());
                let begin = begin.with("name", one.name).with("word", self.names.given(one.name));
                let choice = |&step: &usize| object().with("step", step).with("choice", self.side(step));
                begin.with("choices", Json::list(choices.iter().map(choice)))
            }
            Way::OneOf { step, .. } => {
                begin.with("is", "one of").with("step", *step).with("choice", self.side(*step))
            }
            Way::Lend { number, .. } => begin.with("is", "lend").with("entry", *number),
            _ => begin.with("is", words.clone()),
        };
        let parts = parts.into_iter().map(|(role, part)| self.node_json(part, &role));
        begin.with("words", words).with("parts", Json::list(parts))
    }
}

fn colour(sort: Sort) -> &'static str {
    match sort {
        Sort::Use(Entry::Rule(_)) => "#f3def0",
        Sort::Use(Entry::Line(_)) => "#fbeecb",
        Sort::Use(Entry::Lent(_)) => "#d8f0e4",
        Sort::Lend => "#e4f6ec",
        Sort::Parts => "#dfe7f5",
        Sort::Leaf => "#eeeeee",
    }
}
