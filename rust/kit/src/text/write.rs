//! A card as text.
use crate::card::{Card, Sound};
use crate::fields::{card_fields, must_word};
use crate::kinds;
use crate::names::Names;
use std::collections::BTreeSet;
use std::fmt::Write;

/// Which nodes goal, rules and lines are made of.
fn reached(card: Sound) -> Vec<bool> {
    let mut reached = vec![false; card.nodes()];
    reached[card.goal()] = true;
    (0..card.rules()).for_each(|i| reached[card.rule(i)] = true);
    (0..card.lines()).for_each(|i| reached[card.line(i).node] = true);
    for i in (0..card.nodes()).rev() {
        for part in (0..2).filter_map(|side| card.part(i, side)) {
            reached[part] |= reached[i];
        }
    }
    reached
}

/// The words for the names among these nodes, and the card's limits.
fn front(card: Sound, names: &Names, among: impl Fn(usize) -> bool) -> String {
    let nodes = (0..card.nodes()).filter(|&i| among(i)).map(|i| card.node(i));
    let used: BTreeSet<u16> = nodes.filter(|n| n.kind == kinds::NAME).map(|n| n.fields[0]).collect();
    let mut text = String::new();
    for number in used {
        if let Some(word) = names.given(number) {
            let _ = writeln!(text, "name {word} {number}");
        }
    }
    let _ = writeln!(text, "limits nesting {} steps {}", card.nesting_limit(), card.step_limit());
    text
}

/// Goal, rules and lines as formulas: sharing and unused nodes are not told.
pub fn as_formulas(card: Sound, names: &Names) -> String {
    let reached = reached(card);
    roots(card, front(card, names, |i| reached[i]), |node| card.formula(node, names))
}

/// Every node by number: just this card.
pub fn as_nodes(card: Sound, names: &Names) -> String {
    let mut text = front(card, names, |_| true);
    for i in 0..card.nodes() {
        let _ = writeln!(text, "node {i} {}", node(card, i, names));
    }
    roots(card, text, |node| format!("node {node}"))
}

fn roots(card: Sound, mut text: String, told: impl Fn(usize) -> String) -> String {
    let _ = writeln!(text, "goal {}", told(card.goal()));
    for i in 0..card.rules() {
        let _ = writeln!(text, "rule {}", told(card.rule(i)));
    }
    for i in 0..card.lines() {
        let line = card.line(i);
        let _ = writeln!(text, "{} {}", must_word(line.must), told(line.node));
    }
    text
}

fn node(card: Sound, i: usize, names: &Names) -> String {
    let node = card.node(i);
    let [left, right] = node.fields;
    match node.kind {
        kinds::NAME => format!("name {}", names.word(left)),
        kinds::BOTH => format!("both {left} {right}"),
        kinds::EITHER_WAY => format!("either way {left} {right}"),
        kinds::LEND => format!("lend {left} to {right}"),
        kinds::RECIPE => format!("{left} gives {right}"),
        kinds::ONE_OF => format!("one of {left} {right}"),
        kinds::MENU => format!("menu {left} {right}"),
        kinds::REST => "rest".to_string(),
        kinds::NEVER => "never".to_string(),
        _ => "done".to_string(),
    }
}

/// Any bytes, a field a line, with what each is.
pub fn as_bytes(bytes: &[u8], names: &Names) -> String {
    let mut text = String::from(if bytes.is_empty() { "bytes\n" } else { "" });
    for field in card_fields(Card::new(bytes), names) {
        let hex = field.hex(bytes);
        let about = field.about();
        let _ = writeln!(text, "bytes {hex:<15}# {:>4}  {about}", field.at);
    }
    text
}
