//! A card on the way from text to bytes.
use crate::card::{Line, Node, FRONT, HEIGHT_LIMIT, NODE_LIMIT};
use crate::kinds::{self, Holds, Reads};
use std::collections::HashMap;

/// Nodes with their heights, roots and limits; always within the format's limits.
#[derive(Default)]
pub struct Draft {
    nodes: Vec<Node>,
    heights: Vec<usize>,
    known: HashMap<Node, usize>,
    pub goal: Option<usize>,
    pub limits: Option<(u8, u8)>,
    pub rules: Vec<usize>,
    pub lines: Vec<Line>,
}

impl Draft {
    pub fn len(&self) -> usize {
        self.nodes.len()
    }

    pub fn is_empty(&self) -> bool {
        self.nodes.is_empty()
    }

    /// What a node reads as.
    pub fn reads(&self, node: usize) -> Reads {
        kinds::numbered(self.nodes[node].kind).expect("only known kinds are added").reads
    }

    /// The node equal to this one, or a new one.
    pub fn share(&mut self, node: Node) -> Result<usize, String> {
        match self.known.get(&node) {
            Some(&i) => Ok(i),
            None => self.add(node),
        }
    }

    /// A new node, of a known kind; or what of its parts, its height or their number does not fit.
    pub fn add(&mut self, node: Node) -> Result<usize, String> {
        let i = self.nodes.len();
        let kind = kinds::numbered(node.kind).expect("only known kinds are added");
        let mut height = 1;
        for (holds, value) in kind.fields.into_iter().zip(node.fields) {
            if holds.part() {
                let part = usize::from(value);
                if part >= i {
                    return Err(format!("node {part} is no part of node {i}: a part must be lower"));
                }
                if !holds.fits(self.reads(part)) {
                    let asked = if holds == Holds::Goal { "goal" } else { "clause" };
                    return Err(format!("node {part} is no {asked}, which {} asks for there", kind.word));
                }
                height = height.max(1 + self.heights[part]);
            }
        }
        if height > HEIGHT_LIMIT {
            return Err(format!("this has height {height}; at most {HEIGHT_LIMIT} fit a card"));
        }
        if i == NODE_LIMIT {
            return Err(format!("this is node {i}; a card has at most {NODE_LIMIT}"));
        }
        self.nodes.push(node);
        self.heights.push(height);
        self.known.entry(node).or_insert(i);
        Ok(i)
    }

    /// The card's bytes, if it has goal and limits.
    pub fn bytes(&self) -> Option<Vec<u8>> {
        let (nesting, steps) = self.limits?;
        let length = FRONT + 5 * self.nodes.len() + 2 * self.rules.len() + 3 * self.lines.len();
        let mut bytes = Vec::with_capacity(length);
        push(&mut bytes, length);
        bytes.extend([1, self.rules.len() as u8, self.lines.len() as u8]);
        push(&mut bytes, self.nodes.len());
        push(&mut bytes, self.goal?);
        bytes.extend([nesting, steps]);
        for node in &self.nodes {
            bytes.push(node.kind);
            node.fields.iter().for_each(|&field| push(&mut bytes, usize::from(field)));
        }
        self.rules.iter().for_each(|&node| push(&mut bytes, node));
        for line in &self.lines {
            push(&mut bytes, line.node);
            bytes.push(line.must);
        }
        Some(bytes)
    }
}

fn push(bytes: &mut Vec<u8>, word: usize) {
    bytes.extend([(word / 256) as u8, word as u8]);
}
