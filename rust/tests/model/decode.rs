//! A card from its bytes, or the first of the refusals 1 to 9.
use super::{Entry, Items, Scope};
use kit_planner::{Place, Refusal};
use std::rc::Rc;

#[derive(Debug, PartialEq, Eq)]
pub enum Goal {
    Name(u16),
    Rest,
    Done,
    Both(Rc<Goal>, Rc<Goal>),
    Either(Rc<Goal>, Rc<Goal>),
    Lend(Rc<Clause>, Rc<Goal>),
    OneOf(Rc<Goal>, Rc<Goal>),
    Never,
}

/// The bytes of a choice.
pub const LEFT: u8 = 254;
pub const RIGHT: u8 = 255;

/// One way through a clause: the sides taken at its menus, the outermost first; its head, if it has one; its
/// conditions, the nearest to the head first.
#[derive(Debug, Clone, PartialEq, Eq)]
pub struct Use {
    pub choices: Vec<u8>,
    pub head: Option<u16>,
    pub conditions: Vec<Rc<Goal>>,
}

/// A clause by the ways through it, left before right.
#[derive(Debug, Clone, PartialEq, Eq)]
pub struct Clause {
    pub uses: Vec<Use>,
    pub height: usize,
}

impl Clause {
    fn bare(head: Option<u16>) -> Clause {
        Clause { uses: vec![Use { choices: Vec::new(), head, conditions: Vec::new() }], height: 1 }
    }

    /// The ways through it whose head is this name.
    pub fn giving(&self, a: u16) -> impl Iterator<Item = &Use> {
        self.uses.iter().filter(move |u| u.head == Some(a))
    }

    pub fn gives(&self, a: u16) -> bool {
        self.giving(a).next().is_some()
    }

    /// The same behind one more condition, the farthest from the head.
    fn recipe(&self, condition: &Rc<Goal>, height: usize) -> Clause {
        let mut uses = self.uses.clone();
        uses.iter_mut().for_each(|u| u.conditions.push(condition.clone()));
        Clause { uses, height }
    }

    fn menu(&self, right: &Clause, height: usize) -> Clause {
        let mut uses = [&self.uses[..], &right.uses[..]].concat();
        for (i, u) in uses.iter_mut().enumerate() {
            u.choices.insert(0, if i < self.uses.len() { LEFT } else { RIGHT });
        }
        Clause { uses, height }
    }
}

/// A sound card.
#[derive(Debug)]
pub struct Card {
    pub rules: Vec<Rc<Clause>>,
    pub lines: Vec<(Rc<Clause>, bool)>,
    pub goal: Rc<Goal>,
    pub d: usize,
    pub s: usize,
}

impl Card {
    pub fn scope(&self) -> Scope {
        let rules = self.rules.iter().map(|c| Entry { clause: c.clone(), stays: true });
        let lines = self.lines.iter().map(|l| Entry { clause: l.0.clone(), stays: false });
        rules.chain(lines).collect()
    }

    pub fn must(&self) -> Items {
        let musts = (0..self.lines.len()).filter(|&i| self.lines[i].1);
        musts.fold(Items::default(), |s, i| s.with(Items::one(self.rules.len() + i)))
    }
}

/// A node read as a goal and as a clause, where it can be, and its height.
#[derive(Clone)]
struct Node {
    goal: Option<Rc<Goal>>,
    clause: Option<Rc<Clause>>,
    height: usize,
}

pub fn word(bytes: &[u8], at: usize) -> usize {
    usize::from(bytes[at]) * 256 + usize::from(bytes[at + 1])
}

type Test = fn(&[u8]) -> bool;

fn front(bytes: &[u8]) -> Option<u8> {
    let checks: [(u8, Test); 5] = [
        (1, |b| b.len() < 11),
        (2, |b| word(b, 0) != b.len()),
        (3, |b| b[2] != 1),
        (4, |b| b[3] > 64 || b[4] > 64 || !(1..=512).contains(&word(b, 5)) || b[9] > 16),
        (5, |b| b.len() != 11 + 5 * word(b, 5) + 2 * usize::from(b[3]) + 3 * usize::from(b[4])),
    ];
    checks.iter().find(|c| c.1(bytes)).map(|c| c.0)
}

fn leaf(goal: Goal, clause: Option<Clause>) -> Node {
    Node { goal: Some(Rc::new(goal)), clause: clause.map(Rc::new), height: 1 }
}

fn node(below: &[Node], kind: u8, left: usize, right: usize) -> Option<Node> {
    match (kind, left, right) {
        (1, 0..=999, 0) => {
            let name = left as u16;
            return Some(leaf(Goal::Name(name), Some(Clause::bare(Some(name)))));
        }
        (2, 0, 0) => return Some(leaf(Goal::Rest, Some(Clause::bare(None)))),
        (3, 0, 0) => return Some(leaf(Goal::Done, None)),
        (9, 0, 0) => return Some(leaf(Goal::Never, None)),
        (4..=8 | 10, _, _) => {}
        _ => return None,
    }
    let (l, r) = (below.get(left)?, below.get(right)?);
    let height = Some(1 + l.height.max(r.height)).filter(|&h| h <= 8)?;
    let (mut goal, mut clause) = (None, None);
    match kind {
        4 => goal = Some(Goal::Both(l.goal.clone()?, r.goal.clone()?)),
        5 => goal = Some(Goal::Either(l.goal.clone()?, r.goal.clone()?)),
        6 => goal = Some(Goal::Lend(l.clause.clone()?, r.goal.clone()?)),
        7 => clause = Some(r.clause.as_ref()?.recipe(l.goal.as_ref()?, height)),
        8 => goal = Some(Goal::OneOf(l.goal.clone()?, r.goal.clone()?)),
        _ => clause = Some(l.clause.as_ref()?.menu(r.clause.as_ref()?, height)),
    }
    Some(Node { goal: goal.map(Rc::new), clause: clause.map(Rc::new), height })
}

fn refusal(number: u8, place: Place) -> Refusal {
    Refusal { number, place }
}

/// The card, or the first refusal that applies.
pub fn card(bytes: &[u8]) -> Result<Card, Refusal> {
    if let Some(number) = front(bytes) {
        return Err(refusal(number, Place::Card));
    }
    let (p, t, n) = (usize::from(bytes[3]), usize::from(bytes[4]), word(bytes, 5));
    let mut nodes: Vec<Node> = Vec::new();
    for i in 0..n {
        let at = 11 + 5 * i;
        let made = node(&nodes, bytes[at], word(bytes, at + 1), word(bytes, at + 3));
        nodes.push(made.ok_or(refusal(6, Place::Node(i as u16)))?);
    }
    let clause = |at| nodes.get(word(bytes, at)).and_then(|x| x.clause.clone());
    let goal = nodes.get(word(bytes, 7)).and_then(|x| x.goal.clone());
    let goal = goal.ok_or(refusal(7, Place::Card))?;
    let mut rules = Vec::new();
    for i in 0..p {
        rules.push(clause(11 + 5 * n + 2 * i).ok_or(refusal(8, Place::Rule(i as u16)))?);
    }
    let mut lines = Vec::new();
    for i in 0..t {
        let at = 11 + 5 * n + 2 * p + 3 * i;
        let line = clause(at).filter(|_| bytes[at + 2] <= 1);
        lines.push((line.ok_or(refusal(9, Place::Line(i as u16)))?, bytes[at + 2] == 1));
    }
    Ok(Card { rules, lines, goal, d: usize::from(bytes[9]), s: usize::from(bytes[10]) })
}
