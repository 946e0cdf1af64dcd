//! The way of doing the job that a list of steps names: the goal walked with its steps, left part before right, a use
//! before its choices and these before its conditions.
use crate::card::{Entry, Sound};
use crate::kinds;
use std::collections::{BTreeMap, BTreeSet};

/// The words for the two sides of a choice.
pub const SIDES: [&str; 2] = ["left", "right"];

/// What a need is met for.
#[derive(Clone, Copy, Debug, PartialEq, Eq)]
pub enum Serves {
    Goal,
    /// The condition, counted from the head, of the entry used at this step.
    Condition {
        step: usize,
        count: usize,
    },
}

/// A side on the way to a need: of an either way, or the one chosen of a one of.
#[derive(Clone, Copy, Debug, PartialEq, Eq)]
pub enum Turn {
    Way(usize),
    Chosen(usize),
}

/// A step that the walk reached.
#[derive(Clone, Debug)]
pub enum Step {
    Use(Use),
    Choice(Choice),
}

/// A name met as a goal, and the entry that a step has for it.
#[derive(Clone, Debug)]
pub struct Use {
    pub step: usize,
    pub number: usize,
    pub entry: Entry,
    pub clause: usize,
    pub name: u16,
    pub nesting: usize,
    pub serves: Serves,
    /// The turns between that and the need, the outermost first.
    pub turns: Vec<Turn>,
}

/// A side taken of a node, which offers it, and the part on that side.
#[derive(Clone, Debug)]
pub struct Choice {
    pub step: usize,
    pub side: usize,
    pub node: usize,
    pub chosen: usize,
    pub offer: Offer,
}

/// Where a choice is to be made.
#[derive(Clone, Debug, PartialEq, Eq)]
pub enum Offer {
    /// At a one of that is met as a goal.
    OneOf { serves: Serves, turns: Vec<Turn> },
    /// At a menu of the entry used at this step.
    Menu { step: usize },
}

/// A goal, met.
#[derive(Clone, Debug)]
pub enum Way {
    /// The use at this step, the steps of its choices, and its conditions.
    Need {
        step: usize,
        choices: Vec<usize>,
        conditions: Vec<Way>,
    },
    Rest,
    Done,
    Both(Box<[Way; 2]>),
    Either(Box<[Way; 2]>),
    /// The lent clause's entry number and node, and the goal.
    Lend {
        number: usize,
        clause: usize,
        goal: Box<Way>,
    },
    /// The choice at this step, and the side taken.
    OneOf {
        step: usize,
        goal: Box<Way>,
    },
    /// What it is wanted for, which nothing meets.
    Never {
        serves: Serves,
        turns: Vec<Turn>,
    },
}

/// Why a walk stopped.
#[derive(Clone, Copy, Debug, PartialEq, Eq)]
pub enum Stop {
    /// There is no step any more.
    Missing,
    /// No entry has the step's number.
    NoEntry {
        entries: usize,
    },
    /// The entry is another name's, or nobody's.
    Misfit {
        clause: usize,
    },
    /// The step is a choice, but an entry is wanted.
    Choice,
    /// The step is no choice, but one is wanted.
    NoChoice,
    /// The side chosen of a menu does not give the name.
    WrongSide {
        chosen: usize,
    },
    Deep,
    /// All that is wanted was met before this step.
    Extra,
}

/// What is wanted where a walk stopped.
#[derive(Clone, Debug)]
pub enum Wanted {
    Nothing,
    Name { name: u16, nesting: usize, serves: Serves },
    Side { node: usize, offer: Offer },
}

/// Where a walk stopped, and why.
#[derive(Clone, Debug)]
pub struct Stopped {
    pub step: usize,
    pub stop: Stop,
    pub wanted: Wanted,
}

/// A walk: the steps taken, and the way or where it stopped.
pub struct Walk {
    pub taken: Vec<Step>,
    pub end: Result<Way, Stopped>,
}

/// The use at a step that is known to be one.
pub fn use_at(taken: &[Step], step: usize) -> &Use {
    match &taken[step] {
        Step::Use(one) => one,
        Step::Choice(_) => unreachable!("step {step} is a choice"),
    }
}

/// The side that a byte chooses, if it does.
pub fn side_of(byte: u8) -> Option<usize> {
    match kit_planner::Step::from(byte) {
        kit_planner::Step::Entry(_) => None,
        kit_planner::Step::Left => Some(0),
        kit_planner::Step::Right => Some(1),
    }
}

struct Walker<'a> {
    card: Sound<'a>,
    steps: &'a [u8],
    taken: Vec<Step>,
    lent: Vec<usize>,
    turns: Vec<Turn>,
}

/// Walks the card's goal with these steps.
pub fn walk(card: Sound, steps: &[u8]) -> Walk {
    let mut walker = Walker { card, steps, taken: Vec::new(), lent: Vec::new(), turns: Vec::new() };
    let mut end = walker.goal(card.goal(), Serves::Goal, 1);
    let step = walker.taken.len();
    if end.is_ok() && step < steps.len() {
        end = Err(Stopped { step, stop: Stop::Extra, wanted: Wanted::Nothing });
    }
    Walk { taken: walker.taken, end }
}

impl Walker<'_> {
    fn goal(&mut self, node: usize, serves: Serves, nesting: usize) -> Result<Way, Stopped> {
        let [left, right] = self.card.node(node).fields.map(usize::from);
        match self.card.node(node).kind {
            kinds::NAME => self.need(left as u16, serves, nesting),
            kinds::REST => Ok(Way::Rest),
            kinds::DONE => Ok(Way::Done),
            kinds::NEVER => Ok(Way::Never { serves, turns: self.turns.clone() }),
            kinds::LEND => {
                let number = self.card.rules() + self.card.lines() + self.lent.len();
                self.lent.push(left);
                let goal = self.goal(right, serves, nesting)?;
                self.lent.pop();
                Ok(Way::Lend { number, clause: left, goal: Box::new(goal) })
            }
            kinds::BOTH => {
                Ok(Way::Both([self.goal(left, serves, nesting)?, self.goal(right, serves, nesting)?].into()))
            }
            kinds::ONE_OF => {
                let offer = Offer::OneOf { serves, turns: self.turns.clone() };
                let (step, side) = (self.taken.len(), self.choice(node, offer, None)?);
                let goal = self.side(Turn::Chosen(side), [left, right][side], serves, nesting)?;
                Ok(Way::OneOf { step, goal: Box::new(goal) })
            }
            _ => {
                let one = self.side(Turn::Way(0), left, serves, nesting)?;
                Ok(Way::Either([one, self.side(Turn::Way(1), right, serves, nesting)?].into()))
            }
        }
    }

    /// A side of an either way, or the one chosen of a one of.
    fn side(&mut self, turn: Turn, node: usize, serves: Serves, nesting: usize) -> Result<Way, Stopped> {
        self.turns.push(turn);
        let way = self.goal(node, serves, nesting)?;
        self.turns.pop();
        Ok(way)
    }

    /// The side of the node that the next step takes; of a menu it has to give the name.
    fn choice(&mut self, node: usize, offer: Offer, name: Option<u16>) -> Result<usize, Stopped> {
        let step = self.taken.len();
        let stopped = |stop| Stopped { step, stop, wanted: Wanted::Side { node, offer: offer.clone() } };
        let byte = *self.steps.get(step).ok_or_else(|| stopped(Stop::Missing))?;
        let side = side_of(byte).ok_or_else(|| stopped(Stop::NoChoice))?;
        let chosen = usize::from(self.card.node(node).fields[side]);
        if name.is_some_and(|name| !self.card.heads(chosen).contains(&name)) {
            return Err(stopped(Stop::WrongSide { chosen }));
        }
        self.taken.push(Step::Choice(Choice { step, side, node, chosen, offer }));
        Ok(side)
    }

    /// The clause of an entry in scope.
    fn clause(&self, number: usize) -> Option<usize> {
        match self.card.entry(number) {
            Entry::Rule(i) => Some(self.card.rule(i)),
            Entry::Line(i) => Some(self.card.line(i).node),
            Entry::Lent(i) => self.lent.get(i).copied(),
        }
    }

    /// The entry that the next step names, and its clause.
    fn entry(&self, name: u16, serves: Serves, nesting: usize) -> Result<(usize, usize), Stopped> {
        let step = self.taken.len();
        let stopped = |stop| Err(Stopped { step, stop, wanted: Wanted::Name { name, nesting, serves } });
        let Some(&number) = self.steps.get(step) else { return stopped(Stop::Missing) };
        if side_of(number).is_some() {
            return stopped(Stop::Choice);
        }
        let number = usize::from(number);
        let Some(clause) = self.clause(number) else {
            let entries = self.card.rules() + self.card.lines() + self.lent.len();
            return stopped(Stop::NoEntry { entries });
        };
        if !self.card.heads(clause).contains(&name) {
            return stopped(Stop::Misfit { clause });
        }
        if nesting > self.card.nesting_limit() {
            return stopped(Stop::Deep);
        }
        Ok((number, clause))
    }

    fn need(&mut self, name: u16, serves: Serves, nesting: usize) -> Result<Way, Stopped> {
        let (number, clause) = self.entry(name, serves, nesting)?;
        let (step, entry) = (self.taken.len(), self.card.entry(number));
        let turns = std::mem::take(&mut self.turns);
        let one = Use { step, number, entry, clause, name, nesting, serves, turns: turns.clone() };
        self.taken.push(Step::Use(one));
        let (choices, asked) = self.through(clause, name, step)?;
        let mut conditions = Vec::new();
        for (count, condition) in asked.into_iter().enumerate() {
            conditions.push(self.goal(condition, Serves::Condition { step, count }, nesting + 1)?);
        }
        self.turns = turns;
        Ok(Way::Need { step, choices, conditions })
    }

    /// Through a clause, used at this step, to the name: the steps of its choices, and its conditions from the head on.
    fn through(
        &mut self,
        clause: usize,
        name: u16,
        step: usize,
    ) -> Result<(Vec<usize>, Vec<usize>), Stopped> {
        let (mut choices, mut conditions) = (Vec::new(), Vec::new());
        let mut at = clause;
        loop {
            let parts = self.card.node(at).fields.map(usize::from);
            match self.card.node(at).kind {
                kinds::RECIPE => {
                    conditions.push(parts[0]);
                    at = parts[1];
                }
                kinds::MENU => {
                    choices.push(self.taken.len());
                    at = parts[self.choice(at, Offer::Menu { step }, Some(name))?];
                }
                _ => break,
            }
        }
        conditions.reverse();
        Ok((choices, conditions))
    }
}

/// The entries that a way surely uses: whichever side of each either way is walked.
pub fn surely(taken: &[Step], way: &Way) -> BTreeSet<usize> {
    match way {
        Way::Rest | Way::Done | Way::Never { .. } => BTreeSet::new(),
        Way::Need { step, conditions, .. } => {
            let mut used = BTreeSet::from([use_at(taken, *step).number]);
            used.extend(conditions.iter().flat_map(|condition| surely(taken, condition)));
            used
        }
        Way::Both(parts) => &surely(taken, &parts[0]) | &surely(taken, &parts[1]),
        Way::Either(parts) => &surely(taken, &parts[0]) & &surely(taken, &parts[1]),
        Way::OneOf { goal, .. } | Way::Lend { goal, .. } => surely(taken, goal),
    }
}

/// Why no derivation goes a way.
#[derive(Clone, Debug, PartialEq, Eq)]
pub enum Amiss {
    /// The entry is used at both steps.
    Twice { number: usize, steps: [usize; 2] },
    /// A must line that no step uses and no rest takes.
    Unused { line: usize },
    /// A lent clause likewise.
    LentOver { number: usize, clause: usize },
    /// One side of an either way uses it at this step; the other does not, and has no rest for it.
    OneSide { number: usize, step: usize },
    /// Never is wanted.
    Never { serves: Serves, turns: Vec<Turn> },
}

/// What a way spends: items by entry number with their step, and whether a rest takes what is left.
#[derive(Default)]
struct Spent {
    items: BTreeMap<usize, usize>,
    rest: bool,
}

/// What is amiss with a walk that reached its end.
pub fn amiss(card: Sound, taken: &[Step], way: &Way) -> Option<Amiss> {
    let spent = match spend(taken, way) {
        Ok(spent) => spent,
        Err(amiss) => return Some(amiss),
    };
    let unused =
        |&line: &usize| card.line(line).must == 1 && !spent.items.contains_key(&(card.rules() + line));
    (0..card.lines()).find(unused).filter(|_| !spent.rest).map(|line| Amiss::Unused { line })
}

fn spend(taken: &[Step], way: &Way) -> Result<Spent, Amiss> {
    match way {
        Way::Rest => Ok(Spent { rest: true, ..Spent::default() }),
        Way::Done => Ok(Spent::default()),
        Way::Never { serves, turns } => Err(Amiss::Never { serves: *serves, turns: turns.clone() }),
        Way::Need { step, conditions, .. } => {
            let mut all = Spent::default();
            let one = use_at(taken, *step);
            if !matches!(one.entry, Entry::Rule(_)) {
                all.items.insert(one.number, *step);
            }
            for condition in conditions {
                all = beside(all, spend(taken, condition)?)?;
            }
            Ok(all)
        }
        Way::Both(parts) => beside(spend(taken, &parts[0])?, spend(taken, &parts[1])?),
        Way::Either(parts) => instead(spend(taken, &parts[0])?, spend(taken, &parts[1])?),
        Way::OneOf { goal, .. } => spend(taken, goal),
        Way::Lend { number, clause, goal } => {
            let mut spent = spend(taken, goal)?;
            match spent.items.remove(number) {
                None if !spent.rest => Err(Amiss::LentOver { number: *number, clause: *clause }),
                _ => Ok(spent),
            }
        }
    }
}

/// Both, each from its share.
fn beside(mut left: Spent, right: Spent) -> Result<Spent, Amiss> {
    for (number, step) in right.items {
        if let Some(before) = left.items.insert(number, step) {
            return Err(Amiss::Twice { number, steps: [before, step] });
        }
    }
    left.rest |= right.rest;
    Ok(left)
}

/// Each from all the items.
fn instead(mut left: Spent, right: Spent) -> Result<Spent, Amiss> {
    for (one, other) in [(&left, &right), (&right, &left)] {
        let lacking = one.items.iter().find(|(number, _)| !other.items.contains_key(number));
        if let Some((&number, &step)) = lacking.filter(|_| !other.rest) {
            return Err(Amiss::OneSide { number, step });
        }
    }
    left.items.extend(right.items);
    left.rest &= right.rest;
    Ok(left)
}
