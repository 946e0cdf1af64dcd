//! The rules for cards and sheets once more, in plain Rust and by other means than the planner's: formulas as
//! trees, all lists of a goal at once with what each needs of the items, and a reader by a walk of its own. For
//! small cards all lists by dividing the items, for bigger ones the first list by counting. Two cards joined field by
//! field.
#![allow(dead_code)]
pub mod bench;
pub mod count;
pub mod decode;
pub mod divide;

use decode::{Card, Clause, Goal, Use, LEFT, RIGHT};
use kit_planner::{Place, Refusal};
use std::rc::Rc;

/// A set of entries by their numbers.
#[derive(Clone, Copy, PartialEq, Eq, Hash, Debug, Default)]
pub struct Items([u128; 2]);

impl Items {
    pub fn one(e: usize) -> Items {
        let mut s = Items::default();
        s.0[e / 128] |= 1 << (e % 128);
        s
    }
    pub fn has(self, e: usize) -> bool {
        self.0[e / 128] >> (e % 128) & 1 == 1
    }
    pub fn with(self, o: Items) -> Items {
        Items([self.0[0] | o.0[0], self.0[1] | o.0[1]])
    }
    pub fn without(self, o: Items) -> Items {
        Items([self.0[0] & !o.0[0], self.0[1] & !o.0[1]])
    }
    pub fn shared(self, o: Items) -> Items {
        self.without(self.without(o))
    }
    pub fn within(self, o: Items) -> bool {
        self.without(o) == Items::default()
    }
    pub fn apart(self, o: Items) -> bool {
        self.without(o) == self
    }
}

/// What stands in scope under an entry's number.
#[derive(Clone)]
pub struct Entry {
    pub clause: Rc<Clause>,
    pub stays: bool,
}

pub type Scope = Vec<Entry>;

/// A list with the items it uses, those of them that it surely uses, and whether some rest takes any others.
#[derive(Clone, Debug)]
pub struct Way {
    pub list: Vec<u8>,
    pub used: Items,
    pub surely: Items,
    pub slack: bool,
}

impl Way {
    pub fn none(slack: bool) -> Way {
        Way { list: Vec::new(), used: Items::default(), surely: Items::default(), slack }
    }

    fn beside(&self, right: &Way, surely: Items, slack: bool) -> Way {
        let list = [&self.list[..], &right.list[..]].concat();
        Way { list, used: self.used.with(right.used), surely, slack }
    }

    /// both: each item goes to one part, and what either part surely uses is surely used.
    pub fn both(&self, right: &Way) -> Option<Way> {
        let slack = self.slack || right.slack;
        let apart = self.used.apart(right.used);
        apart.then(|| self.beside(right, self.surely.with(right.surely), slack))
    }

    /// either way: all items go to each part, and only what each part surely uses is surely used.
    pub fn either(&self, right: &Way) -> Option<Way> {
        let used = self.used.with(right.used);
        let left_takes = self.slack || self.used == used;
        let right_takes = right.slack || right.used == used;
        let slack = self.slack && right.slack;
        (left_takes && right_takes).then(|| self.beside(right, self.surely.shared(right.surely), slack))
    }

    /// lend: the clause e is used inside, or some rest inside takes it.
    pub fn lent(mut self, e: usize) -> Option<Way> {
        let spent = self.slack || self.used.has(e);
        self.used = self.used.without(Items::one(e));
        self.surely = self.surely.without(Items::one(e));
        spent.then_some(self)
    }

    /// Behind these choices.
    pub fn behind(mut self, choices: &[u8]) -> Way {
        self.list.splice(0..0, choices.iter().copied());
        self
    }

    /// name: entry e, then its choices and the way of its conditions. An item is surely used here.
    pub fn using(mut self, e: usize, stays: bool) -> Option<Way> {
        if !stays {
            if self.used.has(e) {
                return None;
            }
            self.used = self.used.with(Items::one(e));
            self.surely = self.surely.with(Items::one(e));
        }
        self.list.insert(0, e as u8);
        Some(self)
    }
}

/// All ways within limits, unless they are more work than the budget allows.
struct Ways {
    budget: usize,
    limit: usize,
}

impl Ways {
    fn pay(&mut self, n: usize) -> Option<()> {
        self.budget = self.budget.checked_sub(n)?;
        Some(())
    }

    fn pairs(
        &mut self,
        left: &[Way],
        right: &[Way],
        join: fn(&Way, &Way) -> Option<Way>,
    ) -> Option<Vec<Way>> {
        self.pay(left.len() * right.len())?;
        let limit = self.limit;
        let pairs = left.iter().flat_map(|l| right.iter().filter_map(move |r| join(l, r)));
        Some(pairs.filter(|w| w.list.len() <= limit).collect())
    }

    fn goal(&mut self, scope: &mut Scope, g: &Goal, depth: usize) -> Option<Vec<Way>> {
        self.pay(1)?;
        match g {
            Goal::Done => Some(vec![Way::none(false)]),
            Goal::Rest => Some(vec![Way::none(true)]),
            Goal::Both(a, b) => {
                let (l, r) = (self.goal(scope, a, depth)?, self.goal(scope, b, depth)?);
                self.pairs(&l, &r, Way::both)
            }
            Goal::Either(a, b) => {
                let (l, r) = (self.goal(scope, a, depth)?, self.goal(scope, b, depth)?);
                self.pairs(&l, &r, Way::either)
            }
            Goal::Lend(d, g) => {
                let e = scope.len();
                scope.push(Entry { clause: d.clone(), stays: false });
                let ways = self.goal(scope, g, depth);
                scope.pop();
                Some(ways?.into_iter().filter_map(|w| w.lent(e)).collect())
            }
            Goal::OneOf(a, b) => {
                let (l, r) = (self.goal(scope, a, depth)?, self.goal(scope, b, depth)?);
                let left = l.into_iter().map(|w| w.behind(&[LEFT]));
                let all = left.chain(r.into_iter().map(|w| w.behind(&[RIGHT])));
                Some(all.filter(|w| w.list.len() <= self.limit).collect())
            }
            Goal::Never => Some(Vec::new()),
            Goal::Name(a) => self.name(scope, *a, depth),
        }
    }

    fn name(&mut self, scope: &mut Scope, a: u16, depth: usize) -> Option<Vec<Way>> {
        let mut all = Vec::new();
        if depth == 0 {
            return Some(all);
        }
        for e in 0..scope.len() {
            let entry = scope[e].clone();
            for u in entry.clause.giving(a) {
                let mut ways = vec![Way::none(false)];
                for g in &u.conditions {
                    let more = self.goal(scope, g, depth - 1)?;
                    ways = self.pairs(&ways, &more, Way::both)?;
                }
                let chosen = ways.into_iter().map(|w| w.behind(&u.choices));
                all.extend(chosen.filter_map(|w| w.using(e, entry.stays)));
            }
        }
        all.retain(|w| w.list.len() <= self.limit);
        Some(all)
    }
}

/// All lists of a card's derivations within limits, in order; none where the budget is spent.
pub fn lists(card: &Card, budget: usize) -> Option<Vec<Vec<u8>>> {
    let mut ways = Ways { budget, limit: card.s };
    let all = ways.goal(&mut card.scope(), &card.goal, card.d)?;
    let must = card.must();
    let good = all.into_iter().filter(|w| w.slack || must.within(w.used));
    let mut lists: Vec<_> = good.map(|w| w.list).collect();
    lists.sort();
    lists.dedup();
    Some(lists)
}

fn refused<T>(number: u8, place: Place) -> Result<T, Refusal> {
    Err(Refusal { number, place })
}

/// The sheet of a list.
pub fn sheet(card: &Card, list: &[u8]) -> Vec<u8> {
    let size = 5 + list.len() + card.lines.len();
    let mut bytes = vec![(size / 256) as u8, (size % 256) as u8, 1, list.len() as u8, card.lines.len() as u8];
    bytes.extend(list);
    bytes.extend(marks(card, list));
    bytes
}

/// Each line's true mark for a list, by the way that the list goes: 1 surely used, 3 in the list but not surely, 2 must
/// and not in it, 0 may and not in it. Where the steps go no way nothing is surely used.
pub fn marks(card: &Card, list: &[u8]) -> Vec<u8> {
    let walked = walk(&mut card.scope(), &card.goal, card.d, list);
    let surely = walked.map_or(Items::default(), |(way, _)| way.surely);
    let mark = |(i, &(_, must)): (usize, &(Rc<Clause>, bool))| {
        let e = card.rules.len() + i;
        match (surely.has(e), list.contains(&(e as u8)), must) {
            (true, ..) => 1,
            (false, true, _) => 3,
            (false, false, true) => 2,
            (false, false, false) => 0,
        }
    };
    card.lines.iter().enumerate().map(mark).collect()
}

/// What planning a card into a buffer of so many bytes answers: the sheet or a refusal; none where the budget
/// is spent. From all lists of the card.
pub fn plan(bytes: &[u8], size: usize, budget: usize) -> Option<Result<Vec<u8>, Refusal>> {
    planned(bytes, size, |card| Some(lists(card, budget)?.into_iter().next()))
}

/// The same by counting, for bigger cards.
pub fn plan_by_count(bytes: &[u8], size: usize, budget: usize) -> Option<Result<Vec<u8>, Refusal>> {
    planned(bytes, size, |card| count::first(card, budget))
}

fn planned(
    bytes: &[u8],
    size: usize,
    first: impl Fn(&Card) -> Option<Option<Vec<u8>>>,
) -> Option<Result<Vec<u8>, Refusal>> {
    let card = match decode::card(bytes) {
        Ok(card) => card,
        Err(refusal) => return Some(Err(refusal)),
    };
    if size < 5 + card.s + card.lines.len() {
        return Some(refused(10, Place::Sheet));
    }
    Some(match first(&card)? {
        Some(list) => Ok(sheet(&card, &list)),
        None => refused(11, Place::Card),
    })
}

/// The way through a clause that the steps from i on choose for the name, and the next step; or what is wrong there.
fn chosen<'a>(
    clause: &'a Clause,
    a: u16,
    steps: &[u8],
    mut i: usize,
) -> Result<(&'a Use, usize), (u8, usize)> {
    let mut open: Vec<&Use> = clause.giving(a).collect();
    let mut made = 0;
    while open[0].choices.len() > made {
        let side = *steps.get(i).ok_or((18, i))?;
        open.retain(|u| u.choices[made] == side);
        if open.is_empty() {
            return Err((13, i));
        }
        (made, i) = (made + 1, i + 1);
    }
    Ok((open[0], i))
}

/// What is still wanted, in order, the next one last: each goal with its nesting left and the clauses in its scope.
type Wanted = Vec<(Rc<Goal>, usize, Vec<Rc<Clause>>)>;

/// The first wrong step: its number and index. Who has used what is not minded.
fn first_wrong(card: &Card, steps: &[u8]) -> Option<(u8, usize)> {
    let scope: Vec<_> = card.scope().into_iter().map(|entry| entry.clause).collect();
    let mut wanted = vec![(card.goal.clone(), card.d, scope)];
    let mut i = 0;
    while !wanted.is_empty() {
        match take_up(&mut wanted, steps, i) {
            Ok(next) => i = next,
            Err(wrong) => return Some(wrong),
        }
    }
    (i < steps.len()).then_some((18, i))
}

/// Takes up the next goal: the next step, or what is wrong at this one.
fn take_up(wanted: &mut Wanted, steps: &[u8], i: usize) -> Result<usize, (u8, usize)> {
    let Some((goal, depth, mut scope)) = wanted.pop() else { return Ok(i) };
    let step = steps.get(i).copied().ok_or((18, i));
    match &*goal {
        Goal::Done | Goal::Rest | Goal::Never => return Ok(i),
        Goal::Both(a, b) | Goal::Either(a, b) => {
            wanted.push((b.clone(), depth, scope.clone()));
            wanted.push((a.clone(), depth, scope));
            return Ok(i);
        }
        Goal::Lend(d, g) => {
            scope.push(d.clone());
            wanted.push((g.clone(), depth, scope));
            return Ok(i);
        }
        Goal::OneOf(a, b) => {
            let side = match step? {
                LEFT => a,
                RIGHT => b,
                _ => return Err((13, i)),
            };
            wanted.push((side.clone(), depth, scope));
        }
        Goal::Name(a) => {
            let clause = scope.get(usize::from(step?)).filter(|d| d.gives(*a)).ok_or((13, i))?.clone();
            let left = depth.checked_sub(1).ok_or((17, i))?;
            let (u, next) = chosen(&clause, *a, steps, i + 1)?;
            wanted.extend(u.conditions.iter().rev().map(|g| (g.clone(), left, scope.clone())));
            return Ok(next);
        }
    }
    Ok(i + 1)
}

/// Follows a list through a goal: the way it goes, and how many steps it takes.
fn walk(scope: &mut Scope, g: &Goal, depth: usize, steps: &[u8]) -> Option<(Way, usize)> {
    match g {
        Goal::Done => Some((Way::none(false), 0)),
        Goal::Rest => Some((Way::none(true), 0)),
        Goal::Never => None,
        Goal::Both(a, b) | Goal::Either(a, b) => {
            let (l, n) = walk(scope, a, depth, steps)?;
            let (r, m) = walk(scope, b, depth, &steps[n..])?;
            let joined = if let Goal::Both(..) = g { l.both(&r) } else { l.either(&r) };
            Some((joined?, n + m))
        }
        Goal::OneOf(a, b) => {
            let side = match *steps.first()? {
                LEFT => a,
                RIGHT => b,
                _ => return None,
            };
            let (w, n) = walk(scope, side, depth, &steps[1..])?;
            Some((w, n + 1))
        }
        Goal::Lend(d, g) => {
            let e = scope.len();
            scope.push(Entry { clause: d.clone(), stays: false });
            let walked = walk(scope, g, depth, steps);
            scope.pop();
            let (w, n) = walked?;
            Some((w.lent(e)?, n))
        }
        Goal::Name(a) => walk_name(scope, *a, depth, steps),
    }
}

fn walk_name(scope: &mut Scope, a: u16, depth: usize, steps: &[u8]) -> Option<(Way, usize)> {
    let e = usize::from(*steps.first()?);
    let entry = scope.get(e)?.clone();
    let depth = depth.checked_sub(1)?;
    let u = entry.clause.giving(a).find(|u| steps[1..].starts_with(&u.choices))?;
    let (mut way, mut n) = (Way::none(false), 1 + u.choices.len());
    for g in &u.conditions {
        let (w, m) = walk(scope, g, depth, &steps[n..])?;
        way = way.both(&w)?;
        n += m;
    }
    Some((way.using(e, entry.stays)?, n))
}

/// The steps are the list of a derivation within limits.
pub fn listed(card: &Card, steps: &[u8]) -> bool {
    let walked = walk(&mut card.scope(), &card.goal, card.d, steps);
    let enough = |w: &Way| w.slack || card.must().within(w.used);
    steps.len() <= card.s && walked.is_some_and(|(w, n)| n == steps.len() && enough(&w))
}

/// What reading a sheet against a card answers.
pub fn read(bytes: &[u8], sheet: &[u8]) -> Result<usize, Refusal> {
    let card = decode::card(bytes)?;
    let t = card.lines.len();
    if sheet.len() < 5 {
        return refused(12, Place::Sheet);
    }
    let (size, k) = (usize::from(sheet[0]) * 256 + usize::from(sheet[1]), usize::from(sheet[3]));
    let framed = size == sheet.len() && sheet[2] == 1 && usize::from(sheet[4]) == t;
    if !framed || size != 5 + k + t || k > card.s {
        return refused(12, Place::Sheet);
    }
    let steps = &sheet[5..5 + k];
    if let Some((number, i)) = first_wrong(&card, steps) {
        return refused(number, Place::Step(i as u16));
    }
    if !listed(&card, steps) {
        return refused(19, Place::Steps);
    }
    let marks = marks(&card, steps);
    match (0..t).find(|&i| sheet[5 + k + i] != marks[i]) {
        Some(i) => refused(14, Place::Mark(i as u16)),
        None => Ok(k),
    }
}
