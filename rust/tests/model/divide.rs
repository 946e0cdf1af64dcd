//! All lists of a small card straight from the definition, over the card's nodes: every set of lines, every division of
//! the items, and at a name the residual of every entry, as Figure 1 of 000 has it. Sound cards only.
use super::decode::{word, LEFT, RIGHT};
use std::collections::BTreeSet;

type Lists = BTreeSet<Vec<u8>>;

/// A goal: a node of the card, or what a clause leaves to be derived.
#[derive(Clone)]
enum Goal {
    Node(usize),
    One,
    Zero,
    Tensor(Box<Goal>, Box<Goal>),
    Plus(Box<Goal>, Box<Goal>),
}

/// The ways to divide the items in two.
fn divisions(items: &[usize]) -> Vec<(Vec<usize>, Vec<usize>)> {
    let shares = |bits: usize| {
        let (mut left, mut right) = (Vec::new(), Vec::new());
        for (i, &e) in items.iter().enumerate() {
            if bits >> i & 1 == 1 {
                left.push(e)
            } else {
                right.push(e)
            }
        }
        (left, right)
    };
    (0..1 << items.len()).map(shares).collect()
}

fn all_pairs(left: &Lists, right: &Lists) -> Vec<Vec<u8>> {
    let pairs = left.iter().flat_map(|l| right.iter().map(move |r| [&l[..], &r[..]].concat()));
    pairs.collect()
}

fn behind(step: u8, lists: Lists) -> impl Iterator<Item = Vec<u8>> {
    lists.into_iter().map(move |l| [&[step], &l[..]].concat())
}

/// What stands in scope under an entry's number: its node, and whether it stays when it is used.
type Scope = Vec<(usize, bool)>;

struct Divide<'a> {
    card: &'a [u8],
    budget: usize,
}

impl Divide<'_> {
    fn node(&self, i: usize) -> (u8, usize, usize) {
        let at = 11 + 5 * i;
        (self.card[at], word(self.card, at + 1), word(self.card, at + 3))
    }

    /// D ≫ a \ G: what is left to be derived where the clause is used for the name.
    fn residual(&self, clause: usize, a: usize) -> Goal {
        let (kind, left, right) = self.node(clause);
        match kind {
            1 if left == a => Goal::One,
            7 => Goal::Tensor(Box::new(self.residual(right, a)), Box::new(Goal::Node(left))),
            10 => Goal::Plus(Box::new(self.residual(left, a)), Box::new(self.residual(right, a))),
            _ => Goal::Zero,
        }
    }

    /// All lists of the goal from all these items.
    fn goal(&mut self, scope: &mut Scope, items: &[usize], g: &Goal, depth: usize) -> Option<Lists> {
        self.budget = self.budget.checked_sub(1)?;
        let none = || Lists::from([Vec::new()]);
        let mut lists = match g {
            Goal::One if items.is_empty() => none(),
            Goal::One | Goal::Zero => Lists::new(),
            Goal::Tensor(a, b) => self.tensor(scope, items, [a, b], depth)?,
            Goal::Plus(a, b) => {
                let (l, r) = (self.goal(scope, items, a, depth)?, self.goal(scope, items, b, depth)?);
                behind(LEFT, l).chain(behind(RIGHT, r)).collect()
            }
            Goal::Node(i) => self.formula(scope, items, *i, depth)?,
        };
        lists.retain(|l| l.len() <= usize::from(self.card[10]));
        Some(lists)
    }

    fn formula(&mut self, scope: &mut Scope, items: &[usize], node: usize, depth: usize) -> Option<Lists> {
        let (kind, left, right) = self.node(node);
        let parts = || (Box::new(Goal::Node(left)), Box::new(Goal::Node(right)));
        match kind {
            1 => self.name(scope, items, left, depth),
            2 => Some(Lists::from([Vec::new()])),
            3 => self.goal(scope, items, &Goal::One, depth),
            4 => self.goal(scope, items, &Goal::Tensor(parts().0, parts().1), depth),
            5 => {
                let (l, r) = parts();
                let (l, r) = (self.goal(scope, items, &l, depth)?, self.goal(scope, items, &r, depth)?);
                Some(all_pairs(&l, &r).into_iter().collect())
            }
            6 => {
                let more = [items, &[scope.len()]].concat();
                scope.push((left, false));
                let lists = self.goal(scope, &more, &parts().1, depth);
                scope.pop();
                lists
            }
            8 => self.goal(scope, items, &Goal::Plus(parts().0, parts().1), depth),
            _ => self.goal(scope, items, &Goal::Zero, depth),
        }
    }

    fn tensor(
        &mut self,
        scope: &mut Scope,
        items: &[usize],
        parts: [&Goal; 2],
        depth: usize,
    ) -> Option<Lists> {
        let mut lists = Lists::new();
        for (left, right) in divisions(items) {
            let l = self.goal(scope, &left, parts[0], depth)?;
            if !l.is_empty() {
                lists.extend(all_pairs(&l, &self.goal(scope, &right, parts[1], depth)?));
            }
        }
        Some(lists)
    }

    fn name(&mut self, scope: &mut Scope, items: &[usize], a: usize, depth: usize) -> Option<Lists> {
        let mut lists = Lists::new();
        for e in 0..scope.len() {
            let (clause, stays) = scope[e];
            if depth > 0 && (stays || items.contains(&e)) {
                let left: Vec<usize> = items.iter().copied().filter(|&x| stays || x != e).collect();
                let residual = self.residual(clause, a);
                lists.extend(behind(e as u8, self.goal(scope, &left, &residual, depth - 1)?));
            }
        }
        Some(lists)
    }
}

/// All lists of a card's derivations within limits, in order; none where the budget is spent.
pub fn lists(card: &[u8], budget: usize) -> Option<Vec<Vec<u8>>> {
    let (p, t) = (usize::from(card[3]), usize::from(card[4]));
    let rules = 11 + 5 * word(card, 5);
    let line = |i: usize| rules + 2 * p + 3 * i;
    let mut scope: Scope = (0..p).map(|i| (word(card, rules + 2 * i), true)).collect();
    scope.extend((0..t).map(|i| (word(card, line(i)), false)));
    let part =
        |must: u8| -> Vec<usize> { (0..t).filter(|&i| card[line(i) + 2] == must).map(|i| p + i).collect() };
    let mut divide = Divide { card, budget };
    let mut all = Lists::new();
    for (may, _) in divisions(&part(0)) {
        let items = [part(1), may].concat();
        let goal = Goal::Node(word(card, 7));
        all.extend(divide.goal(&mut scope, &items, &goal, usize::from(card[9]))?);
    }
    Some(all.into_iter().collect())
}
