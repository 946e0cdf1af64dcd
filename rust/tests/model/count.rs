//! The first list of a card by counting. Equal clauses are interchangeable, so what a goal is derived from is
//! told by how many clauses of each class it takes, and of all lists with the same counts only the least number
//! of steps matters. The list is then found step by step: the lowest entry after which the rest of the goal can
//! still be derived from what is left.
use super::decode::{Card, Clause, Goal, Use, LEFT, RIGHT};
use super::Items;
use std::collections::{BTreeSet, HashMap};
use std::rc::Rc;

/// What a derivation takes: the items that the given steps name, how many others of each class, and whether
/// some rest takes any more.
#[derive(Clone, PartialEq, Eq, Hash)]
struct Take {
    named: Items,
    others: Vec<u8>,
    slack: bool,
}

/// All that a goal can take, each with the least number of steps.
type Takes = HashMap<Take, usize>;

/// An entry, with its class unless it is a rule.
#[derive(Clone)]
struct Entry {
    clause: Rc<Clause>,
    class: Option<usize>,
}

struct Count<'a> {
    card: &'a Card,
    either: bool,
    /// The different clauses among lines and lent clauses. Of each, how many lines there are, and how often
    /// one goal lends it, at most, inside itself.
    classes: Vec<Rc<Clause>>,
    lines: Vec<usize>,
    lent: Vec<usize>,
    /// The different clauses by each of their heads, with their classes, rules without.
    makers: HashMap<u16, Vec<Entry>>,
    known: HashMap<(*const Goal, usize), Rc<Takes>>,
    /// What stands in scope where the walk is, and the steps that can follow the given ones.
    scope: Vec<Entry>,
    next: Option<Vec<u8>>,
    budget: usize,
}

/// The goals of a card, those of its clauses and lent clauses with them; the clauses they lend; and whether there
/// is an either way.
#[derive(Default)]
struct Held {
    goals: Vec<Rc<Goal>>,
    lent: Vec<Rc<Clause>>,
    either: bool,
}

impl Held {
    fn goal(&mut self, g: &Goal) {
        match g {
            Goal::Both(a, b) | Goal::Either(a, b) | Goal::OneOf(a, b) => {
                self.either |= matches!(g, Goal::Either(..));
                self.goal(a);
                self.goal(b);
            }
            Goal::Lend(d, g) => {
                self.lent.push(d.clone());
                self.clause(d);
                self.goal(g);
            }
            _ => {}
        }
    }

    /// Each condition once: those outside a menu are the conditions of several uses.
    fn clause(&mut self, c: &Clause) {
        let mut seen: Vec<&Rc<Goal>> = Vec::new();
        for g in c.uses.iter().flat_map(|u| &u.conditions) {
            if !seen.iter().any(|other| Rc::ptr_eq(other, g)) {
                seen.push(g);
                self.goals.push(g.clone());
                self.goal(g);
            }
        }
    }
}

/// How often the clause is lent on the way to any place in the goal.
fn lent_inside(g: &Goal, c: &Clause) -> usize {
    match g {
        Goal::Both(a, b) | Goal::Either(a, b) | Goal::OneOf(a, b) => lent_inside(a, c).max(lent_inside(b, c)),
        Goal::Lend(d, g) => usize::from(**d == *c) + lent_inside(g, c),
        _ => 0,
    }
}

fn different(clauses: impl Iterator<Item = Rc<Clause>>) -> Vec<Rc<Clause>> {
    let mut all: Vec<Rc<Clause>> = Vec::new();
    for c in clauses {
        if !all.contains(&c) {
            all.push(c);
        }
    }
    all
}

fn keep(takes: &mut Takes, take: Take, steps: usize) {
    takes.entry(take).and_modify(|least| *least = steps.min(*least)).or_insert(steps);
}

impl Count<'_> {
    fn new(card: &Card, budget: usize) -> Count<'_> {
        let mut held = Held { goals: vec![card.goal.clone()], ..Held::default() };
        held.goal(&card.goal);
        card.rules.iter().chain(card.lines.iter().map(|l| &l.0)).for_each(|c| held.clause(c));
        let Held { goals, lent, either } = held;
        let classes = different(card.lines.iter().map(|l| l.0.clone()).chain(lent));
        let lines = classes.iter().map(|c| card.lines.iter().filter(|l| l.0 == *c).count()).collect();
        let inside = |c| goals.iter().map(|g| lent_inside(g, c)).max().unwrap_or(0);
        let lent = classes.iter().map(|c| inside(c)).collect();
        let mut makers: HashMap<u16, Vec<Entry>> = HashMap::new();
        let rules =
            different(card.rules.iter().cloned()).into_iter().map(|clause| Entry { clause, class: None });
        let items = classes.iter().enumerate().map(|(i, c)| Entry { clause: c.clone(), class: Some(i) });
        for entry in rules.chain(items) {
            let heads: BTreeSet<u16> = entry.clause.uses.iter().filter_map(|u| u.head).collect();
            heads.into_iter().for_each(|head| makers.entry(head).or_default().push(entry.clone()));
        }
        let (known, scope, next) = (HashMap::new(), Vec::new(), None);
        let mut count = Count { card, either, classes, lines, lent, makers, known, scope, next, budget };
        let entries = card.rules.iter().map(|c| Entry { clause: c.clone(), class: None });
        let lines = card.lines.iter().map(|l| Entry { clause: l.0.clone(), class: count.class(&l.0) });
        count.scope = entries.chain(lines).collect();
        count
    }

    fn class(&self, c: &Rc<Clause>) -> Option<usize> {
        self.classes.iter().position(|x| x == c)
    }

    fn nothing(&self, slack: bool) -> Takes {
        Takes::from([(Take { named: Items::default(), others: vec![0; self.classes.len()], slack }, 0)])
    }

    /// Whether there can be so many, this deep: each use on the way here, and the card's goal, lent some.
    fn at_hand(&self, take: &Take, depth: usize) -> bool {
        let goals = 1 + self.card.d - depth;
        let most = self.lines.iter().zip(&self.lent).map(|(lines, lent)| lines + lent * goals);
        take.others.iter().zip(most).all(|(&n, most)| usize::from(n) <= most)
    }

    fn pairs(
        &mut self,
        l: &Takes,
        r: &Takes,
        depth: usize,
        join: fn(&Self, &Take, &Take) -> Option<Take>,
    ) -> Option<Takes> {
        self.budget = self.budget.checked_sub(l.len() * r.len())?;
        let mut all = Takes::new();
        for (a, n) in l {
            for (b, m) in r {
                if n + m <= self.card.s {
                    let joined = join(self, a, b).filter(|t| self.at_hand(t, depth));
                    joined.into_iter().for_each(|t| keep(&mut all, t, n + m));
                }
            }
        }
        Some(all)
    }

    /// Each part has items of its own.
    fn both(&self, a: &Take, b: &Take) -> Option<Take> {
        let others = a.others.iter().zip(&b.others).map(|(x, y)| x + y).collect();
        let take = Take { named: a.named.with(b.named), others, slack: a.slack || b.slack };
        a.named.apart(b.named).then_some(take)
    }

    /// Each part takes the same items: those that either names, and as many others.
    fn either(&self, a: &Take, b: &Take) -> Option<Take> {
        let named = a.named.with(b.named);
        let mut others = Vec::new();
        for class in 0..self.classes.len() {
            // what each part takes besides the named; below 0 where it takes fewer than are named
            let beside = |t: &Take| i32::from(t.others[class]) - self.of_class(named.without(t.named), class);
            let (l, r) = (beside(a), beside(b));
            let n = l.max(r).max(0);
            if (n != l && !a.slack) || (n != r && !b.slack) {
                return None;
            }
            others.push(n as u8);
        }
        Some(Take { named, others, slack: a.slack && b.slack })
    }

    fn of_class(&self, items: Items, class: usize) -> i32 {
        if items == Items::default() {
            return 0;
        }
        (0..self.scope.len()).filter(|&e| items.has(e) && self.scope[e].class == Some(class)).count() as i32
    }

    /// The lent clause is taken, by name or not, or covered by some rest.
    fn lend(&self, takes: &Takes, lent: Items, class: usize) -> Takes {
        let mut all = Takes::new();
        for (take, &n) in takes {
            let mut take = take.clone();
            if !take.named.apart(lent) {
                take.named = take.named.without(lent);
            } else if take.others[class] > 0 {
                take.others[class] -= 1;
            } else if !take.slack {
                continue;
            }
            keep(&mut all, take, n);
        }
        all
    }

    /// All that a goal can take, whatever is in scope.
    fn goal(&mut self, g: &Rc<Goal>, depth: usize) -> Option<Rc<Takes>> {
        let key = (Rc::as_ptr(g), depth);
        if let Some(takes) = self.known.get(&key) {
            return Some(takes.clone());
        }
        let takes = Rc::new(match &**g {
            Goal::Done => self.nothing(false),
            Goal::Rest => self.nothing(true),
            Goal::Both(a, b) => {
                let (l, r) = (self.goal(a, depth)?, self.goal(b, depth)?);
                self.pairs(&l, &r, depth, Self::both)?
            }
            Goal::Either(a, b) => {
                let (l, r) = (self.goal(a, depth)?, self.goal(b, depth)?);
                self.pairs(&l, &r, depth, Self::either)?
            }
            Goal::Lend(d, g) => {
                let (class, takes) = (self.class(d)?, self.goal(g, depth)?);
                self.lend(&takes, Items::default(), class)
            }
            Goal::OneOf(a, b) => {
                let (l, r) = (self.goal(a, depth)?, self.goal(b, depth)?);
                self.one_of(&[&l, &r])
            }
            Goal::Never => Takes::new(),
            Goal::Name(a) => self.name(*a, depth)?,
        });
        self.known.insert(key, takes.clone());
        Some(takes)
    }

    /// What any of the sides takes, behind its choice.
    fn one_of(&self, sides: &[&Takes]) -> Takes {
        let mut all = Takes::new();
        for (take, n) in sides.iter().flat_map(|side| side.iter()).filter(|t| *t.1 < self.card.s) {
            keep(&mut all, take.clone(), n + 1);
        }
        all
    }

    fn name(&mut self, a: u16, depth: usize) -> Option<Takes> {
        let mut all = Takes::new();
        if depth == 0 {
            return Some(all);
        }
        for Entry { clause, class } in self.makers.get(&a).cloned().unwrap_or_default() {
            for u in clause.giving(a) {
                let takes = self.conditions(u, depth - 1, &mut None)?;
                for (mut take, n) in takes.into_iter().filter(|t| t.1 + u.choices.len() < self.card.s) {
                    if let Some(class) = class {
                        take.others[class] += 1;
                    }
                    if self.at_hand(&take, depth) {
                        keep(&mut all, take, n + u.choices.len() + 1);
                    }
                }
            }
        }
        Some(all)
    }

    /// All that the conditions of a use take together, along the steps if there are some.
    fn conditions(&mut self, u: &Use, depth: usize, steps: &mut Option<&mut &[u8]>) -> Option<Takes> {
        let mut takes = self.nothing(false);
        for g in &u.conditions {
            let more = match steps {
                Some(steps) => self.walk(g, depth, steps)?,
                None => self.goal(g, depth)?,
            };
            takes = self.pairs(&takes, &more, depth, Self::both)?;
        }
        Some(takes)
    }

    /// All that a goal can take whose list begins with the steps, as far as they go.
    fn walk(&mut self, g: &Rc<Goal>, depth: usize, steps: &mut &[u8]) -> Option<Rc<Takes>> {
        if self.next.is_some() {
            return self.goal(g, depth);
        }
        Some(Rc::new(match &**g {
            Goal::Done | Goal::Rest | Goal::Never => return self.goal(g, depth),
            Goal::Both(a, b) => {
                let (l, r) = (self.walk(a, depth, steps)?, self.walk(b, depth, steps)?);
                self.pairs(&l, &r, depth, Self::both)?
            }
            Goal::Either(a, b) => {
                let (l, r) = (self.walk(a, depth, steps)?, self.walk(b, depth, steps)?);
                self.pairs(&l, &r, depth, Self::either)?
            }
            Goal::Lend(d, g) => {
                let (e, class) = (self.scope.len(), self.class(d)?);
                self.scope.push(Entry { clause: d.clone(), class: Some(class) });
                let takes = self.walk(g, depth, steps);
                self.scope.pop();
                self.lend(&*takes?, Items::one(e), class)
            }
            Goal::OneOf(..) | Goal::Name(_) => return self.walk_step(g, depth, steps),
        }))
    }

    /// The same of a goal that takes a step.
    fn walk_step(&mut self, g: &Rc<Goal>, depth: usize, steps: &mut &[u8]) -> Option<Rc<Takes>> {
        let Some((&step, others)) = steps.split_first() else {
            self.next = Some(self.first_steps(g));
            return self.goal(g, depth);
        };
        *steps = others;
        let takes = match &**g {
            Goal::OneOf(a, b) => {
                let taken = self.walk(if step == LEFT { a } else { b }, depth, steps)?;
                self.one_of(&[&taken])
            }
            Goal::Name(a) => self.step(usize::from(step), *a, depth, steps)?,
            _ => unreachable!("no other goal takes a step"),
        };
        Some(Rc::new(takes))
    }

    /// The steps that a goal can begin with: the entries that fit a name, or both choices.
    fn first_steps(&self, g: &Goal) -> Vec<u8> {
        match g {
            Goal::Name(a) => {
                let fits = |e: &usize| self.scope[*e].clause.gives(*a);
                (0..self.scope.len()).filter(fits).map(|e| e as u8).collect()
            }
            _ => vec![LEFT, RIGHT],
        }
    }

    /// The use of the entry, which fits, at a name: by the given choices and, where they are too few, any others.
    fn step(&mut self, e: usize, a: u16, depth: usize, steps: &mut &[u8]) -> Option<Takes> {
        if depth == 0 {
            return Some(Takes::new());
        }
        let Entry { clause, class } = self.scope[e].clone();
        let mut open: Vec<&Use> = clause.giving(a).collect();
        let mut made = 0;
        while open[0].choices.len() > made && self.next.is_none() {
            match steps.split_first() {
                Some((side, others)) => {
                    open.retain(|u| u.choices[made] == *side);
                    (made, *steps) = (made + 1, others);
                }
                None => {
                    let sides: BTreeSet<u8> = open.iter().map(|u| u.choices[made]).collect();
                    self.next = Some(sides.into_iter().collect());
                }
            }
        }
        let item = class.map_or(Items::default(), |_| Items::one(e));
        let mut all = Takes::new();
        for u in open {
            for (mut take, n) in self.conditions(u, depth - 1, &mut Some(&mut *steps))? {
                if take.named.apart(item) && n + u.choices.len() < self.card.s {
                    take.named = take.named.with(item);
                    keep(&mut all, take, n + u.choices.len() + 1);
                }
            }
        }
        Some(all)
    }

    /// The least number of steps of a list that begins with these and takes all must lines, or has some rest
    /// for them, and no more than there are; and the steps that can follow. Those given fit what is wanted.
    fn least(&mut self, steps: &[u8]) -> Option<(Option<usize>, Vec<u8>)> {
        self.next = None;
        let takes = self.walk(&self.card.goal.clone(), self.card.d, &mut &steps[..])?;
        let mut left = (Items::default(), self.left(Items::default()));
        let mut least = None;
        for (take, &n) in takes.iter() {
            if left.0 != take.named {
                left = (take.named, self.left(take.named));
            }
            let met = |(&n, &(lines, musts)): (&u8, &(u8, u8))| n <= lines && (take.slack || musts <= n);
            if least.is_none_or(|l| n < l) && take.others.iter().zip(&left.1).all(met) {
                least = Some(n);
            }
        }
        Some((least, self.next.take().unwrap_or_default()))
    }

    /// How many lines of each class are not named, and how many of these are must.
    fn left(&self, named: Items) -> Vec<(u8, u8)> {
        let mut left = vec![(0, 0); self.classes.len()];
        let p = self.card.rules.len();
        for (i, line) in self.card.lines.iter().enumerate().filter(|l| !named.has(p + l.0)) {
            let class = &mut left[self.scope[p + i].class.expect("a line has a class")];
            *class = (class.0 + 1, class.1 + u8::from(line.1));
        }
        left
    }

    /// Steps with the same number serve alike: equal lines that are must or may alike, none of them used yet.
    /// None for a line that is used and cannot be again.
    fn likeness(&self, e: u8, steps: &[u8]) -> Option<usize> {
        let used = steps.contains(&e);
        let i = usize::from(e).wrapping_sub(self.card.rules.len());
        match (self.card.lines.get(i), self.scope.get(usize::from(e))) {
            (Some(_), _) if used && !self.either => None,
            (Some(line), Some(entry)) if !used => Some(256 + 2 * entry.class? + usize::from(line.1)),
            _ => Some(usize::from(e)),
        }
    }
}

/// The first list of a card's derivations within limits, if there is one; none where the budget is spent.
pub fn first(card: &Card, budget: usize) -> Option<Option<Vec<u8>>> {
    let mut count = Count::new(card, budget);
    let (mut least, mut next) = count.least(&[])?;
    let mut steps = Vec::new();
    while least.is_some_and(|n| n > steps.len()) {
        let mut tried = Vec::new();
        for e in next.clone() {
            let like = count.likeness(e, &steps);
            if like.is_none() || tried.contains(&like) {
                continue;
            }
            tried.push(like);
            steps.push(e);
            (least, next) = count.least(&steps)?;
            if least.is_some() {
                break;
            }
            steps.pop();
        }
        assert!(least.is_some(), "some step leads on");
    }
    Some(least.map(|_| steps))
}
