//! The true marks: cards worked by hand, the marks of every list once more by all the ways that may be walked in the
//! end, and every mark that a sheet can have for a line.
mod cards;
mod met;
mod model;

use cards::{written, Draft, Random};
use kit_planner::{Place, Refusal};
use met::Met;
use model::decode::{self, Card, Clause, Goal, LEFT, RIGHT};
use std::collections::BTreeSet;
use std::rc::Rc;

const BUDGET: usize = 20_000;
/// Room for any card's sheet.
const ROOM: usize = 324;

const L: u8 = LEFT;
const R: u8 = RIGHT;

/// Goal, rules and lines as `written` has them, one of the card's lists, and its marks.
type Worked = (&'static str, &'static str, &'static str, &'static [u8], &'static [u8]);

const WORKED: &[Worked] = &[
    // no either way
    ("a", "", "a ?b", &[0], &[1, 0]),
    ("*aT", "", "a b", &[0], &[1, 2]),
    // one side alone, and both
    ("&aT", "", "a", &[0], &[3]),
    ("&Ta", "", "?a", &[0], &[3]),
    ("&aa", "", "a", &[0, 0], &[1]),
    ("&*aT*bT", "", "a b", &[0, 1], &[3, 3]),
    ("&*ab*bT", "", "a b", &[0, 1, 1], &[3, 1]),
    ("&*aT*ba", "", "a b", &[0, 1, 0], &[1, 3]),
    ("&*ab*ba", "", "a b", &[0, 1, 1, 0], &[1, 1]),
    // beside it and around it
    ("*a&bT", "", "a b", &[0, 1], &[1, 3]),
    ("*&bTa", "", "a b", &[1, 0], &[1, 3]),
    ("*&aT&bT", "", "a b", &[0, 1], &[3, 3]),
    ("&*a&bT*aT", "", "a b", &[0, 1, 0], &[1, 3]),
    ("&&aaa", "", "a", &[0, 0, 0], &[1]),
    ("&&aTa", "", "a", &[0, 0], &[3]),
    ("&a&Ta", "", "a", &[0, 0], &[3]),
    ("&&aT&Ta", "", "a", &[0, 0], &[3]),
    ("&&aa&aT", "", "a", &[0, 0, 0], &[3]),
    // conditions of rules and of lines
    ("&ac", ">ac", "a", &[1, 0, 1], &[1]),
    ("&*ac*aT", ">bc", "a b", &[1, 0, 2, 1], &[1, 3]),
    ("&aT", "", ">ba b", &[0, 1], &[3, 3]),
    ("&a*bT", "", ">ba b", &[0, 1, 1], &[3, 1]),
    ("c", ">&aTc", "a", &[0, 1], &[3]),
    ("c", ">&aT>bc", "a b", &[0, 2, 1], &[3, 1]),
    ("c", "", ">&aTc a", &[0, 1], &[1, 3]),
    ("&cc", ">&aTc", "a", &[0, 1, 0, 1], &[3]),
    // lends: what is lent has no mark, and its conditions count
    ("-a&aT", "", "", &[0], &[]),
    ("&-b*abT", "", "a", &[0, 1], &[3]),
    ("&-b*ab*aT", "", "a", &[0, 1, 0], &[1]),
    ("-b&*ab*aT", "", "a", &[0, 1, 0], &[1]),
    ("->ac&cT", "", "a", &[1, 0], &[3]),
    ("->ac&cc", "", "a", &[1, 0, 1, 0], &[1]),
    ("->ac&c*aT", "", "a", &[1, 0, 0], &[1]),
    // choices: what the side taken does
    ("&+baT", "", "a", &[R, 0], &[3]),
    ("&+baa", "", "a", &[R, 0, 0], &[1]),
    ("+b&aT", "", "a", &[R, 0], &[3]),
    ("+&aTa", "", "a", &[L, 0], &[3]),
    ("+&aTa", "", "a", &[R, 0], &[1]),
    ("&*+abT*+abT", "", "?a ?b", &[L, 0, L, 0], &[1, 0]),
    ("&*+abT*+abT", "", "?a ?b", &[L, 0, R, 1], &[3, 3]),
    ("&bT", "", "|ab", &[0, R], &[3]),
    ("&ab", "", "|ab", &[0, L, 0, R], &[1]),
    ("&*aT*aT", "", ">b|>caa b ?c", &[0, L, 2, 1, 0, R, 1], &[1, 1, 3]),
    ("&*aT*aT", "", ">b|>caa b ?c", &[0, L, 2, 1, 0, L, 2, 1], &[1, 1, 1]),
    ("a", "", "|>&bTa>ba b", &[0, L, 1], &[1, 3]),
    ("a", "", "|>&bTa>ba b", &[0, R, 1], &[1, 1]),
    // rules have no marks, and equal lines each their own
    ("&*aaT", "a", "a", &[0, 1], &[3]),
    ("&*aT*aT", "a", "a", &[0, 0], &[2]),
    ("&*aT*aT", "a", "a", &[0, 1], &[3]),
    ("&*aT*aT", "a", "a", &[1, 1], &[1]),
    ("&*aT*aT", "", "a a", &[0, 0], &[1, 2]),
    ("&*aT*aT", "", "?a a", &[0, 1], &[3, 3]),
    ("&*aT*aT", "", "?a ?a", &[1, 1], &[0, 1]),
    // all four at once
    ("*a&*bTT", "", "a b c ?c", &[0, 1], &[1, 3, 2, 0]),
    ("*a&*bTT", "", "?c c ?b ?a", &[3, 2], &[0, 2, 3, 1]),
];

fn decoded(bytes: &[u8]) -> Card {
    decode::card(bytes).expect("a sound card")
}

/// The model's marks are these.
#[test]
fn worked_marks() {
    for &(goal, rules, lines, list, marks) in WORKED {
        let bytes = written(4, 8, goal, rules, lines);
        let card = decoded(&bytes);
        let about = format!("goal {goal}, rules {rules}, lines {lines}, list {list:?}");
        assert!(model::lists(&card, BUDGET).expect("enough budget").iter().any(|l| l == list), "{about}");
        assert_eq!(model::marks(&card, list), marks, "{about}");
        assert_eq!(model::read(&bytes, &model::sheet(&card, list)), Ok(list.len()), "{about}");
    }
}

/// The reader takes each mark from 0 to 4 as the model does: the true one alone is accepted. Counts those marks.
fn every_mark_is_read(met: &mut Met, bytes: &[u8], list: &[u8]) {
    let marks = model::marks(&decoded(bytes), list);
    let sheet = model::sheet(&decoded(bytes), list);
    for (i, &truly) in marks.iter().enumerate() {
        for mark in 0..=4 {
            let mut sheet = sheet.clone();
            sheet[5 + list.len() + i] = mark;
            let wrong = Refusal { number: 14, place: Place::Mark(i as u16) };
            let wanted = if mark == truly { Ok(list.len()) } else { Err(wrong) };
            assert_eq!(model::read(bytes, &sheet), wanted, "card {bytes:02x?}, sheet {sheet:02x?}");
            assert_eq!(kit_planner::read(bytes, &sheet), wanted, "card {bytes:02x?}, sheet {sheet:02x?}");
        }
    }
    met.mark(&marks);
}

#[test]
fn worked_cards_are_planned_and_read() {
    let (mut r, mut met) = (Random::new(61), Met::default());
    for &(goal, rules, lines, list, _) in WORKED {
        let bytes = written(4, 8, goal, rules, lines);
        met::compare_plan(&mut r, &mut met, &bytes, ROOM, model::plan(&bytes, ROOM, BUDGET));
        every_mark_is_read(&mut met, &bytes, list);
    }
    assert_eq!(met.planned(), WORKED.len());
}

/// A list on its way through a goal: the steps still to come, and the clauses in scope.
struct Walked<'a> {
    steps: &'a [u8],
    scope: Vec<Rc<Clause>>,
}

/// For each way that may be walked in the end, the entries that it uses, a bit each.
type Ways = BTreeSet<u128>;

/// One of the left ways with one of the right.
fn with(left: Ways, right: Ways) -> Ways {
    left.iter().flat_map(|l| right.iter().map(move |r| l | r)).collect()
}

impl Walked<'_> {
    fn step(&mut self) -> u8 {
        let step = self.steps[0];
        self.steps = &self.steps[1..];
        step
    }

    fn goal(&mut self, g: &Goal) -> Ways {
        match g {
            Goal::Done | Goal::Rest | Goal::Never => Ways::from([0]),
            Goal::Both(a, b) => with(self.goal(a), self.goal(b)),
            Goal::Either(a, b) => &self.goal(a) | &self.goal(b),
            Goal::OneOf(a, b) => match self.step() {
                LEFT => self.goal(a),
                _ => self.goal(b),
            },
            Goal::Lend(d, g) => {
                self.scope.push(d.clone());
                let ways = self.goal(g);
                self.scope.pop();
                ways
            }
            Goal::Name(a) => self.name(*a),
        }
    }

    fn name(&mut self, a: u16) -> Ways {
        let e = self.step();
        let clause = self.scope[usize::from(e)].clone();
        let u = clause.giving(a).find(|u| self.steps.starts_with(&u.choices)).expect("a right list");
        self.steps = &self.steps[u.choices.len()..];
        u.conditions.iter().fold(Ways::from([1 << e]), |ways, g| with(ways, self.goal(g)))
    }
}

/// The marks by what every way, some way or no way uses. Of small cards only, whose entries are below 128.
fn marks_by_ways(card: &Card, list: &[u8]) -> Vec<u8> {
    let scope = card.scope().into_iter().map(|entry| entry.clause).collect();
    let ways = Walked { steps: list, scope }.goal(&card.goal);
    let mark = |i: usize| {
        let uses = |way: &u128| way >> (card.rules.len() + i) & 1 == 1;
        match ways.iter().filter(|way| uses(way)).count() {
            0 if card.lines[i].1 => 2,
            0 => 0,
            n if n == ways.len() => 1,
            _ => 3,
        }
    };
    (0..card.lines.len()).map(mark).collect()
}

/// Kinds by how often a card grows them: more either ways than anything else.
const WAYS: &[u8] = &[4, 4, 4, 5, 5, 5, 5, 5, 6, 7, 7, 7, 8, 10];

/// The marks of the definition are those of all ways: surely used is used whichever way is walked.
#[test]
fn marks_agree_with_all_ways() {
    let (mut r, mut met) = (Random::new(62), Met::default());
    for _ in 0..30_000 {
        let bytes = Draft::sound_of(WAYS, &mut r, 3, 5).bytes();
        let card = decoded(&bytes);
        let lists = model::lists(&card, BUDGET);
        met.count_lists(lists.as_ref());
        for list in lists.unwrap_or_default().iter().take(20) {
            let marks = model::marks(&card, list);
            assert_eq!(marks, marks_by_ways(&card, list), "card {bytes:02x?}, list {list:?}");
            met.mark(&marks);
        }
    }
    println!("all ways: {met:?}");
    met.enough(8_500);
    met.marked(1_000);
}

/// Cards with many either ways: planned as the model does, and every mark of every line read, for the first list and
/// for some other.
#[test]
fn every_mark_agrees() {
    let (mut r, mut met) = (Random::new(63), Met::default());
    for _ in 0..20_000 {
        let bytes = Draft::sound_of(WAYS, &mut r, 3, 5).bytes();
        let lists = model::lists(&decoded(&bytes), BUDGET);
        let wanted = lists.as_ref().and_then(|_| model::plan(&bytes, ROOM, BUDGET));
        met::compare_plan(&mut r, &mut met, &bytes, ROOM, wanted);
        let lists = lists.unwrap_or_default();
        if !lists.is_empty() {
            every_mark_is_read(&mut met, &bytes, &lists[0]);
            every_mark_is_read(&mut met, &bytes, &lists[r.below(lists.len())]);
        }
    }
    println!("every mark: {met:?}");
    met.all(&[11]);
    met.enough(5_500);
    met.marked(500);
}
