//! Cards that go deepest: nested uses, nested goals, and lists of up to 255 steps.
use crate::cards::Draft;

/// Goals of height 8 at each of 16 nested uses. By lends that is seven clauses lent by the card's goal and six
/// by each use: 103 in scope at the innermost rest. Rule 0 leads to itself, so that rule 1 ends it.
fn nested_goals(kind: u8) -> Draft {
    let mut c = Draft::limits(16, 255);
    let (a, x, rest, done) = (c.name(1), c.name(2), c.add(2, 0, 0), c.add(3, 0, 0));
    let left = match kind {
        4 => done,
        5 => rest,
        6 => x,
        _ => c.add(9, 0, 0),
    };
    let chain = |c: &mut Draft, end, n| (0..n).fold(end, |g, _| c.add(kind, left, g));
    c.goal = chain(&mut c, a, 7);
    let (again, ends) = (chain(&mut c, a, 6), chain(&mut c, rest, 6));
    c.rule(&[again], a);
    c.rule(&[ends], a);
    c
}

/// Six menus at each of 16 nested uses, the outer ones' right sides the inner ones. By rules 0 and 1, as above.
fn nested_menus() -> Draft {
    let mut c = Draft::limits(16, 255);
    let (a, x, rest) = (c.name(1), c.name(2), c.add(2, 0, 0));
    for condition in [a, rest] {
        let recipe = c.gives(&[condition], a);
        let menus = (0..6).fold(recipe, |clause, _| c.add(10, x, clause));
        c.rules.push(menus);
    }
    c.goal = a;
    c
}

/// Seven conditions at each of 16 nested uses.
fn nested_conditions() -> Draft {
    let mut c = Draft::limits(16, 255);
    let (a, rest, done) = (c.name(1), c.add(2, 0, 0), c.add(3, 0, 0));
    for first in [a, rest] {
        c.rule(&[first, done, done, done, done, done, done], a);
    }
    c.goal = a;
    c
}

/// 128 needs of two steps each, but for the last, which the step limit leaves one: 255 steps.
fn longest_list() -> Draft {
    let mut c = Draft::limits(16, 255);
    let (a, b) = (c.name(1), c.name(2));
    c.goal = (0..7).fold(a, |g, _| c.add(4, g, g));
    c.rules = vec![c.gives(&[b], a), b, a];
    c
}

/// A goal that takes so many steps, by rules b and a; at most so many of them stand side by side.
struct Item {
    what: &'static str,
    steps: usize,
    most: usize,
    goal: fn(&mut Draft, usize, usize) -> usize,
}

/// The goal a, where the condition gives a.
fn by_rule(c: &mut Draft, a: usize, condition: usize) -> usize {
    c.rule(&[condition], a);
    a
}

/// The goal a, where b with itself, by this kind, gives a.
fn paired(c: &mut Draft, a: usize, b: usize, kind: u8) -> usize {
    let two = c.add(kind, b, b);
    by_rule(c, a, two)
}

const ITEMS: &[Item] = &[
    Item { what: "recipes", steps: 2, most: 126, goal: by_rule },
    Item { what: "both in recipes", steps: 3, most: 126, goal: |c, a, b| paired(c, a, b, 4) },
    Item { what: "either way in recipes", steps: 3, most: 126, goal: |c, a, b| paired(c, a, b, 5) },
    Item {
        what: "lend in recipes",
        steps: 2,
        most: 126,
        goal: |c, a, _| {
            let x = c.name(3);
            let lend = c.add(6, x, x);
            by_rule(c, a, lend)
        },
    },
    Item {
        what: "either ways in the goal",
        steps: 4,
        most: 62,
        goal: |c, a, b| {
            c.rule(&[b], a);
            c.add(5, a, a)
        },
    },
    Item {
        what: "lends in the goal",
        steps: 4,
        most: 62,
        goal: |c, a, b| {
            let x = c.name(3);
            c.rule(&[b, b, x], a);
            c.add(6, x, a)
        },
    },
];

const CHOOSING: &[Item] = &[
    Item { what: "one of in recipes", steps: 3, most: 126, goal: |c, a, b| paired(c, a, b, 8) },
    Item {
        what: "menus",
        steps: 4,
        most: 126,
        goal: |c, a, b| {
            let recipe = c.gives(&[b], a);
            let menu = c.menu(&[b, b, b, recipe]);
            c.rules.push(menu);
            a
        },
    },
];

/// As many of the item as 252 steps allow. Before them a need with 20 ways, of which the last works: the others
/// take a line that is wanted behind all items. So there are dead ends before the deepest place is reached.
fn row(item: &Item) -> Draft {
    let mut c = Draft::limits(16, 255);
    let (a, b, first, last, spare) = (c.name(1), c.name(2), c.name(4), c.name(5), c.name(6));
    let goal = (item.goal)(&mut c, a, b);
    c.rules.push(b);
    (0..19).for_each(|_| c.rule(&[last], first));
    c.rule(&[spare], first);
    c.may(&[last, spare]);
    let mut goals = vec![goal; (252 / item.steps).min(item.most)];
    goals.insert(0, first);
    goals.push(last);
    c.goal = c.both(&goals);
    c
}

/// As many nested uses as 255 steps allow, with eight "either way"s of two steps each before the next use.
fn nested_either_ways() -> Draft {
    let mut c = Draft::limits(16, 255);
    let (a, b) = (c.name(1), c.name(2));
    let two = c.add(5, b, b);
    let condition = c.both(&[two, two, two, two, two, two, two, two, a]);
    c.rule(&[condition], a);
    c.rules.extend([a, b]);
    c.goal = a;
    c
}

/// The cards, each with what is special of it.
pub fn cards() -> Vec<(&'static str, Draft)> {
    let rows = ITEMS.iter().map(|item| (item.what, row(item)));
    let others = [
        ("both 16 deep", nested_goals(4)),
        ("either way 16 deep", nested_goals(5)),
        ("lend 16 deep", nested_goals(6)),
        ("conditions 16 deep", nested_conditions()),
        ("longest list", longest_list()),
        ("either ways in nested uses", nested_either_ways()),
        ("64 equal parts", super::equal(64, 64)),
        ("biggest card", super::biggest(64)),
    ];
    others.into_iter().chain(rows).collect()
}

/// The same with choices.
pub fn choosing() -> Vec<(&'static str, Draft)> {
    let rows = CHOOSING.iter().map(|item| (item.what, row(item)));
    [("one of 16 deep", nested_goals(8)), ("menus 16 deep", nested_menus())].into_iter().chain(rows).collect()
}
