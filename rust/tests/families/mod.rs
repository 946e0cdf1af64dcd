//! Families of sound cards that grow with n up to the format's limits, for benchmarks and tests.
#![allow(dead_code)]
pub mod choices;
pub mod deep;
pub mod dones;
pub mod kits;
pub mod recursive;

use crate::cards::{Draft, Random};

/// Cards by their size n. Straight: the first list is found with no choice taken back, or next to none.
pub struct Family {
    pub name: &'static str,
    pub straight: bool,
    pub planned: bool,
    pub sizes: &'static [usize],
    pub card: fn(usize) -> Draft,
}

const fn straight(name: &'static str, sizes: &'static [usize], card: fn(usize) -> Draft) -> Family {
    Family { name, straight: true, planned: true, sizes, card }
}

const fn planned(name: &'static str, sizes: &'static [usize], card: fn(usize) -> Draft) -> Family {
    Family { name, straight: false, planned: true, sizes, card }
}

const fn refused(name: &'static str, sizes: &'static [usize], card: fn(usize) -> Draft) -> Family {
    Family { name, straight: false, planned: false, sizes, card }
}

/// All families; the last size of each is full size.
pub const FAMILIES: &[Family] = &[
    straight("distinct names", &[8, 16, 32, 64], distinct),
    straight("chain of recipes", &[3, 7, 15], chain),
    straight("recipes 2 deep", &[5, 10, 21], |n| recipes(n, 2)),
    straight("recipes 3 deep", &[4, 8, 16], |n| recipes(n, 3)),
    straight("recipes 4 deep", &[3, 6, 12], |n| recipes(n, 4)),
    straight("recipes 5 deep", &[2, 5, 10], |n| recipes(n, 5)),
    straight("n equal, n wanted", &[8, 16, 32, 64], |n| equal(n, n)),
    refused("n equal, n - 1 wanted", &[8, 16, 32, 64], |n| equal(n, n - 1)),
    refused("n equal, n + 1 wanted", &[8, 16, 32, 64], |n| equal(n, n + 1)),
    planned("4 needs, n ways, last works", &[2, 4, 8, 16], last_way),
    planned("n needs, 2 ways, half each", &[4, 8, 16, 32], half_each),
    planned("n must behind n may", &[4, 8, 16, 32], must_behind),
    planned("must behind may, n names", &[2, 4, 8, 16], must_behind_by_name),
    straight("pool of n, n wanted", &[8, 16, 32, 64], |n| pool(n, n)),
    refused("pool of n, n + 1 wanted", &[8, 16, 32, 64], |n| pool(n, n + 1)),
    planned("pool of n, half by name", &[8, 16, 32, 64], |n| pool_by_rules(n, n / 2, n / 2)),
    planned("two makers, n wanted", &[8, 16, 32, 64], |n| makers(n, n)),
    refused("two makers, n + 1 wanted", &[8, 16, 32, 64], |n| makers(n, n + 1)),
    straight("either way over n lines", &[8, 16, 32, 64], either),
    straight("either way, half to rest", &[8, 16, 32, 64], either_half),
    straight("n either ways side by side", &[4, 8, 16, 32], either_ways),
    straight("n either ways, a side rests", &[8, 16, 32, 64], side_rests),
    refused("either way, one over", &[8, 16, 32, 64], either_over),
    straight("6n lends, n uses deep", &[3, 7, 14], lends_deep),
    straight("n lends side by side", &[8, 16, 32, 64], lends),
    refused("n lends, the last in vain", &[4, 8, 16, 32], |n| lends_in_vain(n, 0)),
    planned("parity, even", &[8, 16, 32], parity),
    refused("parity, odd", &[7, 15, 31], parity),
    planned("asks for itself, n needs", &[8, 16, 32, 64], asks_itself),
    planned("doubled, n lines", &[8, 16, 32, 64], |n| doubled(n, 16)),
    refused("doubled, nesting too small", &[9, 16, 32, 64], |n| doubled(n, 4)),
    planned("plain kit", &[20, 40, 60], |n| kits::plain(n, kits::Fault::None)),
    refused("plain kit, one short", &[20, 40, 60], |n| kits::plain(n, kits::Fault::Short)),
    refused("plain kit, one over", &[20, 40, 60], |n| kits::plain(n, kits::Fault::Over)),
    refused("plain kit, unknown name", &[20, 40, 60], |n| kits::plain(n, kits::Fault::Unknown)),
    planned("depot kit", &[20, 32, 48, 64], |n| kits::depot(n, kits::Fault::None)),
    refused("depot kit, one short", &[20, 32, 48, 64], |n| kits::depot(n, kits::Fault::Short)),
    refused("depot kit, one over", &[20, 32, 48, 64], |n| kits::depot(n, kits::Fault::Over)),
    refused("depot kit, unknown name", &[20, 32, 48, 64], |n| kits::depot(n, kits::Fault::Unknown)),
    straight("biggest card", &[16, 32, 64], biggest),
];

/// Hard families: only the benchmark uses them, and not up to full size.
pub const HARD: &[Family] = &[
    refused("n parts, n + 1 wanted", &[4, 6, 8, 10, 12, 14, 16], |n| pool_by_rules(n, n + 1, 0)),
    refused("lends in vain, must and may", &[4, 6, 8, 10, 12, 14, 16], |n| lends_in_vain(n, 1)),
];

/// The greatest limits.
fn widest() -> Draft {
    Draft::limits(16, 255)
}

fn names(c: &mut Draft, from: usize, n: usize) -> Vec<usize> {
    (from..from + n).map(|i| c.name(i)).collect()
}

/// n must lines of distinct names, shuffled; all wanted.
pub fn distinct(n: usize) -> Draft {
    let mut c = widest();
    let mut lines = names(&mut c, 0, n);
    c.goal = c.both(&lines);
    Random::new(5).shuffle(&mut lines);
    c.must(&lines);
    c
}

/// Must lines 0 and "i gives i + 1" for n names; the last is wanted.
pub fn chain(n: usize) -> Draft {
    let mut c = widest();
    let names = names(&mut c, 0, n + 1);
    c.must(&names[..1]);
    for i in 0..n {
        let recipe = c.gives(&[names[i]], names[i + 1]);
        c.must(&[recipe]);
    }
    c.goal = names[n];
    c
}

/// n different products, each by rules as deep as told: a rule asks for the thing below and a part of its own.
fn recipes(n: usize, depth: usize) -> Draft {
    let mut c = widest();
    let (mut products, mut lines) = (Vec::new(), Vec::new());
    for i in 0..n {
        let mut thing = c.name(100 + 10 * i);
        lines.push(thing);
        for level in 1..=depth {
            let (part, made) = (c.name(300 + 10 * i + level), c.name(100 + 10 * i + level));
            let both = c.add(4, thing, part);
            c.rule(&[both], made);
            lines.push(part);
            thing = made;
        }
        products.push(thing);
    }
    c.goal = c.both(&products);
    Random::new(6).shuffle(&mut lines);
    c.must(&lines);
    c
}

/// Equal must lines, and so many of their name wanted.
pub fn equal(lines: usize, wanted: usize) -> Draft {
    let mut c = widest();
    let a = c.name(7);
    c.goal = c.both(&vec![a; wanted]);
    c.must(&vec![a; lines]);
    c
}

/// Four names, each by n rules from a part of its own; of these parts the last is must, the others may.
fn last_way(n: usize) -> Draft {
    let mut c = widest();
    let wanted = names(&mut c, 0, 4);
    for &a in &wanted {
        for i in 1..=n {
            let part = c.name(10 + c.rules.len());
            c.rule(&[part], a);
            c.lines.push((part, u8::from(i == n)));
        }
    }
    c.goal = c.both(&wanted);
    c
}

/// n names, each from a shared part or from one of its own. Half as many shared parts as names, and these are
/// wanted at the end.
fn half_each(n: usize) -> Draft {
    let mut c = widest();
    let (shared, made) = (c.name(0), names(&mut c, 1, n));
    let shares = vec![shared; n / 2];
    c.must(&shares);
    for (i, &thing) in made.iter().enumerate() {
        let own = c.name(100 + i);
        c.rule(&[shared], thing);
        c.rule(&[own], thing);
        c.must(&[own]);
    }
    c.goal = c.both(&[made, shares].concat());
    c
}

/// n may lines, then n must lines, all equal; n wanted.
fn must_behind(n: usize) -> Draft {
    let mut c = widest();
    let a = c.name(7);
    c.goal = c.both(&vec![a; n]);
    c.may(&vec![a; n]);
    c.must(&vec![a; n]);
    c
}

/// The same with two of each of n names: all may lines, then all must lines.
fn must_behind_by_name(n: usize) -> Draft {
    let mut c = widest();
    let names = names(&mut c, 0, n);
    let all = [&names[..], &names[..]].concat();
    c.goal = c.both(&all);
    c.may(&all);
    c.must(&all);
    c
}

/// n may lines, each a recipe of its own for the same name, whose condition a rule meets.
fn pool(n: usize, wanted: usize) -> Draft {
    let mut c = widest();
    let slot = c.name(0);
    c.goal = c.both(&vec![slot; wanted]);
    c.rules = names(&mut c, 1, n);
    for i in 0..n {
        let part = c.gives(&[c.rules[i]], slot);
        c.may(&[part]);
    }
    c
}

/// n may lines of distinct names, each of which a rule makes into the wanted one. So many of it are wanted, then
/// so many of the lines by their own names, from the first on.
fn pool_by_rules(n: usize, wanted: usize, by_name: usize) -> Draft {
    let mut c = widest();
    let (slot, parts) = (c.name(0), names(&mut c, 1, n));
    parts.iter().for_each(|&p| c.rule(&[p], slot));
    c.may(&parts);
    let goals = [&vec![slot; wanted], &parts[..by_name]].concat();
    c.goal = c.both(&goals);
    c
}

/// n may lines, half of one maker and half of another; rules make either into the wanted name.
fn makers(n: usize, wanted: usize) -> Draft {
    let mut c = widest();
    let (slot, one, other) = (c.name(0), c.name(1), c.name(2));
    c.goal = c.both(&vec![slot; wanted]);
    c.rules = vec![c.gives(&[one], slot), c.gives(&[other], slot)];
    c.may(&vec![one; n / 2]);
    c.may(&vec![other; n / 2]);
    c
}

/// n must lines of distinct names, all wanted, either way in another order: 2n steps.
fn either(n: usize) -> Draft {
    let mut c = distinct(n);
    let mut names: Vec<usize> = c.lines.iter().map(|l| l.0).collect();
    names.sort_by(|a, b| b.cmp(a));
    let other = c.both(&names);
    c.goal = c.add(5, c.goal, other);
    c
}

/// n must lines of distinct names, all wanted one way; the other way every other one, and the rest takes the others.
fn either_half(n: usize) -> Draft {
    let mut c = distinct(n);
    let mut goals: Vec<usize> = c.lines.iter().map(|l| l.0).step_by(2).collect();
    goals.push(c.add(2, 0, 0));
    let other = c.both(&goals);
    c.goal = c.add(5, c.goal, other);
    c
}

/// n must lines of distinct names, each used one way and left to a rest the other.
fn side_rests(n: usize) -> Draft {
    let mut c = distinct(n);
    let rest = c.add(2, 0, 0);
    let names: Vec<usize> = c.lines.iter().map(|l| l.0).collect();
    let goals: Vec<usize> = names.iter().map(|&name| c.add(5, name, rest)).collect();
    c.goal = c.both(&goals);
    c
}

/// n must lines; from each either way one of two names, by rules.
fn either_ways(n: usize) -> Draft {
    let mut c = widest();
    let lines = names(&mut c, 0, n);
    let mut goals = Vec::new();
    for (i, &line) in lines.iter().enumerate() {
        let (one, other) = (c.name(100 + i), c.name(200 + i));
        c.rule(&[line], one);
        c.rule(&[line], other);
        goals.push(c.add(5, one, other));
    }
    c.goal = c.both(&goals);
    c.must(&lines);
    c
}

/// n equal must lines; n wanted one way and n - 1 the other.
fn either_over(n: usize) -> Draft {
    let mut c = equal(n, n);
    let other = c.both(&vec![0; n - 1]);
    c.goal = c.add(5, c.goal, other);
    c
}

/// Six clauses lent at each of n nested uses, all taken by a rule at the innermost.
fn lends_deep(n: usize) -> Draft {
    let mut c = Draft::limits(n as u8 + 2, 255);
    let (a, x) = (c.name(1), c.name(2));
    let again = (0..6).fold(a, |g, _| c.add(6, x, g));
    let all = vec![x; 6 * n];
    let (some, others) = all.split_at(all.len() / 3);
    let ends = [c.both(some), c.both(others)];
    c.rules = vec![c.gives(&[again], a), c.gives(&ends, a)];
    c.goal = a;
    c
}

/// n lends side by side, each taken by a must line's recipe.
fn lends(n: usize) -> Draft {
    let mut c = widest();
    let mut goals = Vec::new();
    for i in 0..n {
        let (tool, work) = (c.name(100 + i), c.name(200 + i));
        let line = c.gives(&[tool], work);
        c.must(&[line]);
        goals.push(c.add(6, tool, work));
    }
    c.goal = c.both(&goals);
    c
}

/// n equal lends, each taken by one of 2n lines, of which every other is may; a last one that nothing takes.
fn lends_in_vain(n: usize, must: u8) -> Draft {
    let mut c = widest();
    let (tool, work) = (c.name(0), c.name(1));
    let line = c.gives(&[tool], work);
    c.lines = [(line, must), (line, 0)].repeat(n);
    let lend = c.add(6, tool, work);
    let done = c.add(3, 0, 0);
    let vain = c.add(6, tool, done);
    let mut goals = vec![lend; n];
    goals.push(vain);
    c.goal = c.both(&goals);
    c
}

/// n must lines of each of two names, which make the wanted thing by pairs; n wanted.
fn parity(n: usize) -> Draft {
    let mut c = widest();
    let (pair, one, other) = (c.name(0), c.name(1), c.name(2));
    c.goal = c.both(&vec![pair; n]);
    for part in [one, other] {
        let two = c.add(4, part, part);
        c.rule(&[two], pair);
        c.must(&vec![part; n]);
    }
    c
}

/// The rules "a gives a" and a; n wanted.
fn asks_itself(n: usize) -> Draft {
    let mut c = widest();
    let a = c.name(1);
    c.goal = c.both(&vec![a; n]);
    c.rules = vec![c.gives(&[a], a), a];
    c
}

/// The rule "a both a gives a", n must lines; one wanted.
fn doubled(n: usize, d: u8) -> Draft {
    let mut c = Draft::limits(d, 255);
    let a = c.name(1);
    let two = c.add(4, a, a);
    c.rules = vec![c.gives(&[two], a)];
    c.must(&vec![a; n]);
    c.goal = a;
    c
}

/// n rules, n lines, 8n nodes and a list of 4n - 1 steps: at n = 64 the most of each.
pub fn biggest(n: usize) -> Draft {
    let mut c = Draft::limits(16, (4 * n - 1) as u8);
    let tool = c.name(0);
    let (wanted, mut lines) = (names(&mut c, 1, n), names(&mut c, 100, n));
    for i in 0..n {
        let two = c.add(4, tool, tool);
        if i < n - 1 {
            let parts = c.add(4, lines[i], two);
            c.rule(&[parts], wanted[i]);
        } else {
            c.rules.push(tool);
            lines[i] = c.gives(&[two], wanted[i]);
        }
    }
    c.goal = c.both(&wanted);
    c.must(&lines);
    while c.nodes.len() < 8 * n {
        c.add(5, 0, 0);
    }
    c
}
