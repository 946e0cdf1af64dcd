//! Families with many "done"s: in deep recipes, behind lends, on both ways, and where a "done" leaves a must part.
use super::{names, planned, refused, straight, widest, Family};
use crate::cards::Draft;

/// The families; the last size of each is full size.
pub const DONES: &[Family] = &[
    straight("n needs, done beside each", &[8, 16, 32, 64], beside_each),
    straight("dones in recipes n deep", &[4, 8, 15], recipes_deep),
    straight("n kits, dones 4 deep", &[3, 6, 12], kits_deep),
    straight("lends and dones n deep", &[3, 7, 14], lends_deep),
    straight("n lends, done behind each", &[8, 16, 32], behind_each),
    straight("n either ways, done on each", &[4, 8, 16, 32], either_ways),
    planned("n lends, 8 dones in vain", &[4, 8, 16, 31], |n| in_vain(n, 8, true)),
    planned("lend, n dones in vain", &[8, 16, 32, 62], |n| in_vain(1, n, true)),
    refused("lend, n dones, none works", &[8, 16, 32, 62], |n| in_vain(1, n, false)),
    planned("n needs, dones leave the last", &[2, 4, 8], leave_last),
];

fn done(c: &mut Draft) -> usize {
    c.add(3, 0, 0)
}

/// n must lines, all wanted, with "done" beside each.
fn beside_each(n: usize) -> Draft {
    let mut c = widest();
    let (lines, done) = (names(&mut c, 0, n), done(&mut c));
    let goals: Vec<usize> = lines.iter().map(|&line| c.add(4, line, done)).collect();
    c.goal = c.both(&goals);
    c.must(&lines);
    c
}

/// A thing by rules as deep as told, each with a part of its own and four "done"s; its name, and the parts.
fn thing(c: &mut Draft, from: usize, depth: usize) -> (usize, Vec<usize>) {
    let done = done(c);
    let (parts, things) = (names(c, from, depth), names(c, from + 20, depth + 1));
    for level in 0..depth {
        c.rule(&[done, parts[level], done, things[level], done, done], things[level + 1]);
    }
    (things[depth], [&parts[..], &things[..1]].concat())
}

/// One thing by rules n deep.
fn recipes_deep(n: usize) -> Draft {
    let mut c = widest();
    let (goal, lines) = thing(&mut c, 0, n);
    c.goal = goal;
    c.must(&lines);
    c
}

/// n things by rules 4 deep.
fn kits_deep(n: usize) -> Draft {
    let mut c = widest();
    let (goals, lines): (Vec<usize>, Vec<Vec<usize>>) = (0..n).map(|i| thing(&mut c, 50 * i, 4)).unzip();
    c.goal = c.both(&goals);
    c.must(&lines.concat());
    c
}

/// Four clauses lent at each of n nested uses, with "done"s between; all are taken by a rule at the innermost.
fn lends_deep(n: usize) -> Draft {
    let mut c = Draft::limits(n as u8 + 2, 255);
    let (a, x, done) = (c.name(1), c.name(2), done(&mut c));
    let inner = (0..2).fold(a, |g, _| c.add(6, x, g));
    let between = c.add(4, done, inner);
    let again = (0..2).fold(between, |g, _| c.add(6, x, g));
    let all = vec![x; 4 * n];
    let (some, others) = all.split_at(all.len() / 2);
    let ends = [done, c.both(some), c.both(others)];
    c.rules = vec![c.gives(&[again, done], a), c.gives(&ends, a)];
    c.goal = a;
    c
}

/// n lends side by side, each taken by a must line's recipe, with "done" behind it.
fn behind_each(n: usize) -> Draft {
    let mut c = widest();
    let done = done(&mut c);
    let mut goals = Vec::new();
    for i in 0..n {
        let (tool, work) = (c.name(100 + i), c.name(200 + i));
        let line = c.gives(&[tool], work);
        c.must(&[line]);
        let both = c.add(4, work, done);
        goals.push(c.add(6, tool, both));
    }
    c.goal = c.both(&goals);
    c
}

/// n must lines, each wanted either way, with "done" before or behind it.
fn either_ways(n: usize) -> Draft {
    let mut c = widest();
    let (lines, done) = (names(&mut c, 0, n), done(&mut c));
    let mut goals = Vec::new();
    for &line in &lines {
        let (before, behind) = (c.add(4, done, line), c.add(4, line, done));
        goals.push(c.add(5, before, behind));
    }
    c.goal = c.both(&goals);
    c.must(&lines);
    c
}

/// n equal lends, each for a name of which so many rules ask for nothing: their "done" leaves the lent clause. A last
/// rule takes it, or asks for what nothing makes.
fn in_vain(n: usize, ways: usize, works: bool) -> Draft {
    let mut c = widest();
    let (a, x, missing, done) = (c.name(1), c.name(2), c.name(3), done(&mut c));
    (0..ways).for_each(|_| c.rule(&[done], a));
    let takes: &[usize] = if works { &[x] } else { &[missing, x] };
    c.rule(takes, a);
    let lend = c.add(6, x, a);
    c.goal = c.both(&vec![lend; n]);
    c
}

/// n needs, each from nothing or from a must part; the first ways leave the parts to the last "done".
fn leave_last(n: usize) -> Draft {
    let mut c = widest();
    let done = done(&mut c);
    let (made, parts) = (names(&mut c, 0, n), names(&mut c, 100, n));
    for (&thing, &part) in made.iter().zip(&parts) {
        c.rule(&[done], thing);
        c.rule(&[part], thing);
    }
    let mut goals = made;
    goals.push(done);
    c.goal = c.both(&goals);
    c.must(&parts);
    c
}
