//! Families with choices: "one of", never and menus.
use super::{names, planned, refused, straight, widest, Family};
use crate::cards::Draft;

/// The families; the last size of each is full size.
pub const CHOOSING: &[Family] = &[
    straight("n one ofs, left works", &[8, 16, 32, 64], |n| one_ofs(n, 0)),
    straight("n one ofs, right works", &[8, 16, 32, 64], |n| one_ofs(n, 1)),
    planned("one of n kits, last works", &[4, 8, 16, 32], |n| one_of_kits(n, 1)),
    refused("one of n kits, none works", &[4, 8, 16, 32], |n| one_of_kits(n, 0)),
    planned("n one ofs, half a pair", &[4, 8, 16, 32], |n| pairs(n, n / 2)),
    refused("n one ofs, pairs one over", &[4, 8, 16, 31], |n| pairs(n, n + 1)),
    straight("one of n in a menu, last works", &[8, 16, 32, 64], wide_menu),
    straight("n equal menus, half each way", &[8, 16, 32, 64], |n| equal_menus(n, n)),
    refused("n equal menus, n + 1 wanted", &[8, 16, 32, 64], |n| equal_menus(n, n + 1)),
    planned("chain of n menus", &[8, 16, 32, 63], |n| menu_chain(n, n)),
    refused("chain of n menus, one short", &[4, 6, 8, 10], |n| menu_chain(n, n + 1)),
    straight("n rules with menus", &[4, 8, 16, 32], rule_menus),
    refused("n needs beside never", &[8, 16, 32, 64], beside_never),
];

/// n needs, each one of two names, of which a must line has the one on this side.
fn one_ofs(n: usize, side: usize) -> Draft {
    let mut c = widest();
    let lines = names(&mut c, 0, n);
    let mut goals = Vec::new();
    for (i, &line) in lines.iter().enumerate() {
        let mut sides = [line, c.name(100 + i)];
        sides.rotate_right(side);
        goals.push(c.add(8, sides[0], sides[1]));
    }
    c.goal = c.both(&goals);
    c.must(&lines);
    c
}

/// One of n kits of four lines each. The parts of so many kits, from the last on, are on the tray.
fn one_of_kits(n: usize, there: usize) -> Draft {
    let mut c = widest();
    let mut kits = Vec::new();
    for i in 0..n {
        let parts = names(&mut c, 4 * i, 4);
        if i + there >= n {
            c.must(&parts);
        }
        kits.push(c.both(&parts));
    }
    let spares = names(&mut c, 900, 4);
    c.may(&spares);
    c.goal = c.one_of(&kits);
    c
}

/// n needs, each one of a part and a pair of them; lines for so many pairs, and one for each other need.
fn pairs(n: usize, pairs: usize) -> Draft {
    let mut c = widest();
    let a = c.name(0);
    let pair = c.add(4, a, a);
    let need = c.add(8, a, pair);
    c.goal = c.both(&vec![need; n]);
    c.must(&vec![a; n + pairs]);
    c
}

/// A must line that offers one of n names; the last is wanted.
fn wide_menu(n: usize) -> Draft {
    let mut c = widest();
    let names = names(&mut c, 0, n);
    let line = c.menu(&names);
    c.must(&[line]);
    c.goal = names[n - 1];
    c
}

/// n must lines, each a menu of two names; half as many of the first wanted and then of the second.
fn equal_menus(n: usize, wanted: usize) -> Draft {
    let mut c = widest();
    let (a, b) = (c.name(0), c.name(1));
    let line = c.add(10, a, b);
    c.must(&vec![line; n]);
    c.goal = c.both(&[vec![a; wanted / 2], vec![b; wanted - wanted / 2]].concat());
    c
}

/// n must lines, each a menu of a name and the next; so many of the names wanted, from the last on.
fn menu_chain(n: usize, wanted: usize) -> Draft {
    let mut c = widest();
    let names = names(&mut c, 0, n + 1);
    for i in 0..n {
        let line = c.add(10, names[i], names[i + 1]);
        c.must(&[line]);
    }
    let goals: Vec<usize> = names.iter().rev().take(wanted).copied().collect();
    c.goal = c.both(&goals);
    c
}

/// n must lines; for each a rule that makes one of four things of it, and the last of these is wanted.
fn rule_menus(n: usize) -> Draft {
    let mut c = widest();
    let (lines, mut goals) = (names(&mut c, 0, n), Vec::new());
    for (i, &line) in lines.iter().enumerate() {
        let things = names(&mut c, 100 + 4 * i, 4);
        let menu = c.menu(&things);
        c.rule(&[line], menu);
        goals.push(things[3]);
    }
    c.goal = c.both(&goals);
    c.must(&lines);
    c
}

/// n must lines of distinct names, all wanted, and behind them never.
fn beside_never(n: usize) -> Draft {
    let mut c = super::distinct(n);
    let never = c.add(9, 0, 0);
    c.goal = c.add(4, c.goal, never);
    c
}
