//! Depot kits: parts in quantities, sub-assemblies by rules or from stock, spares.
use crate::cards::{Draft, Random};

/// What keeps a kit from being planned.
#[derive(Clone, Copy, PartialEq, Debug)]
pub enum Fault {
    None,
    /// One part fewer than is wanted.
    Short,
    /// One must line more than is wanted.
    Over,
    /// A name wanted that nothing gives.
    Unknown,
}

/// n lines: n / 10 names with 5 must and 5 may lines each, and 6 of each wanted.
pub fn plain(n: usize, fault: Fault) -> Draft {
    let mut c = Draft::limits(16, 255);
    let mut wanted = Vec::new();
    for i in 0..n / 10 {
        let a = c.name(i);
        c.must(&[a; 5]);
        c.may(&[a; 5]);
        let last = i + 1 == n / 10;
        let quantity = match fault {
            Fault::Short if last => 11,
            Fault::Over if last => 4,
            _ => 6,
        };
        wanted.extend(vec![a; quantity]);
    }
    if fault == Fault::Unknown {
        wanted.push(c.name(900));
    }
    c.goal = c.both(&wanted);
    c
}

/// A kit on the way: what is wanted, and the lines that serve for it.
struct Kit {
    c: Draft,
    parts: Vec<usize>,
    /// Things made of parts and of lower things, each with its recipes' parts.
    things: Vec<(usize, Vec<Vec<usize>>)>,
    wanted: Vec<usize>,
}

impl Kit {
    fn new(r: &mut Random, mut c: Draft, parts: usize, things: usize) -> Kit {
        let parts = (0..parts).map(|i| c.name(10 + i)).collect();
        let mut kit = Kit { c, parts, things: Vec::new(), wanted: Vec::new() };
        (0..things).for_each(|i| kit.thing(r, 100 + i));
        kit
    }

    /// A name with one recipe or two, of up to three kinds of parts or things each.
    fn thing(&mut self, r: &mut Random, name: usize) {
        let thing = self.c.name(name);
        let mut recipes = Vec::new();
        for _ in 0..r.pick(&[1, 1, 1, 2]) {
            let mut needs = Vec::new();
            for _ in 0..1 + r.below(3) {
                let part = match self.things.last() {
                    Some(lower) if r.once_in(4) => lower.0,
                    _ => r.pick(&self.parts),
                };
                needs.extend(vec![part; r.pick(&[1, 1, 2, 3])]);
            }
            let condition = self.c.both(&needs);
            self.c.rule(&[condition], thing);
            recipes.push(needs);
        }
        self.things.push((thing, recipes));
    }

    /// Lays the lines for one of this name, from stock or by a recipe; most of them must.
    fn lay(&mut self, r: &mut Random, name: usize) {
        let thing = self.things.iter().find(|t| t.0 == name).cloned();
        match thing {
            Some((_, recipes)) if !r.once_in(3) => {
                let recipe = &recipes[r.below(recipes.len())];
                recipe.iter().for_each(|&part| self.lay(r, part));
            }
            _ => self.c.lines.push((name, u8::from(!r.once_in(4)))),
        }
    }

    fn any_name(&self, r: &mut Random) -> usize {
        let things: Vec<usize> = self.things.iter().map(|t| t.0).collect();
        if r.once_in(2) {
            r.pick(&things)
        } else {
            r.pick(&self.parts)
        }
    }

    /// Wants a part, and names in quantities until so many lines serve.
    fn want(&mut self, r: &mut Random, lines: usize) {
        self.c.must(&self.parts[..1]);
        self.wanted.push(self.parts[0]);
        while self.c.lines.len() < lines && self.wanted.len() < 60 {
            let name = self.any_name(r);
            for _ in 0..1 + r.below(5) {
                let before = self.c.lines.len();
                self.lay(r, name);
                if self.c.lines.len() > lines {
                    self.c.lines.truncate(before);
                    break;
                }
                self.wanted.push(name);
            }
        }
    }

    /// May lines of names that the kit has, up to so many lines in all.
    fn spares(&mut self, r: &mut Random, lines: usize) {
        while self.c.lines.len() < lines {
            let name = self.any_name(r);
            self.c.may(&[name]);
        }
    }
}

/// A kit of n lines, the same at every call. The fault is in a part of which three are wanted, at the end.
pub fn depot(n: usize, fault: Fault) -> Draft {
    let mut r = Random::new(n as u64);
    let mut kit = Kit::new(&mut r, Draft::limits(16, 255), 6, 4);
    let bolt = kit.c.name(50);
    kit.want(&mut r, n - 4 - n / 8);
    kit.spares(&mut r, n - 4);
    kit.c.must(&[bolt; 3]);
    kit.c
        .lines
        .push((if fault == Fault::Over { bolt } else { kit.parts[0] }, u8::from(fault == Fault::Over)));
    r.shuffle(&mut kit.c.lines);
    kit.wanted.extend(vec![bolt; if fault == Fault::Short { 4 } else { 3 }]);
    if fault == Fault::Unknown {
        kit.wanted.push(kit.c.name(900));
    }
    let Kit { mut c, wanted, .. } = kit;
    c.goal = c.both(&wanted);
    c
}

/// Any kit of 20 to 64 lines.
pub fn any(r: &mut Random) -> Draft {
    sized(r, 20, 64, false)
}

/// Any kit of 4 to 20 lines.
pub fn small(r: &mut Random) -> Draft {
    sized(r, 4, 20, false)
}

/// Any kit of 4 to 20 lines with choices: lines and rules that offer another thing too, and needs that one of two
/// things meets.
pub fn choosing(r: &mut Random) -> Draft {
    sized(r, 4, 20, true)
}

/// Any kit with so many lines at least and at most, with or without a fault, with or without choices.
fn sized(r: &mut Random, least: usize, most: usize, choices: bool) -> Draft {
    let limits = Draft::limits(r.pick(&[3, 4, 6, 16]), r.pick(&[60, 90, 255]));
    let (parts, things, lines) = (3 + r.below(6), 1 + r.below(4), least + r.below(most - least + 1));
    let mut kit = Kit::new(r, limits, parts, things);
    let serving = lines - r.below(lines / 3);
    kit.want(r, serving);
    kit.spares(r, lines);
    match r.below(6) {
        0 => drop(kit.c.lines.swap_remove(r.below(lines))),
        1 => kit.c.lines[r.below(lines)].1 = 1,
        2 => kit.wanted.push(kit.any_name(r)),
        3 if r.once_in(4) => kit.wanted.push(kit.c.name(900)),
        _ => {}
    }
    if r.once_in(2) {
        r.shuffle(&mut kit.c.lines);
    }
    let names = [&kit.parts[..], &kit.things.iter().map(|t| t.0).collect::<Vec<_>>()].concat();
    let Kit { mut c, mut wanted, .. } = kit;
    if choices {
        choose(r, &mut c, &mut wanted, &names);
    }
    if r.once_in(2) {
        r.shuffle(&mut wanted);
    }
    c.goal = c.both(&wanted);
    covered(r, &mut c, &wanted);
    c
}

/// Two things by this kind, in either order: this one, and a name or, in a menu, a recipe for it.
fn beside(r: &mut Random, c: &mut Draft, kind: u8, one: usize, names: &[usize]) -> usize {
    let mut other = r.pick(names);
    if kind == 10 && r.once_in(3) {
        other = c.gives(&[r.pick(names)], other);
    }
    let mut sides = [one, other];
    r.shuffle(&mut sides);
    c.add(kind, sides[0], sides[1])
}

/// Every few needs, rules and lines offer a choice.
fn choose(r: &mut Random, c: &mut Draft, wanted: &mut [usize], names: &[usize]) {
    for need in wanted {
        if r.once_in(5) {
            *need = beside(r, c, 8, *need, names);
        }
    }
    for i in 0..c.rules.len() {
        if r.once_in(4) {
            c.rules[i] = beside(r, c, 10, c.rules[i], names);
        }
    }
    for i in 0..c.lines.len() {
        if r.once_in(4) {
            c.lines[i].0 = beside(r, c, 10, c.lines[i].0, names);
        }
    }
}

/// Now and then a rest beside the kit, the kit either way in two orders, or a tool lent to it.
fn covered(r: &mut Random, c: &mut Draft, wanted: &[usize]) {
    let mut order = wanted.to_vec();
    match r.below(12) {
        0 => {
            let rest = c.add(2, 0, 0);
            order.push(rest);
            c.goal = c.both(&order);
        }
        1 if wanted.len() < 30 => {
            r.shuffle(&mut order);
            let other = c.both(&order);
            c.goal = c.add(5, c.goal, other);
        }
        2 if wanted.len() < 60 => {
            let tool = c.name(60);
            order.insert(r.below(wanted.len() + 1), tool);
            let all = c.both(&order);
            c.goal = c.add(6, tool, all);
        }
        _ => {}
    }
}
