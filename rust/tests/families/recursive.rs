//! Small cards whose recipes ask for the names they give.
use crate::cards::{Draft, Random};

/// A card on the way: its names, and whether it has choices.
struct Card<'a> {
    r: &'a mut Random,
    c: Draft,
    names: Vec<usize>,
    choices: bool,
}

impl Card<'_> {
    /// A goal of these names, now and then with another connective.
    fn goal(&mut self, height: usize) -> usize {
        if height == 0 || self.r.once_in(2) {
            return match self.r.below(12) {
                0 => self.c.add(2, 0, 0),
                1 => self.c.add(3, 0, 0),
                _ => self.r.pick(&self.names),
            };
        }
        if self.choices && self.r.once_in(4) {
            return self.one_of(height - 1);
        }
        let kind = self.r.pick(&[4, 4, 4, 4, 4, 4, 5, 6]);
        let left = if kind == 6 { self.clause(height - 1) } else { self.goal(height - 1) };
        let right = self.goal(height - 1);
        self.c.add(kind, left, right)
    }

    /// One of two goals, of which now and then one is never.
    fn one_of(&mut self, height: usize) -> usize {
        let mut sides = [self.goal(height), self.goal(height)];
        if self.r.once_in(4) {
            sides[self.r.below(2)] = self.c.add(9, 0, 0);
        }
        self.c.add(8, sides[0], sides[1])
    }

    /// A name, or a recipe that as often as not asks for the name it gives; or a menu of two such.
    fn clause(&mut self, height: usize) -> usize {
        if self.choices && height > 1 && self.r.once_in(4) {
            let sides = [self.clause(height - 1), self.clause(height - 1)];
            return self.c.add(10, sides[0], sides[1]);
        }
        let head = self.r.pick(&self.names);
        if height == 0 || self.r.once_in(2) {
            return head;
        }
        let mut condition = self.goal(height - 1);
        if self.r.once_in(2) {
            condition = self.c.add(4, head, condition);
        }
        self.c.gives(&[condition], head)
    }
}

/// Any card of up to six rules and twelve lines.
pub fn any(r: &mut Random) -> Draft {
    card(r, false)
}

/// The same with choices.
pub fn choosing(r: &mut Random) -> Draft {
    card(r, true)
}

fn card(r: &mut Random, choices: bool) -> Draft {
    let mut c = Draft::limits(r.pick(&[2, 3, 4, 5, 6, 8, 16]), r.pick(&[6, 10, 16, 24, 40, 60]));
    let names: Vec<usize> = (0..1 + r.below(4)).map(|i| c.name(i)).collect();
    let mut card = Card { r, c, names, choices };
    for _ in 0..1 + card.r.below(6) {
        let rule = card.clause(3);
        card.c.rules.push(rule);
    }
    let (must, lines) = (card.r.pick(&[1, 2, 4]), card.r.below(13));
    for _ in 0..lines {
        let line = if card.r.once_in(4) { card.clause(3) } else { card.r.pick(&card.names) };
        card.c.lines.push((line, u8::from(card.r.once_in(must))));
    }
    let goals: Vec<usize> = (0..1 + card.r.below(5)).map(|_| card.goal(2)).collect();
    card.c.goal = card.c.both(&goals);
    card.c
}
