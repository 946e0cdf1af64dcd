//! The kinds of node, by their words at the desk.

/// What a field of a node holds.
#[derive(Clone, Copy, PartialEq, Eq)]
pub enum Holds {
    Name,
    Nothing,
    Goal,
    Clause,
}

/// A kind of node: `around` has the words before its left part and before its right, `roles` what each part is to it.
pub struct Kind {
    pub number: u8,
    pub word: &'static str,
    pub fields: [Holds; 2],
    pub reads: Reads,
    pub around: [&'static str; 2],
    pub roles: [&'static str; 2],
}

/// What a node can be read as.
#[derive(Clone, Copy, PartialEq, Eq)]
pub struct Reads {
    pub goal: bool,
    pub clause: bool,
}

const GOAL: Reads = Reads { goal: true, clause: false };
const CLAUSE: Reads = Reads { goal: false, clause: true };
const EITHER: Reads = Reads { goal: true, clause: true };

pub const NAME: u8 = 1;
pub const REST: u8 = 2;
pub const DONE: u8 = 3;
pub const BOTH: u8 = 4;
pub const EITHER_WAY: u8 = 5;
pub const LEND: u8 = 6;
pub const RECIPE: u8 = 7;
pub const ONE_OF: u8 = 8;
pub const NEVER: u8 = 9;
pub const MENU: u8 = 10;

const fn kind(number: u8, word: &'static str, fields: [Holds; 2], reads: Reads) -> Kind {
    Kind { number, word, fields, reads, around: ["", ""], roles: ["", ""] }
}

use Holds::{Clause, Goal, Name, Nothing};

/// What a choice takes, as the words for the parts that offer it.
const SIDES: [&str; 2] = ["the left side", "the right side"];

/// 01's table, and behind it 02's.
pub const KINDS: [Kind; 10] = [
    kind(NAME, "name", [Name, Nothing], EITHER),
    kind(REST, "rest", [Nothing, Nothing], EITHER),
    kind(DONE, "done", [Nothing, Nothing], GOAL),
    Kind {
        around: ["", "both"],
        roles: ["one part", "the other part"],
        ..kind(BOTH, "both", [Goal, Goal], GOAL)
    },
    Kind {
        around: ["", "either way"],
        roles: ["one way", "the other way"],
        ..kind(EITHER_WAY, "either way", [Goal, Goal], GOAL)
    },
    Kind {
        around: ["lend", "to"],
        roles: ["what is lent", "to what"],
        ..kind(LEND, "lend", [Clause, Goal], GOAL)
    },
    Kind {
        around: ["", "gives"],
        roles: ["the condition", "what it gives"],
        ..kind(RECIPE, "recipe", [Goal, Clause], CLAUSE)
    },
    Kind { around: ["", "one of"], roles: SIDES, ..kind(ONE_OF, "one of", [Goal, Goal], GOAL) },
    kind(NEVER, "never", [Nothing, Nothing], GOAL),
    Kind { around: ["", "menu"], roles: SIDES, ..kind(MENU, "menu", [Clause, Clause], CLAUSE) },
];

/// The kind with this number.
pub fn numbered(number: u8) -> Option<&'static Kind> {
    KINDS.iter().find(|kind| kind.number == number)
}

impl Holds {
    /// Whether the field names a part.
    pub fn part(self) -> bool {
        matches!(self, Goal | Clause)
    }

    /// Whether a part read so fits here.
    pub fn fits(self, reads: Reads) -> bool {
        match self {
            Goal => reads.goal,
            Clause => reads.clause,
            Name | Nothing => false,
        }
    }
}
