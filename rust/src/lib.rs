//! Safe calls of the kit planner, over its static library. No `std`, no allocation, no dependencies.
//!
//! A *card* (bytes) says which parts lie on the tray, which recipes hold and what is to come out. [`plan`] and
//! [`plan_sheet`] tell whether that can be done, and write the *sheet* that says how; [`check`] only tells whether
//! the card is sound; [`read`] holds a sheet against its card. [`join`] makes one card of two, and [`source`] and
//! [`located`] tell where a line of that one comes from. `docs/FORMAT.md` draws card and sheet byte by byte.
//!
//! ```
//! // Line 0 is name 2 and must be used; the goal is name 2.
//! let card = [0, 19, 1, 0, 1, 0, 1, 0, 0, 4, 8, 1, 0, 2, 0, 0, 0, 0, 1];
//! let sheet = kit_planner::plan_sheet(&card)?;
//! assert_eq!(sheet.steps(), [0]);
//! assert!(sheet.marks().eq([kit_planner::Mark::Used]));
//! assert_eq!(kit_planner::read(&card, sheet.as_bytes()), Ok(1));
//! # Ok::<(), kit_planner::Refusal>(())
//! ```
//!
//! A call takes nothing but stack: at most 552 KB to plan on the deepest cards tried. Any bytes of any length may be
//! lent. Planning can take long on a hard card and cannot be stopped, so run it in a thread or process of its own
//! where that matters; the other calls take time by the length of what is lent.
//!
//! The library is `libplanner_c.a`, by `make library`, in the repository's target/staticlib or in the
//! folder that `KIT_PLANNER_LIB_DIR` names when the crate is built.
#![no_std]
#![warn(missing_docs)]

#[cfg(all(no_archive, not(doc)))]
compile_error!(concat!(
    env!("KIT_PLANNER_ARCHIVE"),
    " is missing: run `make library` in the repository, ",
    "or name the folder that holds libplanner_c.a in KIT_PLANNER_LIB_DIR"
));

use core::fmt;

/// This package's version, which is the header's too.
///
/// ```
/// assert!(kit_planner::VERSION.split('.').count() == 3);
/// ```
pub const VERSION: &str = env!("CARGO_PKG_VERSION");

/// The longest card's length.
///
/// ```
/// // 512 nodes, 64 rules and 64 lines behind the front
/// assert_eq!(kit_planner::CARD_MAX, 11 + 5 * 512 + 2 * 64 + 3 * 64);
/// ```
pub const CARD_MAX: usize = 2891;

/// The longest sheet's length, so room for any sheet.
///
/// ```
/// // 255 steps and 64 marks behind the front
/// assert_eq!(kit_planner::SHEET_MAX, 5 + 255 + 64);
/// ```
pub const SHEET_MAX: usize = 324;

/// The step that chooses the left side.
///
/// ```
/// assert_eq!(kit_planner::Step::from(kit_planner::LEFT), kit_planner::Step::Left);
/// ```
pub const LEFT: u8 = 254;

/// The step that chooses the right side.
///
/// ```
/// assert_eq!(kit_planner::Step::from(kit_planner::RIGHT), kit_planner::Step::Right);
/// ```
pub const RIGHT: u8 = 255;

/// Room for any joined card.
///
/// ```
/// assert_eq!(kit_planner::ROOM_TO_JOIN, kit_planner::CARD_MAX);
/// ```
pub const ROOM_TO_JOIN: usize = CARD_MAX;

extern "C" {
    fn kit_plan(card: *const u8, card_len: usize, sheet: *mut u8, sheet_len: usize) -> u32;
    fn kit_read(card: *const u8, card_len: usize, sheet: *const u8, sheet_len: usize) -> u32;
    fn kit_join(
        first: *const u8,
        first_len: usize,
        second: *const u8,
        second_len: usize,
        joined: *mut u8,
        joined_len: usize,
    ) -> u32;
    fn kit_source(first: *const u8, first_len: usize, second: *const u8, second_len: usize, i: u16) -> u32;
}

/// What a refusal speaks of. Each index counts from 0.
///
/// ```
/// let place = kit_planner::Place::Line(2);
/// assert_eq!(place.to_string(), "line 2");
/// ```
#[derive(Clone, Copy, Debug, PartialEq, Eq)]
#[non_exhaustive]
pub enum Place {
    /// The card.
    Card,
    /// This node of the card.
    Node(u16),
    /// This rule of the card.
    Rule(u16),
    /// This line of the card.
    Line(u16),
    /// The sheet, or the buffer for it.
    Sheet,
    /// The steps of the sheet together.
    Steps,
    /// The mark of this line.
    Mark(u16),
    /// This step of the sheet. One that is missing stands behind the last.
    Step(u16),
}

/// A refusal: its number, 1 to 19, and its place.
///
/// ```
/// let refusal = kit_planner::check(&[0; 10]).unwrap_err();
/// assert_eq!((refusal.number, refusal.place), (1, kit_planner::Place::Card));
/// ```
#[derive(Clone, Copy, Debug, PartialEq, Eq)]
pub struct Refusal {
    /// What is wrong, 1 to 19; [`Refusal::reason`] has it in words.
    pub number: u8,
    /// Where.
    pub place: Place,
}

/// One of two cards.
///
/// ```
/// assert_eq!(kit_planner::Which::First.to_string(), "the first card");
/// ```
#[derive(Clone, Copy, Debug, PartialEq, Eq)]
pub enum Which {
    /// The first.
    First,
    /// The second.
    Second,
}

/// A refusal over two cards.
///
/// ```
/// let card = [0, 19, 1, 0, 1, 0, 1, 0, 0, 4, 8, 1, 0, 2, 0, 0, 0, 0, 1];
/// let refusal = kit_planner::join(&card, &[], &mut []).unwrap_err();
/// assert_eq!(refusal.card, Some(kit_planner::Which::Second));
/// assert_eq!(refusal.refusal.number, 1);
/// ```
#[derive(Clone, Copy, Debug, PartialEq, Eq)]
pub struct BenchRefusal {
    /// The card whose own it is: `None` for 10, 15 and 16, which are neither's.
    pub card: Option<Which>,
    /// The refusal itself.
    pub refusal: Refusal,
}

/// What has become of a line. Of the two sides of an "either way" only one will be walked in the end, so a line that
/// the steps use can still stay unused: [`Mark::Used`] and [`Mark::OneWay`] tell which.
///
/// ```
/// assert_eq!(kit_planner::Mark::Left.to_string(), "left on the tray");
/// assert_eq!(kit_planner::Mark::OneWay.to_string(), "used one way only");
/// ```
#[derive(Clone, Copy, Debug, PartialEq, Eq)]
#[non_exhaustive]
pub enum Mark {
    /// No step uses it, and it is a may line: it stays on the tray, or a rest takes it.
    Left = 0,
    /// It is surely used: whichever side of each "either way" is walked, a step uses it.
    Used = 1,
    /// No step uses it, and it is a must line: a rest takes it.
    Covered = 2,
    /// A step uses it, but not surely: one side of an "either way" uses it, the other does not.
    OneWay = 3,
}

/// What a step of a sheet says. An entry's number is at most 230, so it is never taken for a choice.
///
/// ```
/// use kit_planner::Step;
///
/// assert_eq!([7, 254, 255].map(Step::from), [Step::Entry(7), Step::Left, Step::Right]);
/// assert_eq!(Step::Left.to_string(), "left");
/// ```
#[derive(Clone, Copy, Debug, PartialEq, Eq)]
pub enum Step {
    /// The entry with this number is used: rules are numbered from 0, lines from P, the number of rules, and clauses
    /// lent on the way from P + T, T the number of lines.
    Entry(u8),
    /// The left side is taken, of a "one of" or of a menu in the entry used just before: [`LEFT`].
    Left,
    /// The right side is: [`RIGHT`].
    Right,
}

/// The sheet of a planned card.
///
/// ```
/// // The goal is done, and nothing lies on the tray.
/// let sheet = kit_planner::plan_sheet(&[0, 16, 1, 0, 0, 0, 1, 0, 0, 0, 0, 3, 0, 0, 0, 0])?;
/// assert_eq!(sheet.as_bytes(), [0, 5, 1, 0, 0]);
/// # Ok::<(), kit_planner::Refusal>(())
/// ```
#[derive(Clone, PartialEq, Eq)]
pub struct Sheet {
    /// Those behind the sheet are 0, so equal sheets have equal bytes.
    bytes: [u8; SHEET_MAX],
    len: usize,
}

/// Plans a card into the buffer. After `Ok(k)` its first 5 + k + T bytes are the sheet, and the others keep
/// what they held; after a refusal, 1 to 11, all do. [`SHEET_MAX`] bytes are enough for any card.
///
/// ```
/// let card = [0, 19, 1, 0, 1, 0, 1, 0, 0, 4, 8, 1, 0, 2, 0, 0, 0, 0, 1];
/// let mut sheet = [0; kit_planner::SHEET_MAX];
/// assert_eq!(kit_planner::plan(&card, &mut sheet), Ok(1));
/// assert_eq!(sheet[..7], [0, 7, 1, 1, 1, 0, 1]);
/// ```
pub fn plan(card: &[u8], sheet: &mut [u8]) -> Result<usize, Refusal> {
    // SAFETY: both are whole slices, not null even when empty. The buffer, which is written, may overlap
    // nothing else that is lent: it is borrowed by `&mut`, so it does not overlap the card.
    let answer = unsafe { kit_plan(card.as_ptr(), card.len(), sheet.as_mut_ptr(), sheet.len()) };
    unpacked(answer)
}

/// Plans a card: its sheet, or why there is none.
///
/// ```
/// let mut card = [0, 19, 1, 0, 1, 0, 1, 0, 0, 4, 8, 1, 0, 2, 0, 0, 0, 0, 1];
/// let sheet = kit_planner::plan_sheet(&card).expect("the line is the goal");
/// assert_eq!(sheet.as_bytes(), [0, 7, 1, 1, 1, 0, 1]);
/// card[10] = 0; // no step is allowed
/// let refusal = kit_planner::plan_sheet(&card).unwrap_err();
/// assert_eq!(refusal.to_string(), "refused 11 at card: no derivation within limits");
/// ```
pub fn plan_sheet(card: &[u8]) -> Result<Sheet, Refusal> {
    let mut bytes = [0; SHEET_MAX];
    plan(card, &mut bytes)?;
    let len = usize::from(u16::from_be_bytes([bytes[0], bytes[1]]));
    Ok(Sheet { bytes, len })
}

/// Checks a card and plans nothing: whether it is sound, or its refusal, 1 to 9.
///
/// ```
/// let mut card = [0, 19, 1, 0, 1, 0, 1, 0, 0, 4, 8, 1, 0, 2, 0, 0, 0, 0, 1];
/// assert_eq!(kit_planner::check(&card), Ok(()));
/// card[18] = 2; // neither must nor may
/// let refusal = kit_planner::check(&card).unwrap_err();
/// assert_eq!((refusal.number, refusal.place), (9, kit_planner::Place::Line(0)));
/// ```
pub fn check(card: &[u8]) -> Result<(), Refusal> {
    // No sheet has room in an empty buffer, so a sound card is refused with 10, before any search.
    match plan(card, &mut []) {
        Err(refusal) if refusal.number != 10 => Err(refusal),
        _ => Ok(()),
    }
}

/// Reads a sheet against its card: the number of its steps, or why it is refused. The two may overlap.
///
/// ```
/// let card = [0, 19, 1, 0, 1, 0, 1, 0, 0, 4, 8, 1, 0, 2, 0, 0, 0, 0, 1];
/// assert_eq!(kit_planner::read(&card, &[0, 7, 1, 1, 1, 0, 1]), Ok(1));
/// let refusal = kit_planner::read(&card, &[0, 7, 1, 1, 1, 0, 0]).unwrap_err();
/// assert_eq!(refusal.to_string(), "refused 14 at mark 0: a mark is not the true one");
/// ```
pub fn read(card: &[u8], sheet: &[u8]) -> Result<usize, Refusal> {
    // SAFETY: both are whole slices, not null even when empty. The call writes nothing, so they may overlap
    // or be the same.
    let answer = unsafe { kit_read(card.as_ptr(), card.len(), sheet.as_ptr(), sheet.len()) };
    unpacked(answer)
}

/// Joins two cards to one in the buffer. After `Ok(n)` its first n bytes are the joined card, and the others keep
/// what they held; after a refusal all do. [`ROOM_TO_JOIN`] bytes are enough. The two cards may overlap.
///
/// ```
/// let card = [0, 19, 1, 0, 1, 0, 1, 0, 0, 4, 8, 1, 0, 2, 0, 0, 0, 0, 1];
/// let mut joined = [0; kit_planner::ROOM_TO_JOIN];
/// let len = kit_planner::join(&card, &card, &mut joined)?;
/// let sheet = kit_planner::plan_sheet(&joined[..len]).expect("each has its line");
/// assert_eq!((len, sheet.steps()), (32, &[0, 1][..]));
/// # Ok::<(), kit_planner::BenchRefusal>(())
/// ```
pub fn join(first: &[u8], second: &[u8], joined: &mut [u8]) -> Result<usize, BenchRefusal> {
    // SAFETY: all three are whole slices, not null even when empty. The buffer, which is written, may overlap
    // nothing else that is lent: it is borrowed by `&mut`, so it overlaps no card. The cards are only read.
    let answer = unsafe {
        kit_join(
            first.as_ptr(),
            first.len(),
            second.as_ptr(),
            second.len(),
            joined.as_mut_ptr(),
            joined.len(),
        )
    };
    unpacked_of(answer)
}

/// The three bytes of the joined card's line i, as they stand in the card that holds it. The two may overlap.
///
/// ```
/// let card = [0, 19, 1, 0, 1, 0, 1, 0, 0, 4, 8, 1, 0, 2, 0, 0, 0, 0, 1];
/// assert_eq!(kit_planner::source(&card, &card, 1), Ok(&card[16..]));
/// let refusal = kit_planner::source(&card, &card, 2).unwrap_err();
/// assert_eq!(refusal.to_string(), "refused 16 at line 2: line not below the joined T");
/// ```
pub fn source<'a>(first: &'a [u8], second: &'a [u8], i: u16) -> Result<&'a [u8], BenchRefusal> {
    let (card, at) = located(first, second, i)?;
    Ok(&card.of(first, second)[at..at + 3])
}

/// The card that holds the joined card's line i, and where its three bytes begin there.
///
/// ```
/// let card = [0, 19, 1, 0, 1, 0, 1, 0, 0, 4, 8, 1, 0, 2, 0, 0, 0, 0, 1];
/// assert_eq!(kit_planner::located(&card, &card, 1), Ok((kit_planner::Which::Second, 16)));
/// ```
pub fn located(first: &[u8], second: &[u8], i: u16) -> Result<(Which, usize), BenchRefusal> {
    // SAFETY: both are whole slices, not null even when empty. The call writes nothing, so they may overlap
    // or be the same.
    let answer = unsafe { kit_source(first.as_ptr(), first.len(), second.as_ptr(), second.len(), i) };
    let at = unpacked_of(answer)?;
    let card = Which::told(answer).expect("one of the cards holds the line");
    Ok((card, at))
}

fn unpacked(answer: u32) -> Result<usize, Refusal> {
    let [number, card_and_place, high, low] = answer.to_be_bytes();
    let index = u16::from_be_bytes([high, low]);
    if number == 0 {
        return Ok(usize::from(index));
    }
    let place = Place::numbered(card_and_place & 0xf, index);
    Err(Refusal { number, place })
}

/// The same for a call over two cards.
fn unpacked_of(answer: u32) -> Result<usize, BenchRefusal> {
    unpacked(answer).map_err(|refusal| BenchRefusal { card: Which::told(answer), refusal })
}

impl Which {
    /// The card that an answer names.
    fn told(answer: u32) -> Option<Which> {
        match answer >> 20 & 0xf {
            0 => None,
            1 => Some(Which::First),
            2 => Some(Which::Second),
            number => unreachable!("no card has the number {number}"),
        }
    }

    /// This one of the two.
    ///
    /// ```
    /// assert_eq!(kit_planner::Which::Second.of("left", "right"), "right");
    /// ```
    pub fn of<T>(self, first: T, second: T) -> T {
        match self {
            Which::First => first,
            Which::Second => second,
        }
    }
}

impl Place {
    /// The place by its number.
    fn numbered(number: u8, index: u16) -> Place {
        match number {
            0 => Place::Card,
            1 => Place::Node(index),
            2 => Place::Rule(index),
            3 => Place::Line(index),
            4 => Place::Sheet,
            5 => Place::Steps,
            6 => Place::Mark(index),
            7 => Place::Step(index),
            _ => unreachable!("no place has the number {number}"),
        }
    }

    /// Its word, and its index where it has one.
    ///
    /// ```
    /// assert_eq!(kit_planner::Place::Node(3).word(), ("node", Some(3)));
    /// ```
    pub fn word(self) -> (&'static str, Option<u16>) {
        match self {
            Place::Card => ("card", None),
            Place::Node(i) => ("node", Some(i)),
            Place::Rule(i) => ("rule", Some(i)),
            Place::Line(i) => ("line", Some(i)),
            Place::Sheet => ("sheet", None),
            Place::Steps => ("steps", None),
            Place::Mark(i) => ("mark", Some(i)),
            Place::Step(i) => ("step", Some(i)),
        }
    }
}

impl Refusal {
    /// When the refusal applies.
    ///
    /// ```
    /// let refusal = kit_planner::check(&[]).unwrap_err();
    /// assert_eq!(refusal.reason(), "fewer than 11 bytes");
    /// ```
    pub fn reason(self) -> &'static str {
        match self.number {
            1 => "fewer than 11 bytes",
            2 => "length field differs from the bytes lent",
            3 => "version not 1",
            4 => "P, T, N or d out of range",
            5 => "length formula not met",
            6 => "unknown kind, name above 999, unused field not 0, part not lower, part of the wrong reading, or height above 8",
            7 => "goal not below N or not a goal",
            8 => "rule not below N or not a clause",
            9 => "line not below N or not a clause, or must/may byte above 1",
            10 => "buffer shorter than 5 + s + T or, joining, than the joined card",
            11 => "no derivation within limits",
            12 => "sheet under 5 bytes, length field not the bytes lent, version not 1, T not the card's, length not 5 + k + T, or k above s",
            13 => "the step names no rule, line or lent part in scope that gives the name wanted there, or is no choice that fits where one is wanted",
            14 => "a mark is not the true one",
            15 => "joined P, T or N past its limit, or the new goal's height above 8",
            16 => "line not below the joined T",
            17 => "the step stands inside more uses than the nesting limit allows",
            18 => "the step is missing (more is wanted) or one too many (nothing is wanted any more)",
            19 => "a part is used twice, a must line or lent part neither used nor left to rest, the sides of \"either way\" use different parts, or never is wanted",
            _ => "unknown",
        }
    }
}

impl Mark {
    /// The mark by its number.
    fn numbered(number: u8) -> Mark {
        match number {
            0 => Mark::Left,
            1 => Mark::Used,
            2 => Mark::Covered,
            3 => Mark::OneWay,
            _ => unreachable!("no mark has the number {number}"),
        }
    }
}

impl Sheet {
    /// The sheet's bytes, as [`read`] takes them.
    ///
    /// ```
    /// let card = [0, 19, 1, 0, 1, 0, 1, 0, 0, 4, 8, 1, 0, 2, 0, 0, 0, 0, 1];
    /// let sheet = kit_planner::plan_sheet(&card)?;
    /// assert_eq!(sheet.as_bytes(), [0, 7, 1, 1, 1, 0, 1]);
    /// # Ok::<(), kit_planner::Refusal>(())
    /// ```
    pub fn as_bytes(&self) -> &[u8] {
        &self.bytes[..self.len]
    }

    /// The steps as bytes: the number of the entry used, or [`LEFT`] or [`RIGHT`] for a choice; [`Step`] has more.
    ///
    /// ```
    /// let card = [0, 19, 1, 0, 1, 0, 1, 0, 0, 4, 8, 1, 0, 2, 0, 0, 0, 0, 1];
    /// assert_eq!(kit_planner::plan_sheet(&card)?.steps(), [0]);
    /// # Ok::<(), kit_planner::Refusal>(())
    /// ```
    pub fn steps(&self) -> &[u8] {
        self.parts().0
    }

    /// The same steps, told apart.
    ///
    /// ```
    /// use kit_planner::Step;
    ///
    /// // Line 0 is name 2; the goal is one of the names 3 and 2.
    /// let card = [
    ///     0, 29, 1, 0, 1, 0, 3, 0, 2, 4, 8, 1, 0, 3, 0, 0, 1, 0, 2, 0, 0, 8, 0, 0, 0, 1, 0, 1, 1,
    /// ];
    /// let sheet = kit_planner::plan_sheet(&card)?;
    /// assert_eq!(sheet.steps(), [255, 0]);
    /// assert!(sheet.walk().eq([Step::Right, Step::Entry(0)]));
    /// # Ok::<(), kit_planner::Refusal>(())
    /// ```
    pub fn walk(&self) -> impl ExactSizeIterator<Item = Step> + DoubleEndedIterator + Clone + '_ {
        self.parts().0.iter().map(|&step| Step::from(step))
    }

    /// The mark of each line.
    ///
    /// ```
    /// use kit_planner::Mark;
    ///
    /// // The goal is rest, which takes a must line; a may line is left.
    /// let card = [0, 27, 1, 0, 2, 0, 2, 0, 1, 4, 8, 1, 0, 2, 0, 0, 2, 0, 0, 0, 0, 0, 0, 1, 0, 0, 0];
    /// let sheet = kit_planner::plan_sheet(&card)?;
    /// assert_eq!(sheet.marks().len(), 2);
    /// assert!(sheet.marks().eq([Mark::Covered, Mark::Left]));
    ///
    /// // The goal is "name 2 either way rest": one side uses the line, the other leaves it to rest.
    /// let card = [
    ///     0, 29, 1, 0, 1, 0, 3, 0, 2, 4, 8, 1, 0, 2, 0, 0, 2, 0, 0, 0, 0, 5, 0, 0, 0, 1, 0, 0, 1,
    /// ];
    /// let sheet = kit_planner::plan_sheet(&card)?;
    /// assert!(sheet.marks().eq([Mark::OneWay]));
    /// # Ok::<(), kit_planner::Refusal>(())
    /// ```
    pub fn marks(&self) -> impl ExactSizeIterator<Item = Mark> + DoubleEndedIterator + Clone + '_ {
        self.parts().1.iter().map(|&number| Mark::numbered(number))
    }

    /// The bytes of the steps, and those of the marks.
    fn parts(&self) -> (&[u8], &[u8]) {
        self.as_bytes()[5..].split_at(usize::from(self.bytes[3]))
    }
}

impl fmt::Debug for Sheet {
    fn fmt(&self, f: &mut fmt::Formatter) -> fmt::Result {
        let (steps, marks) = self.parts();
        f.debug_struct("Sheet").field("steps", &steps).field("marks", &marks).finish()
    }
}

impl From<u8> for Step {
    fn from(step: u8) -> Step {
        match step {
            LEFT => Step::Left,
            RIGHT => Step::Right,
            entry => Step::Entry(entry),
        }
    }
}

impl fmt::Display for Step {
    fn fmt(&self, f: &mut fmt::Formatter) -> fmt::Result {
        match self {
            Step::Entry(number) => write!(f, "entry {number}"),
            Step::Left => f.write_str("left"),
            Step::Right => f.write_str("right"),
        }
    }
}

impl fmt::Display for Mark {
    fn fmt(&self, f: &mut fmt::Formatter) -> fmt::Result {
        f.write_str(match self {
            Mark::Left => "left on the tray",
            Mark::Used => "used",
            Mark::Covered => "taken by rest",
            Mark::OneWay => "used one way only",
        })
    }
}

impl fmt::Display for Place {
    fn fmt(&self, f: &mut fmt::Formatter) -> fmt::Result {
        match self.word() {
            (word, None) => write!(f, "{word}"),
            (word, Some(i)) => write!(f, "{word} {i}"),
        }
    }
}

impl fmt::Display for Refusal {
    fn fmt(&self, f: &mut fmt::Formatter) -> fmt::Result {
        write!(f, "refused {} at {}: {}", self.number, self.place, self.reason())
    }
}

impl fmt::Display for Which {
    fn fmt(&self, f: &mut fmt::Formatter) -> fmt::Result {
        write!(f, "the {} card", self.of("first", "second"))
    }
}

impl fmt::Display for BenchRefusal {
    fn fmt(&self, f: &mut fmt::Formatter) -> fmt::Result {
        let Refusal { number, place } = self.refusal;
        let reason = self.refusal.reason();
        match (self.card, place) {
            (None, _) => write!(f, "{}", self.refusal),
            (Some(card), Place::Card) => write!(f, "refused {number} at {card}: {reason}"),
            (Some(card), _) => write!(f, "refused {number} at {place} of {card}: {reason}"),
        }
    }
}

impl core::error::Error for Refusal {}

impl core::error::Error for BenchRefusal {}

#[cfg(test)]
mod tests {
    extern crate std;

    use super::*;
    use std::format;
    use std::string::ToString;
    use std::vec::Vec;

    /// Name 2 must be used, and is the goal.
    const SMALL: [u8; 19] = [0, 19, 1, 0, 1, 0, 1, 0, 0, 4, 8, 1, 0, 2, 0, 0, 0, 0, 1];

    #[test]
    fn cards_are_checked() {
        assert_eq!(check(&SMALL), Ok(()));
        let mut card = SMALL;
        card[10] = 0;
        assert_eq!(check(&card), Ok(()), "a card without a plan is sound");
        for (at, to, number, place) in [
            (1, 18, 2, Place::Card),
            (2, 2, 3, Place::Card),
            (9, 17, 4, Place::Card),
            (6, 2, 5, Place::Card),
            (11, 11, 6, Place::Node(0)),
            (8, 1, 7, Place::Card),
            (17, 1, 9, Place::Line(0)),
        ] {
            let mut card = SMALL;
            card[at] = to;
            assert_eq!(check(&card), Err(Refusal { number, place }));
        }
        assert_eq!(check(&[]), Err(Refusal { number: 1, place: Place::Card }));
    }

    #[test]
    fn sheets_are_taken_apart() {
        let sheet = plan_sheet(&SMALL).expect("the line is the goal");
        assert_eq!(sheet.as_bytes(), [0, 7, 1, 1, 1, 0, 1]);
        assert_eq!((sheet.steps(), sheet.marks().len()), (&[0][..], 1));
        assert_eq!(format!("{sheet:?}"), "Sheet { steps: [0], marks: [1] }");
        assert_eq!(sheet.clone(), sheet);
        let mut bytes = [0; SHEET_MAX];
        bytes[..11].copy_from_slice(&[0, 11, 1, 2, 4, 9, 8, 0, 1, 2, 3]);
        let sheet = Sheet { bytes, len: 11 };
        let words: Vec<_> = sheet.marks().map(|mark| (mark as u8, mark.to_string())).collect();
        let wanted = [(0, "left on the tray"), (1, "used"), (2, "taken by rest"), (3, "used one way only")];
        assert_eq!(words, wanted.map(|(number, word)| (number, word.to_string())));
        assert_eq!(sheet.steps(), [9, 8]);
    }

    /// Name 2 must be used one way; the other way a rest takes it.
    const ONE_WAY: [u8; 29] =
        [0, 29, 1, 0, 1, 0, 3, 0, 2, 4, 8, 1, 0, 2, 0, 0, 2, 0, 0, 0, 0, 5, 0, 0, 0, 1, 0, 0, 1];

    #[test]
    fn a_line_used_one_way_only() {
        let sheet = plan_sheet(&ONE_WAY).expect("the rest takes the line the other way");
        assert_eq!(sheet.as_bytes(), [0, 7, 1, 1, 1, 0, 3]);
        assert!(sheet.marks().eq([Mark::OneWay]));
        assert_eq!(read(&ONE_WAY, sheet.as_bytes()), Ok(1));
        for mark in [0, 1, 2, 4, 255] {
            let wrong = read(&ONE_WAY, &[0, 7, 1, 1, 1, 0, mark]);
            assert_eq!(wrong, Err(Refusal { number: 14, place: Place::Mark(0) }));
        }
        let surely = read(&SMALL, &[0, 7, 1, 1, 1, 0, 3]);
        assert_eq!(surely, Err(Refusal { number: 14, place: Place::Mark(0) }));
    }

    #[test]
    fn steps_are_told_apart() {
        let mut bytes = [0; SHEET_MAX];
        bytes[..10].copy_from_slice(&[0, 10, 1, 5, 0, 0, 254, 230, 255, 253]);
        let sheet = Sheet { bytes, len: 10 };
        assert_eq!(sheet.walk().len(), 5);
        let words: Vec<_> = sheet.walk().map(|step| step.to_string()).collect();
        assert_eq!(words, ["entry 0", "left", "entry 230", "right", "entry 253"]);
        assert!(sheet.walk().eq(sheet.steps().iter().map(|&step| Step::from(step))));
        assert_eq!((Step::from(LEFT), Step::from(RIGHT)), (Step::Left, Step::Right));
    }

    #[test]
    fn longest_lengths() {
        assert_eq!((CARD_MAX, SHEET_MAX), (11 + 5 * 512 + 2 * 64 + 3 * 64, 5 + 255 + 64));
    }

    #[test]
    fn answers_are_unpacked() {
        assert_eq!(unpacked(0), Ok(0));
        assert_eq!(unpacked(255), Ok(255));
        let node = Refusal { number: 6, place: Place::Node(511) };
        assert_eq!(unpacked(0x0601_01ff), Err(node));
        let mark = Refusal { number: 14, place: Place::Mark(63) };
        assert_eq!(unpacked(0x0e06_003f), Err(mark));
        let step = Refusal { number: 18, place: Place::Step(255) };
        assert_eq!(unpacked(0x1207_00ff), Err(step));
        let steps = Refusal { number: 19, place: Place::Steps };
        assert_eq!(unpacked(0x1305_0000), Err(steps));
    }

    fn of(card: Option<Which>, number: u8, place: Place) -> BenchRefusal {
        BenchRefusal { card, refusal: Refusal { number, place } }
    }

    #[test]
    fn answers_over_two_cards_are_unpacked() {
        let line = of(Some(Which::First), 9, Place::Line(63));
        assert_eq!(unpacked_of(0x0913_003f), Err(line));
        assert_eq!(unpacked_of(0x0120_0000), Err(of(Some(Which::Second), 1, Place::Card)));
        assert_eq!(unpacked_of(0x0a04_0000), Err(of(None, 10, Place::Sheet)));
        assert_eq!(unpacked_of(0x0f00_0000), Err(of(None, 15, Place::Card)));
        assert_eq!(unpacked_of(0x1003_ffff), Err(of(None, 16, Place::Line(65_535))));
        assert_eq!(unpacked_of(0x0000_0b4b), Ok(ROOM_TO_JOIN));
        assert_eq!((unpacked_of(0x0010_0025), Which::told(0x0010_0025)), (Ok(37), Some(Which::First)));
        assert_eq!((unpacked_of(0x0020_000b), Which::told(0x0020_000b)), (Ok(11), Some(Which::Second)));
    }

    /// The bits for the card are no part of the place, and the place has four of its own.
    #[test]
    fn places_have_four_bits() {
        for card in 0..3 {
            for (number, place) in [(0, Place::Card), (1, Place::Node(7)), (7, Place::Step(7))] {
                let answer = 0x0600_0007 | card << 20 | number << 16;
                assert_eq!(unpacked(answer), Err(Refusal { number: 6, place }));
            }
        }
    }

    #[test]
    fn refusals_are_told_in_words() {
        let none = Refusal { number: 11, place: Place::Card };
        assert_eq!(none.to_string(), "refused 11 at card: no derivation within limits");
        let rule = Refusal { number: 8, place: Place::Rule(3) };
        assert_eq!(rule.to_string(), "refused 8 at rule 3: rule not below N or not a clause");
        let step = Refusal { number: 17, place: Place::Step(0) };
        assert_eq!(
            step.to_string(),
            "refused 17 at step 0: the step stands inside more uses than the nesting limit allows"
        );
        let told = |number| Refusal { number, place: Place::Card }.reason();
        assert!((1..=19).all(|number| told(number) != told(0)));
        let line = of(None, 16, Place::Line(9));
        assert_eq!(line.to_string(), "refused 16 at line 9: line not below the joined T");
        let rule = of(Some(Which::First), 8, Place::Rule(3));
        assert_eq!(
            rule.to_string(),
            "refused 8 at rule 3 of the first card: rule not below N or not a clause"
        );
        let card = of(Some(Which::Second), 3, Place::Card);
        assert_eq!(card.to_string(), "refused 3 at the second card: version not 1");
    }
}
