//! Comparisons with the model: how often each answer was met, and how often the model had none.
#![allow(dead_code)]

use crate::cards::Random;
use kit_planner::Refusal;

/// Plans into a buffer of random bytes: the answer and every byte are as wanted, and the sheet is accepted.
pub fn compare_plan(
    r: &mut Random,
    met: &mut Met,
    card: &[u8],
    size: usize,
    wanted: Option<Result<Vec<u8>, Refusal>>,
) {
    let Some(wanted) = wanted else {
        met.skipped += 1;
        return;
    };
    let old = r.bytes(size);
    let mut buffer = old.clone();
    let answer = kit_planner::plan(card, &mut buffer);
    let mut after = old;
    if let Ok(sheet) = &wanted {
        after[..sheet.len()].copy_from_slice(sheet);
    }
    assert_eq!(answer, wanted.clone().map(|s| usize::from(s[3])), "card {card:02x?}, buffer of {size}");
    assert_eq!(buffer, after, "card {card:02x?}, buffer of {size}");
    met.count(&answer);
    if let (Ok(k), Ok(sheet)) = (answer, wanted) {
        assert_eq!(kit_planner::read(card, &sheet), Ok(k), "card {card:02x?}");
        met.choose(&sheet[5..5 + k]);
        met.mark(&sheet[5 + k..]);
        met.longest = met.longest.max(k);
        met.long += usize::from(k >= LONG);
    }
}

/// So many steps make a list long.
pub const LONG: usize = 50;

/// How often each refusal was met, and 0: planned or accepted; and how many cards were skipped, the model's
/// budget being spent, or given up, the planner having taken too long.
#[derive(Default, Debug)]
pub struct Met {
    numbers: [usize; 20],
    pub skipped: usize,
    pub given_up: usize,
    /// How often left and right stand in the lists.
    pub chosen: [usize; 2],
    /// How often each mark stands in the sheets.
    pub marks: [usize; 4],
    /// The most steps of a sheet, and how many sheets are long.
    pub longest: usize,
    pub long: usize,
}

impl Met {
    pub fn count<T>(&mut self, answer: &Result<T, Refusal>) {
        self.numbers[answer.as_ref().map_or_else(|r| usize::from(r.number), |_| 0)] += 1;
    }

    /// Counts a card by its lists: planned, refused 11 or skipped.
    pub fn count_lists(&mut self, lists: Option<&Vec<Vec<u8>>>) {
        match lists {
            Some(lists) if lists.is_empty() => self.numbers[11] += 1,
            Some(lists) => {
                self.numbers[0] += 1;
                lists.iter().for_each(|list| self.choose(list));
            }
            None => self.skipped += 1,
        }
    }

    /// Counts the choices of a list.
    pub fn choose(&mut self, list: &[u8]) {
        for (count, side) in self.chosen.iter_mut().zip([254, 255]) {
            *count += list.iter().filter(|&&step| step == side).count();
        }
    }

    /// Left and right were taken so often.
    pub fn chose(&self, least: usize) {
        assert!(self.chosen.iter().all(|&n| n >= least), "fewer than {least} choices a side: {self:?}");
    }

    /// Counts the marks of a sheet that is accepted.
    pub fn mark(&mut self, marks: &[u8]) {
        marks.iter().for_each(|&mark| self.marks[usize::from(mark)] += 1);
    }

    /// Each mark was met so often.
    pub fn marked(&self, least: usize) {
        assert!(self.marks.iter().all(|&n| n >= least), "fewer than {least} of a mark: {self:?}");
    }

    /// Each of these was met.
    pub fn all(&self, numbers: &[usize]) {
        for &n in numbers {
            assert!(self.numbers[n] > 0, "{n} was never met: {self:?}");
        }
    }

    /// Each of these was met at least so often.
    pub fn each(&self, numbers: &[usize], least: usize) {
        for &n in numbers {
            assert!(self.numbers[n] >= least, "{n} was met fewer than {least} times: {self:?}");
        }
    }

    /// At least so many were planned or accepted. Of those that reach the search (planned, refused 11 or
    /// skipped) fewer than two in a hundred were skipped.
    pub fn enough(&self, least: usize) {
        assert!(self.numbers[0] >= least, "fewer than {least}: {self:?}");
        let searched = self.searched() + self.skipped;
        assert!(self.skipped * 50 < searched, "too many skipped: {self:?}");
    }

    pub fn planned(&self) -> usize {
        self.numbers[0]
    }

    /// Refused by the search.
    pub fn refused(&self) -> usize {
        self.numbers[11]
    }

    /// Planned or refused by the search.
    pub fn searched(&self) -> usize {
        self.planned() + self.refused()
    }

    pub fn left_out(&self) -> usize {
        self.skipped + self.given_up
    }
}
