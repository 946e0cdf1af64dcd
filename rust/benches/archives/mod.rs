//! The planner of this tree and, where build.rs was told of a pair, that of an earlier commit; each can be asked in
//! a process of its own.
#[path = "../../tests/asked/mod.rs"]
mod asked;

#[allow(unused_imports)]
pub use asked::{Answer, Asked, ROOM};
use kit_planner as _; // links this tree's archive

type Plan = unsafe extern "C" fn(*const u8, usize, *mut u8, usize) -> u32;
type Read = unsafe extern "C" fn(*const u8, usize, *const u8, usize) -> u32;

#[cfg(pair)]
extern "C" {
    fn before_kit_plan(card: *const u8, card_len: usize, sheet: *mut u8, sheet_len: usize) -> u32;
    fn before_kit_read(card: *const u8, card_len: usize, sheet: *const u8, sheet_len: usize) -> u32;
    fn now_kit_plan(card: *const u8, card_len: usize, sheet: *mut u8, sheet_len: usize) -> u32;
    fn now_kit_read(card: *const u8, card_len: usize, sheet: *const u8, sheet_len: usize) -> u32;
}

#[cfg(not(pair))]
extern "C" {
    fn kit_plan(card: *const u8, card_len: usize, sheet: *mut u8, sheet_len: usize) -> u32;
    fn kit_read(card: *const u8, card_len: usize, sheet: *const u8, sheet_len: usize) -> u32;
}

/// An archive by its calls.
#[derive(Clone, Copy)]
pub struct Archive(Plan, Read);

/// The archives there are, the earlier first.
#[cfg(pair)]
pub const ARCHIVES: &[Archive] =
    &[Archive(before_kit_plan, before_kit_read), Archive(now_kit_plan, now_kit_read)];
#[cfg(not(pair))]
pub const ARCHIVES: &[Archive] = &[Archive(kit_plan, kit_read)];

impl Archive {
    /// The planner's answer as the call's number.
    pub fn plan(self, card: &[u8], sheet: &mut [u8]) -> u32 {
        // SAFETY: both are whole slices, and the buffer is borrowed by `&mut`.
        unsafe { self.0(card.as_ptr(), card.len(), sheet.as_mut_ptr(), sheet.len()) }
    }

    /// The reader's answer as the call's number.
    #[allow(dead_code)]
    pub fn read(self, card: &[u8], sheet: &[u8]) -> u32 {
        // SAFETY: both are whole slices.
        unsafe { self.1(card.as_ptr(), card.len(), sheet.as_ptr(), sheet.len()) }
    }
}

/// Whether every archive knows the kinds of a choice: then the card whose goal is never is sound, and refused with 11.
#[allow(dead_code)]
pub fn all_choose() -> bool {
    let never = [0, 16, 1, 0, 0, 0, 1, 0, 0, 0, 0, 9, 0, 0, 0, 0];
    ARCHIVES.iter().all(|archive| archive.plan(&never, &mut [0; ROOM]) >> 24 == 11)
}

/// Whether two sheets are the same but for marks that are 3 now and were 1, as a planner without mark 3 has them.
#[allow(dead_code)]
pub fn only_one_way(before: &[u8], now: &[u8]) -> bool {
    let marks = 5 + usize::from(now[3]);
    before.len() == now.len()
        && before.iter().zip(now).enumerate().all(|(i, (&b, &n))| b == n || i >= marks && (b, n) == (1, 3))
}

/// In a process that was started to answer, answers for the archive it was told and never returns.
pub fn serve() {
    asked::serve(|which, card, sheet| ARCHIVES[which].plan(card, sheet));
}
