//! Any bytes, in buffers with no access before and behind them.
mod cards;
mod met;
mod model;

use cards::{any_card, damage_mark, Draft, Random};
use met::Met;
use model::bench;
use std::ffi::c_void;
use std::slice::from_raw_parts_mut;

extern "C" {
    fn mmap(at: *mut c_void, len: usize, prot: i32, flags: i32, file: i32, from: i64) -> *mut c_void;
    fn mprotect(at: *mut c_void, len: usize, prot: i32) -> i32;
}

const PAGE: usize = 4096;
const ROOM: usize = 4 * PAGE;
const BUDGET: usize = 20_000;

/// Memory between two pages without access. It stays until the test ends.
struct Guarded {
    start: *mut u8,
}

impl Guarded {
    fn new() -> Guarded {
        // SAFETY: fresh private memory; its outer pages lose all access before any use.
        unsafe {
            let all = mmap(std::ptr::null_mut(), ROOM + 2 * PAGE, 3, 0x22, -1, 0);
            assert_ne!(all as isize, -1);
            assert_eq!(mprotect(all, PAGE, 0), 0);
            assert_eq!(mprotect(all.byte_add(PAGE + ROOM), PAGE, 0), 0);
            Guarded { start: all.cast::<u8>().add(PAGE) }
        }
    }

    /// Whether the bytes can be written, or only read.
    fn writable(&mut self, yes: bool) {
        // SAFETY: the pages are this mapping's own.
        let done = unsafe { mprotect(self.start.cast(), ROOM, if yes { 3 } else { 1 }) };
        assert_eq!(done, 0);
    }

    /// The bytes, against the page behind, or the one before.
    fn hold(&mut self, bytes: &[u8], behind: bool) -> &mut [u8] {
        self.writable(true);
        let skip = if behind { ROOM - bytes.len() } else { 0 };
        // SAFETY: within the mapping, which is borrowed as long as the slice.
        let held = unsafe { from_raw_parts_mut(self.start.add(skip), bytes.len()) };
        held.copy_from_slice(bytes);
        held
    }

    /// The same, to be read alone: a write ends the test.
    fn lock(&mut self, bytes: &[u8], behind: bool) -> &[u8] {
        let held: *const [u8] = self.hold(bytes, behind);
        self.writable(false);
        // SAFETY: as above.
        unsafe { &*held }
    }
}

/// Bytes of no order, or behind a front that fits, or a card.
fn any_bytes(r: &mut Random) -> Vec<u8> {
    let n = r.pick(&[0, 1, 10, 11, 12, 40, 200, 2_891, 4_000]);
    let n = n + r.below(3);
    let mut bytes = r.bytes(n);
    match r.below(4) {
        0 => bytes,
        1 => any_card(r),
        _ if n < 16 => bytes,
        _ => {
            let nodes = (n - 11) / 5;
            bytes.truncate(11 + 5 * nodes);
            let size = bytes.len();
            bytes[..7].copy_from_slice(&[
                (size / 256) as u8,
                size as u8,
                1,
                0,
                0,
                (nodes / 256) as u8,
                nodes as u8,
            ]);
            bytes[9] %= 17;
            bytes[11] = r.below(12) as u8;
            bytes
        }
    }
}

#[test]
fn nothing_outside_is_touched() {
    let mut r = Random::new(5);
    let mut met = Met::default();
    let (mut cards, mut sheets) = (Guarded::new(), Guarded::new());
    for _ in 0..20_000 {
        let (bytes, n) = (any_bytes(&mut r), r.below(40));
        let old = r.bytes(n);
        let Some(wanted) = model::plan(&bytes, old.len(), BUDGET) else {
            met.skipped += 1;
            continue;
        };
        let card = cards.lock(&bytes, r.once_in(2));
        let sheet = sheets.hold(&old, r.once_in(2));
        let answer = kit_planner::plan(card, sheet);
        met.count(&answer);
        assert_eq!(answer.err(), wanted.as_ref().err().copied(), "card {card:02x?}");
        let size = answer.map_or(0, |k| 5 + k + usize::from(card[4]));
        assert_eq!(sheet[..size], wanted.unwrap_or_default()[..]);
        assert_eq!(sheet[size..], old[size..]);
        let mut marked = sheet[..size].to_vec();
        if size > 0 {
            damage_mark(&mut r, &mut marked);
        }
        for part in [sheet.to_vec(), sheet[..size].to_vec(), marked] {
            let sheet = sheets.lock(&part, r.once_in(2));
            assert_eq!(kit_planner::read(card, sheet), model::read(card, sheet), "card {card:02x?}");
        }
    }
    println!("guarded: {met:?}");
    met.enough(420);
}

/// Any bytes, or more often a sound card.
fn bench_bytes(r: &mut Random) -> Vec<u8> {
    if r.once_in(3) {
        any_bytes(r)
    } else {
        Draft::sound(r, 5, 7).bytes()
    }
}

#[test]
fn joins_touch_nothing_outside() {
    let mut r = Random::new(8);
    let (mut joins, mut lines) = (0, 0);
    let (mut firsts, mut seconds, mut buffers) = (Guarded::new(), Guarded::new(), Guarded::new());
    for _ in 0..6_000 {
        let (first, second) = (bench_bytes(&mut r), bench_bytes(&mut r));
        let size = bench::join(&first, &second, ROOM).map_or(r.below(40), |card| card.len());
        let size = (size + r.pick(&[0, 0, 1, 7])).saturating_sub(r.below(3));
        let old = r.bytes(size);
        let first = firsts.lock(&first, r.once_in(2));
        let second = seconds.lock(&second, r.once_in(2));
        let buffer = buffers.hold(&old, r.once_in(2));
        let answer = kit_planner::join(first, second, buffer);
        let wanted = bench::join(first, second, size);
        assert_eq!(answer, wanted.as_ref().map(Vec::len).map_err(|&e| e), "{first:02x?}, {second:02x?}");
        let size = answer.unwrap_or(0);
        assert_eq!(buffer[..size], wanted.unwrap_or_default()[..]);
        assert_eq!(buffer[size..], old[size..]);
        joins += usize::from(answer.is_ok());
        for i in [0, r.below(20) as u16, r.next() as u16] {
            let answer = kit_planner::located(first, second, i);
            assert_eq!(answer, bench::source(first, second, i), "{first:02x?}, {second:02x?}, line {i}");
            lines += usize::from(answer.is_ok());
        }
    }
    println!("guarded: {joins} joins, {lines} lines");
    assert!(joins > 1_000 && lines > 1_500);
}
