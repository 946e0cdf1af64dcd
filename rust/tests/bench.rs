//! Joining two cards and asking for a line's source, against the model on random pairs of cards; and that a joined
//! card is planned where its two cards are.
mod cards;
mod met;
mod model;

use cards::{damage, Draft, Random};
use kit_planner::{BenchRefusal, Which, ROOM_TO_JOIN};
use met::compare_plan;
use model::bench::{self, LIMITS};
use model::decode;

/// How often each refusal was met, by whose own it is: neither's, the first card's, the second's; and 0: none.
#[derive(Default, Debug)]
struct Met([[usize; 17]; 3]);

impl Met {
    fn count<T>(&mut self, answer: &Result<T, BenchRefusal>) {
        let (whose, number) = match answer {
            Ok(_) => (0, 0),
            Err(e) => (e.card.map_or(0, |card| card.of(1, 2)), e.refusal.number),
        };
        self.0[whose][usize::from(number)] += 1;
    }

    /// Each of these was met, and each of 1 to 9 of both cards.
    fn all(&self, numbers: &[usize]) {
        for &n in numbers {
            assert!(self.0[0][n] > 0, "{n} was never met: {self:?}");
        }
        for n in 1..=9 {
            assert!(self.0[1][n] > 0 && self.0[2][n] > 0, "{n} was never met of both cards: {self:?}");
        }
    }

    /// At least so many were not refused.
    fn enough(&self, least: usize) {
        assert!(self.0[0][0] >= least, "fewer than {least}: {self:?}");
    }
}

/// Joins into a buffer of random bytes: the answer and every byte are the model's.
fn compare_join(r: &mut Random, met: &mut Met, first: &[u8], second: &[u8], size: usize) {
    let old = r.bytes(size);
    let mut buffer = old.clone();
    let answer = kit_planner::join(first, second, &mut buffer);
    let wanted = bench::join(first, second, size);
    let mut after = old;
    if let Ok(card) = &wanted {
        after[..card.len()].copy_from_slice(card);
    }
    let pair = || format!("first {first:02x?}, second {second:02x?}, buffer of {size}");
    assert_eq!(answer, wanted.map(|card| card.len()), "{}", pair());
    assert_eq!(buffer, after, "{}", pair());
    met.count(&answer);
}

/// Asks for a line: the answer is the model's, and the part handed back is that of the right card, not a copy.
fn compare_source(met: &mut Met, first: &[u8], second: &[u8], i: u16) {
    let answer = kit_planner::located(first, second, i);
    let pair = || format!("first {first:02x?}, second {second:02x?}, line {i}");
    assert_eq!(answer, bench::source(first, second, i), "{}", pair());
    let part = kit_planner::source(first, second, i);
    assert_eq!(part.err(), answer.err(), "{}", pair());
    if let (Ok(part), Ok((card, at))) = (part, answer) {
        assert!(std::ptr::eq(part, &card.of(first, second)[at..at + 3]), "{}", pair());
    }
    met.count(&answer);
}

/// Joins into buffers around the joined card's length, and asks for every line and some beyond.
fn compare(r: &mut Random, joins: &mut Met, sources: &mut Met, first: &[u8], second: &[u8]) {
    let size = bench::join(first, second, ROOM_TO_JOIN).map_or(r.below(60), |card| card.len());
    let longer = size + 1 + r.below(20);
    for size in [size, size.saturating_sub(1), longer, 0] {
        compare_join(r, joins, first, second, size);
    }
    let lines = |card: &[u8]| card.get(4).map_or(0, |&t| u16::from(t));
    let t = lines(first) + lines(second);
    (0..t.min(129)).for_each(|i| compare_source(sources, first, second, i));
    for i in [t, t + 1, 64, 255, 256, 65_535] {
        compare_source(sources, first, second, i);
    }
}

/// A card with at least one fault tried, or none; now and then its goal is as high as can be.
fn card(r: &mut Random, damaged: bool) -> Vec<u8> {
    let draft = if r.once_in(40) { Draft::sized(r, 5, 7, 12, 8) } else { Draft::sound(r, 5, 7) };
    let mut bytes = draft.bytes();
    if damaged {
        (0..1 + r.below(3)).for_each(|_| damage(r, &mut bytes));
    }
    bytes
}

/// The cards that the format's description joins.
#[test]
fn shown_cards() {
    let first = [
        0x00, 0x18, 0x01, 0x00, 0x01, 0x00, 0x02, 0x00, 0x01, 0x01, 0x01, 0x01, 0x00, 0x01, 0x00, 0x00, 0x01,
        0x00, 0x02, 0x00, 0x00, 0x00, 0x01, 0x01,
    ];
    let second = [
        0x00, 0x2e, 0x01, 0x01, 0x01, 0x00, 0x06, 0x00, 0x02, 0x02, 0x03, 0x01, 0x00, 0x02, 0x00, 0x00, 0x01,
        0x00, 0x03, 0x00, 0x00, 0x06, 0x00, 0x00, 0x00, 0x01, 0x01, 0x00, 0x01, 0x00, 0x00, 0x07, 0x00, 0x00,
        0x00, 0x01, 0x07, 0x00, 0x03, 0x00, 0x04, 0x00, 0x05, 0x00, 0x03, 0x01,
    ];
    let joined = [
        0x00, 0x40, 0x01, 0x01, 0x02, 0x00, 0x09, 0x00, 0x08, 0x02, 0x04, 0x01, 0x00, 0x01, 0x00, 0x00, 0x01,
        0x00, 0x02, 0x00, 0x00, 0x01, 0x00, 0x02, 0x00, 0x00, 0x01, 0x00, 0x03, 0x00, 0x00, 0x06, 0x00, 0x02,
        0x00, 0x03, 0x01, 0x00, 0x01, 0x00, 0x00, 0x07, 0x00, 0x02, 0x00, 0x03, 0x07, 0x00, 0x05, 0x00, 0x06,
        0x04, 0x00, 0x01, 0x00, 0x04, 0x00, 0x07, 0x00, 0x01, 0x01, 0x00, 0x05, 0x01,
    ];
    let mut buffer = [0xee; 70];
    assert_eq!(kit_planner::join(&first, &second, &mut buffer), Ok(64));
    assert_eq!(buffer[..64], joined);
    assert_eq!(buffer[64..], [0xee; 6]);
    assert_eq!(kit_planner::located(&first, &second, 0), Ok((Which::First, 21)));
    assert_eq!(kit_planner::located(&first, &second, 1), Ok((Which::Second, 43)));
    assert_eq!(kit_planner::source(&first, &second, 1), Ok(&second[43..]));
    let mut sheet = [0xee; 16];
    assert_eq!(kit_planner::plan(&joined, &mut sheet), Ok(4));
    assert_eq!(sheet[..11], [0x00, 0x0b, 0x01, 0x04, 0x02, 0x01, 0x00, 0x03, 0x02, 0x01, 0x01]);
}

#[test]
fn pairs_agree() {
    let mut r = Random::new(61);
    let (mut joins, mut sources) = (Met::default(), Met::default());
    for round in 0..12_000 {
        // neither damaged, one of them, both
        let first = card(&mut r, round % 2 == 1);
        let second = card(&mut r, round % 4 > 1);
        compare(&mut r, &mut joins, &mut sources, &first, &second);
    }
    println!("joins: {joins:?}\nsources: {sources:?}");
    joins.all(&[0, 10, 15]);
    joins.enough(6_000);
    sources.all(&[0, 15, 16]);
    sources.enough(20_000);
}

/// The same card twice, in the very same bytes; and two that share a byte, the end of one and the beginning of the
/// other.
#[test]
fn overlapping_cards_agree() {
    let mut r = Random::new(62);
    let (mut joins, mut sources, mut shared) = (Met::default(), Met::default(), 0);
    for round in 0..4_000 {
        let first = card(&mut r, round % 4 == 1);
        compare(&mut r, &mut joins, &mut sources, &first, &first);
        let second = card(&mut r, round % 4 == 2);
        if !first.is_empty() && first.last() == second.first() {
            let (bytes, from) = ([&first[..], &second[1..]].concat(), first.len() - 1);
            compare(&mut r, &mut joins, &mut sources, &bytes[..=from], &bytes[from..]);
            compare(&mut r, &mut joins, &mut sources, &bytes[from..], &bytes[..=from]);
            shared += 1;
        }
    }
    println!("overlapping joins: {joins:?}\nsources: {sources:?}\n{shared} pairs share a byte");
    joins.all(&[0, 10]);
    joins.enough(9_000);
    sources.all(&[0, 16]);
    assert!(shared > 1_500);
}

/// Two numbers of this sum, each from the least to the most.
fn split(r: &mut Random, sum: usize, least: usize, most: usize) -> (usize, usize) {
    let low = least.max(sum.saturating_sub(most));
    let high = most.min(sum - least);
    let between = low + r.below(high - low + 1);
    let one = r.pick(&[low, high, between]);
    (one, sum - one)
}

/// Two sound cards, each limit of the joined card kept away from, just met, or passed by one.
fn near_limits(r: &mut Random) -> (Vec<u8>, Vec<u8>) {
    let mut sum = |limit: usize, few: usize| r.pick(&[few, few, limit, limit, limit + 1]);
    let (rules, lines, nodes, height) = (sum(64, 9), sum(64, 9), sum(511, 30), sum(7, 4));
    let (p, q) = split(r, rules, 0, 64);
    let (t, u) = split(r, lines, 0, 64);
    let (n, m) = split(r, nodes, 8, 504);
    let mut heights = [height, 1 + r.below(height)];
    r.shuffle(&mut heights);
    let first = Draft::sized(r, p, t, n, heights[0]);
    (first.bytes(), Draft::sized(r, q, u, m, heights[1]).bytes())
}

/// Each reason of 15 alone, and each limit just met.
#[test]
fn limits_agree() {
    let mut r = Random::new(63);
    let (mut joins, mut sources) = (Met::default(), Met::default());
    let (mut met, mut passed, mut longest) = ([0; 4], [0; 4], 0);
    for _ in 0..1_000 {
        let (first, second) = near_limits(&mut r);
        let cards = [&first, &second].map(|card| decode::card(card).expect("a sound card"));
        let sizes = bench::sizes((&first, &cards[0]), (&second, &cards[1]));
        let over: Vec<usize> = (0..4).filter(|&x| sizes[x] > LIMITS[x]).collect();
        match over[..] {
            [] => (0..4).filter(|&x| sizes[x] == LIMITS[x]).for_each(|x| met[x] += 1),
            [x] => passed[x] += 1,
            _ => {}
        }
        compare(&mut r, &mut joins, &mut sources, &first, &second);
        let joined = bench::join(&first, &second, ROOM_TO_JOIN);
        assert_eq!(joined.is_ok(), over.is_empty());
        longest = longest.max(joined.map_or(0, |card| card.len()));
    }
    println!("limits (P, T, N, height): met {met:?}, passed alone {passed:?}, longest {longest}");
    println!("joins: {joins:?}\nsources: {sources:?}");
    assert!(met.iter().chain(&passed).all(|&n| n >= 40));
    assert_eq!(longest, ROOM_TO_JOIN);
}

/// A card of 512 nodes or with a goal of height 8 joins no card, be it the smallest.
#[test]
fn full_cards_do_not_join() {
    let mut r = Random::new(64);
    let mut met = Met::default();
    let mut least = Draft::limits(0, 0);
    least.name(0);
    let least = least.bytes();
    for (nodes, height) in [(512, 1), (511, 8), (8, 8), (510, 7)] {
        let full = Draft::sized(&mut r, 64, 64, nodes, height).bytes();
        for (first, second) in [(&full, &least), (&least, &full), (&full, &full)] {
            compare_join(&mut r, &mut met, first, second, ROOM_TO_JOIN);
        }
    }
    println!("full cards: {met:?}");
    assert_eq!((met.0[0][0], met.0[0][15]), (2, 10));
}

/// Every line of a joined card has its source's bytes, but for the shift of the second's nodes.
#[test]
fn lines_are_their_sources() {
    let mut r = Random::new(65);
    let mut lines = [0; 2];
    for _ in 0..3_000 {
        let (first, second) = (card(&mut r, false), card(&mut r, false));
        let mut joined = [0; ROOM_TO_JOIN];
        let Ok(size) = kit_planner::join(&first, &second, &mut joined) else { continue };
        let t = usize::from(joined[4]);
        for (i, line) in joined[size - 3 * t..size].chunks(3).enumerate() {
            let part = kit_planner::source(&first, &second, i as u16).expect("a line of the joined card");
            let (which, _) = kit_planner::located(&first, &second, i as u16).expect("the same");
            let shift = which.of(0, decode::word(&first, 5));
            assert_eq!(decode::word(line, 0), decode::word(part, 0) + shift);
            assert_eq!(line[2], part[2]);
            lines[which.of(0, 1)] += 1;
        }
    }
    println!("lines of the first card and of the second: {lines:?}");
    assert!(lines.iter().all(|&n| n > 5_000));
}

mod planning {
    use super::*;
    use decode::{Card, Goal};
    use std::rc::Rc;

    const BUDGET: usize = 20_000;
    /// Room for any card's sheet.
    const ROOM: usize = 324;

    /// The two cards' formulas, nodes being shifted and trees not, and the goal both of the two.
    fn holds_both(joined: &Card, first: &Card, second: &Card) {
        assert_eq!(joined.rules, [&first.rules[..], &second.rules[..]].concat());
        assert_eq!(joined.lines, [&first.lines[..], &second.lines[..]].concat());
        assert_eq!(*joined.goal, Goal::Both(Rc::clone(&first.goal), Rc::clone(&second.goal)));
        assert_eq!((joined.d, joined.s), (first.d.max(second.d), (first.s + second.s).min(255)));
    }

    /// The joined card, which is the model's: a wrong one could take the planner long.
    fn joined(first: &[u8], second: &[u8]) -> Result<Vec<u8>, BenchRefusal> {
        let mut buffer = vec![0; ROOM_TO_JOIN];
        let size = kit_planner::join(first, second, &mut buffer)?;
        buffer.truncate(size);
        assert_eq!(bench::join(first, second, ROOM_TO_JOIN).as_ref(), Ok(&buffer));
        Ok(buffer)
    }

    /// Any list of the card, where it has one and the budget is enough to tell.
    fn any_list(r: &mut Random, card: &Card) -> Option<Vec<u8>> {
        let lists = model::lists(card, BUDGET)?;
        (!lists.is_empty()).then(|| lists[r.below(lists.len())].clone())
    }

    /// The list is one of the joined card, and the reader accepts its sheet.
    fn accepted(bytes: &[u8], joined: &Card, list: &[u8]) {
        assert!(model::listed(joined, list), "card {bytes:02x?}, list {list:?}");
        let sheet = model::sheet(joined, list);
        assert_eq!(kit_planner::read(bytes, &sheet), Ok(list.len()), "card {bytes:02x?}, list {list:?}");
    }

    /// The joined card is planned, with this list or an earlier one, and the reader accepts the sheet.
    fn planned(bytes: &[u8], joined: &Card, list: &[u8]) {
        let mut sheet = [0xee; ROOM];
        let k = kit_planner::plan(bytes, &mut sheet).expect("a card with a list");
        let size = 5 + k + joined.lines.len();
        assert_eq!(kit_planner::read(bytes, &sheet[..size]), Ok(k), "card {bytes:02x?}");
        assert!(sheet[5..5 + k] <= *list, "card {bytes:02x?}, list {list:?}");
    }

    fn together(first: &Card, a: &[u8], second: &Card, b: &[u8]) -> Vec<u8> {
        let a = bench::renumbered(a, Which::First, first, second);
        let b = bench::renumbered(b, Which::Second, first, second);
        [a, b].concat()
    }

    #[test]
    fn joined_cards_hold_both() {
        let mut r = Random::new(66);
        let mut held = 0;
        for _ in 0..3_000 {
            let cards = [card(&mut r, false), card(&mut r, false)];
            let near = near_limits(&mut r);
            for (first, second) in [(&cards[0], &cards[1]), (&near.0, &near.1)] {
                let Ok(bytes) = joined(first, second) else { continue };
                let decoded = |card: &[u8]| decode::card(card).expect("a sound card");
                holds_both(&decoded(&bytes), &decoded(first), &decoded(second));
                held += 1;
            }
        }
        println!("{held} joined cards hold both");
        assert!(held > 3_000);
    }

    /// A small sound card with a list, more often a longer one.
    fn with_list(r: &mut Random) -> (Vec<u8>, Card, Vec<u8>) {
        let least = r.below(5);
        loop {
            let mut draft = Draft::sound(r, 3, 4);
            draft.s = draft.s.min(6);
            let bytes = draft.bytes();
            let sound = decode::card(&bytes).expect("a sound card");
            match any_list(r, &sound) {
                Some(list) if list.len() >= least => return (bytes, sound, list),
                _ => {}
            }
        }
    }

    /// How many steps of a list use rules, lines and lent clauses, and how many are choices.
    fn count_steps(steps: &mut [usize; 4], card: &Card, list: &[u8]) {
        let (p, t) = (card.rules.len(), card.lines.len());
        for e in list.iter().map(|&e| usize::from(e)) {
            steps[[p, p + t, 254].iter().filter(|&&from| e >= from).count()] += 1;
        }
    }

    /// The two lists put together are one of the joined card, which is planned with the model's first list. A card
    /// that is more work than the model's budget allows is read alone.
    #[test]
    fn lists_are_joined() {
        let mut r = Random::new(67);
        let (mut met, mut steps, mut refused) = (met::Met::default(), [[0; 4]; 2], 0);
        for _ in 0..2_000 {
            let (first, a, list) = with_list(&mut r);
            let (second, b, other) = with_list(&mut r);
            let Ok(bytes) = joined(&first, &second) else {
                refused += 1;
                continue;
            };
            let both = decode::card(&bytes).expect("a sound card");
            let all = together(&a, &list, &b, &other);
            accepted(&bytes, &both, &all);
            let wanted = model::plan(&bytes, ROOM, BUDGET);
            if wanted.is_some() {
                planned(&bytes, &both, &all);
            }
            compare_plan(&mut r, &mut met, &bytes, ROOM, wanted);
            count_steps(&mut steps[0], &a, &list);
            count_steps(&mut steps[1], &b, &other);
        }
        println!("joined lists: {met:?}, {refused} pairs refused");
        println!("steps of the two by rules, lines and lent clauses, and choices: {steps:?}");
        assert!(met.planned() >= 1_400, "too few planned");
        assert!(steps.iter().flatten().all(|&n| n > 200));
    }

    /// 64 needs, the last so many of them b and the others a, by the rules "b gives a" and b: two steps for each a
    /// and one for each b.
    fn needs(last: usize) -> (Vec<u8>, Card, Vec<u8>) {
        let mut c = Draft::limits(2, 255);
        let (a, b) = (c.name(1), c.name(2));
        c.goal = c.both(&[vec![a; 64 - last], vec![b; last]].concat());
        c.rule(&[b], a);
        c.rules.push(b);
        let list = [[0, 1].repeat(64 - last), vec![1; last]].concat();
        let bytes = c.bytes();
        let sound = decode::card(&bytes).expect("a sound card");
        (bytes, sound, list)
    }

    /// Lists of 128 and 127 steps fit together, two of 128 do not.
    #[test]
    fn together_255_steps() {
        let ((long, a, list), (short, b, other)) = (needs(0), needs(1));
        assert_eq!((list.len(), other.len()), (128, 127));
        for (first, second) in [(&long, &short), (&short, &long)] {
            let bytes = joined(first, second).expect("within the limits");
            let both = decode::card(&bytes).expect("a sound card");
            let list = if first == &long {
                together(&a, &list, &b, &other)
            } else {
                together(&b, &other, &a, &list)
            };
            accepted(&bytes, &both, &list);
            planned(&bytes, &both, &list);
        }
        let bytes = joined(&long, &long).expect("within the limits");
        let refused = kit_planner::plan(&bytes, &mut [0; ROOM]).expect_err("256 steps");
        assert_eq!(refused.number, 11);
    }
}
