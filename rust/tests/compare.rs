//! The calls against the model on random cards and sheets, and on buffers of every size around the least.
mod cards;
mod met;
mod model;

use cards::{any_card, any_step, Draft, Random};
use kit_planner::Place;
use met::{compare_plan, Met};
use model::decode;

const BUDGET: usize = 20_000;

/// 5 + s + T, as far as the bytes go.
fn room(card: &[u8]) -> usize {
    let at = |i| usize::from(card.get(i).copied().unwrap_or(0));
    5 + at(10) + at(4)
}

/// The card and the sheet that the format's description shows.
#[test]
fn shown_card() {
    let card = [
        0x00, 0x28, 0x01, 0x00, 0x03, 0x00, 0x04, 0x00, 0x01, 0x04, 0x08, 0x01, 0x00, 0x0a, 0x00, 0x00, 0x01,
        0x00, 0x14, 0x00, 0x00, 0x07, 0x00, 0x00, 0x00, 0x01, 0x01, 0x00, 0x1e, 0x00, 0x00, 0x00, 0x00, 0x01,
        0x00, 0x02, 0x01, 0x00, 0x03, 0x00,
    ];
    let mut buffer = [0xee; 20];
    assert_eq!(kit_planner::plan(&card, &mut buffer), Ok(2));
    assert_eq!(buffer[..10], [0x00, 0x0a, 0x01, 0x02, 0x03, 0x01, 0x00, 0x01, 0x01, 0x00]);
    assert_eq!(buffer[10..], [0xee; 10]);
    assert_eq!(kit_planner::read(&card, &buffer[..10]), Ok(2));
}

#[test]
fn plans_agree() {
    let mut r = Random::new(1);
    let mut met = Met::default();
    for _ in 0..120_000 {
        let card = any_card(&mut r);
        let size = room(&card) + r.below(8) - 3;
        compare_plan(&mut r, &mut met, &card, size, model::plan(&card, size, BUDGET));
    }
    println!("plans: {met:?}");
    met.all(&[1, 2, 3, 4, 5, 6, 7, 8, 9, 10, 11]);
    met.enough(9_500);
    met.chose(400);
    met.marked(150);
}

#[test]
fn buffers_of_every_size_agree() {
    let mut r = Random::new(2);
    let mut met = Met::default();
    for _ in 0..500 {
        let card = Draft::sound(&mut r, 3, 4).bytes();
        for size in 0..=room(&card) + 3 {
            compare_plan(&mut r, &mut met, &card, size, model::plan(&card, size, BUDGET));
        }
    }
    println!("buffers: {met:?}");
    met.all(&[10, 11]);
    met.enough(620);
    met.chose(30);
}

/// The model's two ways to all lists of a card find the same, each of which its walk follows.
#[test]
fn models_agree() {
    let mut r = Random::new(3);
    let (mut met, mut found) = (Met::default(), 0);
    for _ in 0..6_000 {
        let mut draft = Draft::sound(&mut r, 3, 4);
        draft.s = draft.s.min(6);
        let card = decode::card(&draft.bytes()).expect("a sound card");
        let lists = model::lists(&card, BUDGET);
        let lists = lists.and_then(|a| model::divide::lists(&draft.bytes(), 20 * BUDGET).map(|b| (a, b)));
        met.count_lists(lists.as_ref().map(|l| &l.0));
        let Some((a, b)) = lists else {
            continue;
        };
        assert_eq!(a, b, "card {:02x?}", draft.bytes());
        assert!(a.iter().all(|l| model::listed(&card, l)));
        found += a.len();
    }
    println!("models: {met:?}, {found} lists");
    met.all(&[11]);
    met.enough(1_700);
    met.chose(1_000);
    assert!(found > 5_000);
}

/// The model's counting finds the first of all lists.
#[test]
fn counting_agrees() {
    let mut r = Random::new(7);
    let mut met = Met::default();
    for _ in 0..30_000 {
        let bytes = Draft::sound(&mut r, 5, 7).bytes();
        let card = decode::card(&bytes).expect("a sound card");
        let lists = model::lists(&card, BUDGET);
        met.count_lists(lists.as_ref());
        if let Some(lists) = lists {
            let first = model::count::first(&card, 20 * BUDGET).expect("enough for a small card");
            assert_eq!(first.as_ref(), lists.first(), "card {bytes:02x?}");
        }
    }
    println!("counting: {met:?}");
    met.all(&[11]);
    met.enough(9_000);
    met.chose(10_000);
}

mod reading {
    use super::*;
    use cards::{damage, damage_mark};

    fn compare_read(met: &mut Met, card: &[u8], sheet: &[u8]) {
        let answer = kit_planner::read(card, sheet);
        assert_eq!(answer, model::read(card, sheet), "card {card:02x?}, sheet {sheet:02x?}");
        met.count(&answer);
        if let Ok(k) = answer {
            met.mark(&sheet[5 + k..]);
        }
    }

    /// One fault, or none, anywhere in a sheet.
    fn damage_sheet(r: &mut Random, sheet: &mut Vec<u8>) {
        let n = sheet.len();
        match r.below(7) {
            0 => sheet.truncate(r.below(n + 1)),
            1 => sheet.push(r.below(3) as u8),
            2 if n >= 5 => sheet[r.below(5)] = r.below(12) as u8,
            3 if n > 5 => sheet[5 + r.below(n - 5)] = any_step(r, 10),
            4 if n > 5 => damage_mark(r, sheet),
            5 if n > 6 => sheet.swap(5 + r.below(n - 5), 5 + r.below(n - 5)),
            _ if n >= 5 => {
                let k = r.below(10);
                sheet.splice(3..4, [k as u8]);
                sheet[1] = sheet[1].wrapping_add(1);
            }
            _ => sheet.extend(r.bytes(2)),
        }
        if r.once_in(2) && sheet.len() >= 2 {
            sheet[0] = 0;
            sheet[1] = sheet.len() as u8;
        }
    }

    /// Any list of the card with its marks, or any bytes where it has none or is skipped.
    fn any_sheet(r: &mut Random, met: &mut Met, bytes: &[u8]) -> Vec<u8> {
        let Ok(card) = decode::card(bytes) else {
            let n = r.below(20);
            return r.bytes(n);
        };
        let lists = model::lists(&card, BUDGET);
        met.count_lists(lists.as_ref());
        let lists = lists.unwrap_or_default();
        if lists.is_empty() {
            let steps: Vec<u8> = (0..r.below(card.s.min(8) + 1)).map(|_| any_step(r, 10)).collect();
            return model::sheet(&card, &steps);
        }
        model::sheet(&card, &lists[r.below(lists.len())])
    }

    #[test]
    fn reads_agree() {
        let mut r = Random::new(4);
        let (mut drawn, mut met) = (Met::default(), Met::default());
        for _ in 0..40_000 {
            let mut card = any_card(&mut r);
            let mut sheet = any_sheet(&mut r, &mut drawn, &card);
            compare_read(&mut met, &card, &sheet);
            for _ in 0..3 {
                damage_sheet(&mut r, &mut sheet);
                compare_read(&mut met, &card, &sheet);
            }
            damage(&mut r, &mut card);
            compare_read(&mut met, &card, &sheet);
        }
        println!("sheets drawn: {drawn:?}\nreads: {met:?}");
        drawn.enough(5_000);
        drawn.chose(2_000);
        met.all(&[1, 2, 3, 4, 5, 6, 7, 8, 9, 12, 13, 14, 17, 18, 19]);
        met.enough(6_400);
        met.marked(150);
    }

    /// One fault in the steps: one of them changed, some cut off, more behind them, two swapped, one twice, one
    /// left out.
    fn damage_steps(r: &mut Random, steps: &mut Vec<u8>) {
        let n = steps.len();
        match r.below(6) {
            0 if n > 0 => steps[r.below(n)] = any_step(r, 9),
            1 => steps.truncate(r.below(n + 1)),
            2 => steps.extend((0..1 + r.below(2)).map(|_| any_step(r, 9))),
            3 if n > 1 => steps.swap(r.below(n), r.below(n)),
            4 if n > 0 => steps.insert(r.below(n), steps[r.below(n)]),
            _ if n > 0 => drop(steps.remove(r.below(n))),
            _ => steps.push(any_step(r, 9)),
        }
    }

    /// Sheets of a sound card whose length, k and marks are those of their steps, but for one mark now and then.
    #[test]
    fn damaged_steps_agree() {
        let mut r = Random::new(8);
        let (mut drawn, mut met) = (Met::default(), Met::default());
        for _ in 0..40_000 {
            let bytes = Draft::sound(&mut r, 3, 4).bytes();
            let card = decode::card(&bytes).expect("a sound card");
            let sheet = any_sheet(&mut r, &mut drawn, &bytes);
            let mut steps = sheet[5..5 + usize::from(sheet[3])].to_vec();
            for _ in 0..4 {
                let mut sheet = model::sheet(&card, &steps);
                if r.once_in(6) {
                    damage_mark(&mut r, &mut sheet);
                }
                compare_read(&mut met, &bytes, &sheet);
                damage_steps(&mut r, &mut steps);
            }
        }
        println!("sheets drawn: {drawn:?}\ndamaged steps: {met:?}");
        drawn.enough(10_000);
        drawn.chose(4_000);
        met.each(&[12, 13, 14, 17, 18, 19], 1_800);
        met.enough(12_000);
        met.marked(300);
    }

    /// The walk wants 256 steps, so the last is missing from a sheet of the most steps that there can be. A missing
    /// step is told as missing even where it would be nested above d.
    #[test]
    fn the_step_behind_255_is_missing() {
        let mut c = Draft::limits(2, 255);
        let (a, b) = (c.name(0), c.name(1));
        c.rule(&[b], a);
        c.rule(&[], b);
        c.goal = c.both(&[a; 128]);
        let whole = [0, 1].repeat(128);
        let of = |card: &Draft, k: usize| {
            let bytes = card.bytes();
            let sheet = model::sheet(&decode::card(&bytes).expect("a sound card"), &whole[..k]);
            let answer = kit_planner::read(&bytes, &sheet);
            assert_eq!(answer, model::read(&bytes, &sheet));
            answer.map_err(|refusal| (refusal.number, refusal.place))
        };
        assert_eq!(of(&c, 255), Err((18, Place::Step(255))));
        assert_eq!(of(&c, 254), Err((18, Place::Step(254))));
        assert_eq!(of(&c, 0), Err((18, Place::Step(0))));
        c.d = 1;
        assert_eq!(of(&c, 255), Err((17, Place::Step(1))));
        assert_eq!(of(&c, 1), Err((18, Place::Step(1))));
        c.d = 0;
        assert_eq!(of(&c, 1), Err((17, Place::Step(0))));
        assert_eq!(of(&c, 0), Err((18, Place::Step(0))));
    }

    /// A goal done with no lines and s = 5, whose bytes 9 to 13 are its sheet.
    #[test]
    fn card_holds_its_sheet() {
        let mut c = Draft::limits(0, 5);
        c.name(0);
        c.goal = c.add(3, 0, 0);
        let card = c.bytes();
        assert_eq!(card[9..14], [0, 5, 1, 0, 0]);
        assert_eq!(kit_planner::read(&card, &card[9..14]), Ok(0));
    }

    /// The second laid over the end of the first, as far as the two agree there, and where it begins.
    fn laid(first: &[u8], second: &[u8]) -> (Vec<u8>, usize) {
        let from = (0..first.len()).find(|&i| second.starts_with(&first[i..])).unwrap_or(first.len());
        ([&first[..from], second].concat(), from)
    }

    /// Card and sheet in the same memory: the very same bytes, or the end of one the beginning of the other.
    #[test]
    fn overlapping_reads_agree() {
        let mut r = Random::new(6);
        let (mut drawn, mut met) = (Met::default(), Met::default());
        for _ in 0..4_000 {
            let card = Draft::sound(&mut r, 3, 4).bytes();
            let sheet = any_sheet(&mut r, &mut drawn, &card);
            compare_read(&mut met, &card, &card);
            let (bytes, from) = laid(&card, &sheet);
            if from < card.len() {
                compare_read(&mut met, &bytes[..card.len()], &bytes[from..]);
            }
            let (bytes, from) = laid(&sheet, &card);
            if from < sheet.len() {
                compare_read(&mut met, &bytes[from..], &bytes[..sheet.len()]);
            }
        }
        println!("sheets drawn: {drawn:?}\noverlapping reads: {met:?}");
        drawn.enough(1_130);
        met.all(&[12, 13, 18, 19]);
        met.enough(1_200);
    }
}
