//! Whether the planner answers as an earlier commit's does, on cards from fixed seeds: tests/bench-against.sh
//! builds that one in and runs this. A card that the earlier planner does not answer in time is left out.
mod archives;
#[path = "../tests/cards/mod.rs"]
mod cards;
#[path = "../tests/families/mod.rs"]
mod families;

use archives::{all_choose, only_one_way, Asked, ARCHIVES};
use cards::{any_card_of, Draft, Random, ALL, SEVEN};
use families::{choices, deep, dones, kits, recursive, FAMILIES};
use std::time::Duration;

const BEFORE_LIMIT: Duration = Duration::from_millis(100);
const NOW_LIMIT: Duration = Duration::from_secs(5);

/// How many cards of a kind were compared, and how.
#[derive(Default)]
struct Counts {
    cards: usize,
    planned: usize,
    one_way: usize,
    refused: usize,
    left_out: usize,
    unanswered: usize,
    differ: usize,
}

fn compare(before: &mut Asked, now: &mut Asked, card: &[u8], counts: &mut Counts) {
    counts.cards += 1;
    let Some(wanted) = before.ask(card, BEFORE_LIMIT) else {
        counts.left_out += 1;
        return;
    };
    match now.ask(card, NOW_LIMIT) {
        None => {
            counts.unanswered += 1;
            println!("no answer now in {} s: {card:02x?}", NOW_LIMIT.as_secs());
        }
        Some(a) if a.number == wanted.number && a.sheet == wanted.sheet => match a.number >> 24 {
            0 => counts.planned += 1,
            _ => counts.refused += 1,
        },
        Some(a) if a.number == wanted.number && only_one_way(&wanted.sheet, &a.sheet) => {
            counts.planned += 1;
            counts.one_way += 1;
        }
        Some(a) => {
            counts.differ += 1;
            println!("{:08x} before, {:08x} now, or another sheet: {card:02x?}", wanted.number, a.number);
        }
    }
}

fn random(n: usize, seed: u64, card: fn(&mut Random) -> Vec<u8>) -> Vec<Vec<u8>> {
    let mut r = Random::new(seed);
    (0..n).map(|_| card(&mut r)).collect()
}

fn all_families() -> Vec<Vec<u8>> {
    let sizes =
        FAMILIES.iter().chain(dones::DONES).flat_map(|f| f.sizes.iter().map(|&n| (f.card)(n).bytes()));
    sizes.chain(deep::cards().iter().map(|c| c.1.bytes())).collect()
}

type Kind = (&'static str, Vec<Vec<u8>>);

/// Whether a node of the card, which damage may have made, is of the kinds of a choice.
fn chooses(card: &[u8]) -> bool {
    card.iter().skip(11).step_by(5).any(|kind| (8..=10).contains(kind))
}

/// Cards of the first seven kinds of node.
fn without_choices() -> Vec<Kind> {
    vec![
        (
            "random, any",
            random(20_000, 21, |r| any_card_of(SEVEN, r)).into_iter().filter(|c| !chooses(c)).collect(),
        ),
        ("random, sound", random(20_000, 22, |r| Draft::sound_of(SEVEN, r, 5, 7).bytes())),
        ("depot kits", random(2_000, 23, |r| kits::any(r).bytes())),
        ("recursive", random(4_000, 24, |r| recursive::any(r).bytes())),
        ("families and deep", all_families()),
    ]
}

/// Cards of all kinds, where both planners know them.
fn with_choices() -> Vec<Kind> {
    let sizes = choices::CHOOSING.iter().flat_map(|f| f.sizes.iter().map(|&n| (f.card)(n).bytes()));
    let families = sizes.chain(deep::choosing().iter().map(|c| c.1.bytes())).collect();
    vec![
        ("choices, any", random(20_000, 25, |r| any_card_of(ALL, r))),
        ("choices, kits", random(2_000, 26, |r| kits::choosing(r).bytes())),
        ("choices, recursive", random(4_000, 27, |r| recursive::choosing(r).bytes())),
        ("choices, families", families),
    ]
}

fn main() {
    archives::serve();
    if ARCHIVES.len() < 2 {
        println!("No earlier planner is built in: use tests/bench-against.sh.");
        return;
    }
    let (mut before, mut now) = (Asked::start(0), Asked::start(1));
    println!(
        "Answers and sheets, before and now; left out: none before in {} ms.\n",
        BEFORE_LIMIT.as_millis()
    );
    println!(
        "{:<19}{:>7}{:>9}{:>13}{:>9}{:>10}{:>8}{:>15}",
        "cards", "", "planned", "with 3 for 1", "refused", "left out", "differ", "none now"
    );
    let mut kinds = without_choices();
    if all_choose() {
        kinds.extend(with_choices());
    }
    let mut wrong = 0;
    for (kind, cards) in kinds {
        let mut c = Counts::default();
        cards.iter().for_each(|card| compare(&mut before, &mut now, card, &mut c));
        let Counts { cards, planned, one_way, refused, left_out, unanswered, differ } = c;
        println!(
            "{kind:<19}{cards:>7}{planned:>9}{one_way:>13}{refused:>9}{left_out:>10}{differ:>8}{unanswered:>15}"
        );
        wrong += differ + unanswered;
    }
    assert_eq!(wrong, 0, "the planners do not answer alike");
}
