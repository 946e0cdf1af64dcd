//! Depot kits and recursive cards: each reaches the search, and is planned or refused as by counting. A card that
//! takes counting or the planner too long is left out; to tell, the planner is first asked in a process of its own.
//! Runs without the test harness, and prints what was compared.
mod asked;
mod cards;
mod families;
mod met;
mod model;

use asked::{Asked, ROOM};
use cards::{Draft, Random};
use families::{kits, recursive};
use met::{compare_plan, Met, LONG};
use std::thread;
use std::time::Duration;

/// What counting may spend on a card.
const BUDGET: usize = 200_000;
/// How long the planner may take for one.
const LIMIT: Duration = Duration::from_millis(20);

/// Cards of one kind from a fixed seed.
struct Kind {
    name: &'static str,
    seed: u64,
    cards: usize,
    card: fn(&mut Random) -> Draft,
    /// The longest list has so many steps, or more.
    longest: usize,
}

const KINDS: &[Kind] = &[
    Kind { name: "kits, 20 to 64 lines", seed: 41, cards: 5_000, card: kits::any, longest: 100 },
    Kind { name: "kits, 4 to 20 lines", seed: 42, cards: 8_000, card: kits::small, longest: 40 },
    Kind { name: "recursive", seed: 43, cards: 10_000, card: recursive::any, longest: 55 },
    Kind { name: "kits with choices", seed: 44, cards: 8_000, card: kits::choosing, longest: 40 },
    Kind { name: "recursive with choices", seed: 45, cards: 10_000, card: recursive::choosing, longest: 55 },
];

/// Compares the cards of a kind, but for those that are left out.
fn compare(kind: &Kind) -> Met {
    let mut asked = Asked::start(0);
    // what is left out has no part in which cards are drawn
    let (mut drawn, mut buffers) = (Random::new(kind.seed), Random::new(kind.seed + 100));
    let mut met = Met::default();
    for _ in 0..kind.cards {
        let card = (kind.card)(&mut drawn).bytes();
        let wanted = model::plan_by_count(&card, ROOM, BUDGET);
        if wanted.is_some() && asked.ask(&card, LIMIT).is_none() {
            met.given_up += 1;
            continue;
        }
        compare_plan(&mut buffers, &mut met, &card, ROOM, wanted);
    }
    met
}

fn print_row(kind: &Kind, met: &Met) {
    let (name, cards, planned, refused) = (kind.name, kind.cards, met.planned(), met.refused());
    let Met { skipped, given_up, longest, long, .. } = met;
    println!("{name:<22}{cards:>8}{planned:>9}{refused:>9}{skipped:>8}{given_up:>7}{longest:>9}{long:>7}");
}

/// Of each kind many were planned and many refused, and fewer than one in eight left out.
fn check(kind: &Kind, met: &Met) {
    let name = kind.name;
    assert_eq!(met.searched() + met.left_out(), kind.cards, "{name}: some did not reach the search");
    assert!(met.planned() >= 3_000, "{name}: too few planned");
    assert!(met.refused() >= 700, "{name}: too few refused");
    assert!(met.longest >= kind.longest, "{name}: no list of {} steps", kind.longest);
    assert!(met.left_out() * 8 < kind.cards, "{name}: too many left out");
    if name.contains("choices") {
        met.chose(1_000);
    }
}

fn main() {
    asked::serve(|_, card, sheet| kit_planner::plan(card, sheet).is_err().into());
    println!(
        "Left out: by counting after {BUDGET} pairs, by the planner after {} ms. Long: {LONG} steps or more.",
        LIMIT.as_millis()
    );
    println!(
        "\n{:<22}{:>8}{:>9}{:>9}{:>8}{:>7}{:>9}{:>7}",
        "", "cards", "planned", "refused", "pairs", "time", "longest", "long"
    );
    // side by side, each kind with a planner of its own to ask
    let all: Vec<Met> = thread::scope(|scope| {
        let runs: Vec<_> = KINDS.iter().map(|kind| scope.spawn(|| compare(kind))).collect();
        runs.into_iter().map(|run| run.join().expect("the cards of a kind compared")).collect()
    });
    for (kind, met) in KINDS.iter().zip(&all) {
        print_row(kind, met);
        check(kind, met);
    }
    let sum = |of: fn(&Met) -> usize| all.iter().map(of).sum::<usize>();
    let (compared, left_out, long) = (sum(Met::searched), sum(Met::left_out), sum(|m| m.long));
    let one_way = sum(|m| m.marks[3]);
    println!(
        "\n{compared} compared, {left_out} left out, {long} lists long, {one_way} lines used one way only"
    );
    assert!(compared >= 20_000, "too few compared");
    assert!(left_out * 12 < compared + left_out, "one in twelve or more left out");
    assert!(long >= 1_000, "too few long lists");
    assert!(one_way >= 100, "too few lines used one way only");
}
