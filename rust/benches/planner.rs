//! Times of the planner beside those of other means: `cargo bench --offline --bench planner` prints three tables.
#[path = "../tests/cards/mod.rs"]
mod cards;
#[path = "../tests/families/mod.rs"]
mod families;
#[path = "../tests/model/mod.rs"]
mod model;

use cards::{any_card, Draft, Random};
use model::decode::{self, Card, Goal};
use std::hint::black_box;
use std::time::{Duration, Instant};

/// Room for any card's sheet.
const ROOM: usize = 324;
/// After so many nodes the divider stops.
const NODES: u64 = 50_000_000;
/// Cards of the second table, and the work after which the model gives one up.
const CARDS: usize = 10_000;
const BUDGET: usize = 20_000;

/// The median time in nanoseconds of so many runs.
fn median(runs: usize, mut run: impl FnMut()) -> f64 {
    let mut times: Vec<Duration> = Vec::new();
    for _ in 0..runs {
        let start = Instant::now();
        run();
        times.push(start.elapsed());
    }
    times.sort();
    times[runs / 2].as_nanos() as f64
}

/// The median time of one call, where a run is as many calls as take about 100 us.
fn call_time(runs: usize, mut call: impl FnMut()) -> f64 {
    let once = median(1, &mut call).max(1.0);
    let calls = (100_000.0 / once).ceil();
    median(runs, || (0..calls as usize).for_each(|_| call())) / calls
}

fn planner_time(card: &[u8], sheet: &mut [u8]) -> f64 {
    call_time(15, || {
        let _ = black_box(kit_planner::plan(black_box(card), sheet));
    })
}

fn time(ns: f64) -> String {
    if ns < 10_000.0 {
        format!("{ns:.0} ns")
    } else {
        format!("{:.0} us", ns / 1_000.0)
    }
}

mod divisions {
    use super::*;

    const ABOUT: &str = r#"1. The planner and a divider that tries all divisions of the items at every "both"
   n must lines of distinct names, shuffled; goal: the balanced "both" of all.
   The planner takes the card's bytes and writes the sheet. The divider takes the goal as a tree
   and only counts lists: "first" ends at the first list; "all" tries on, as it must to know the
   smallest; "least" is how many nodes "all" takes at the least, by calculation.
"#;

    /// Counts the lists of a goal of names and "both" by trying every division of the items at every "both".
    struct Divider<'a> {
        heads: &'a [u16],
        first: bool,
        nodes: u64,
    }

    impl Divider<'_> {
        fn lists(&mut self, g: &Goal, items: u32) -> Option<u64> {
            self.nodes += 1;
            if self.nodes > NODES {
                return None;
            }
            match g {
                Goal::Name(a) => {
                    let fits = items.is_power_of_two() && self.heads[items.trailing_zeros() as usize] == *a;
                    Some(u64::from(fits))
                }
                Goal::Both(a, b) => self.both(a, b, items),
                _ => unreachable!("these trays have names and both only"),
            }
        }

        fn both(&mut self, a: &Goal, b: &Goal, items: u32) -> Option<u64> {
            let (mut found, mut share) = (0, 0u32);
            loop {
                let left = self.lists(a, share)?;
                if left > 0 {
                    found += left * self.lists(b, items & !share)?;
                }
                if share == items || (self.first && found > 0) {
                    return Some(found);
                }
                share = share.wrapping_sub(items) & items;
            }
        }
    }

    fn divider_cell(card: &Card, heads: &[u16], first: bool) -> (String, String) {
        let (mut nodes, mut found) = (0, None);
        let ns = call_time(3, || {
            let mut divider = Divider { heads, first, nodes: 0 };
            found = black_box(divider.lists(black_box(&card.goal), (1 << heads.len()) - 1));
            nodes = divider.nodes.min(NODES);
        });
        assert!(found.is_none_or(|f| f == 1), "a tray of distinct names has one list");
        let end = if found.is_none() { " stopped" } else { "" };
        (format!("{nodes}"), time(ns) + end)
    }

    /// How often the leftmost name is tried if all divisions are: each item stops at one of the "both"s there.
    fn leftmost(mut g: &Goal, n: usize) -> f64 {
        let mut ends = 1;
        while let Goal::Both(a, _) = g {
            ends += 1;
            g = a;
        }
        f64::from(ends).powi(n as i32)
    }

    pub fn table(sheet: &mut [u8]) {
        println!("{ABOUT}   It stops at {NODES} nodes: then its time is not that of an answer.\n");
        let head = ["n", "planner", "first: nodes", "time", "all: nodes", "time", "least"];
        print_row(&head.map(String::from));
        for n in (4..=20).step_by(2) {
            let bytes = families::distinct(n).bytes();
            let card = decode::card(&bytes).expect("a sound card");
            assert_eq!(kit_planner::plan(&bytes, sheet), Ok(n));
            let heads: Vec<u16> = card.lines.iter().map(|l| l.0.uses[0].head.expect("a name")).collect();
            let planner = time(planner_time(&bytes, sheet));
            let (first_nodes, first) = divider_cell(&card, &heads, true);
            let (all_nodes, all) = divider_cell(&card, &heads, false);
            let least = format!("{:.1e}", leftmost(&card.goal, n));
            print_row(&[n.to_string(), planner, first_nodes, first, all_nodes, all, least]);
        }
    }

    fn print_row(c: &[String; 7]) {
        println!("{:>4}{:>11}{:>14}{:>18}{:>13}{:>18}{:>10}", c[0], c[1], c[2], c[3], c[4], c[5], c[6]);
    }
}

mod independent {
    use super::*;

    const ABOUT: &str = "
2. The planner and the independent implementation (tests/model) over the same random cards
   Cards of the tests' generator, seed 1. The independent implementation finds all lists of a
   card, takes memory for them as it goes, and takes the smallest. Each time is the total over all
   cards of the row. A card is skipped, for both, where the independent one passes its budget.
";

    /// The cards by what both answer: planned, refused 11, refused 1 to 9; and how many the model gives up.
    fn cards_by_answer(sheet: &mut [u8]) -> ([Vec<Vec<u8>>; 3], usize) {
        let mut r = Random::new(1);
        let (mut groups, mut skipped) = ([const { Vec::new() }; 3], 0);
        for _ in 0..CARDS {
            let card = any_card(&mut r);
            let Some(wanted) = model::plan(&card, ROOM, BUDGET) else {
                skipped += 1;
                continue;
            };
            let answer = kit_planner::plan(&card, sheet);
            assert_eq!(answer, wanted.map(|s| usize::from(s[3])), "card {card:02x?}");
            let group = answer.map_or_else(|refusal| if refusal.number == 11 { 1 } else { 2 }, |_| 0);
            groups[group].push(card);
        }
        (groups, skipped)
    }

    fn planner_total(cards: &[&Vec<u8>], sheet: &mut [u8]) -> String {
        time(median(7, || {
            for card in cards {
                let _ = black_box(kit_planner::plan(black_box(card), sheet));
            }
        }))
    }

    fn model_total(cards: &[&Vec<u8>]) -> String {
        time(median(7, || {
            for card in cards {
                let _ = black_box(model::plan(black_box(card), ROOM, BUDGET));
            }
        }))
    }

    pub fn table(sheet: &mut [u8]) {
        let (groups, skipped) = cards_by_answer(sheet);
        println!("{ABOUT}   {CARDS} cards, {skipped} skipped; its budget is {BUDGET}.\n");
        println!("   {:<14}{:>7}{:>14}{:>16}", "answer", "cards", "planner", "independent");
        let rows = [("planned", 0..1), ("refused 11", 1..2), ("refused 1 to 9", 2..3), ("all these", 0..3)];
        for (answer, range) in rows {
            let cards: Vec<&Vec<u8>> = groups[range].iter().flatten().collect();
            let (planner, model) = (planner_total(&cards, sheet), model_total(&cards));
            println!("   {answer:<14}{:>7}{planner:>14}{model:>16}", cards.len());
        }
        println!("   {:<14}{skipped:>7}{:>14}{:>16}", "skipped", "not timed", "not timed");
    }
}

mod reading {
    use super::*;

    const ABOUT: &str = r#"
3. The reader on the sheets that the planner writes
   Equal parts: n equal must lines, n wanted. Chain: a must line of name 0 and n must lines
   "i gives i + 1"; the goal is name n. Biggest card: the most rules, lines, nodes and steps there
   can be at n = 64. k is the number of steps on the sheet.
"#;

    fn print_row(tray: &str, n: usize, card: Draft, sheet: &mut [u8]) {
        let card = &card.bytes()[..];
        let k = kit_planner::plan(card, sheet).expect("the card is planned");
        let planner = planner_time(card, sheet);
        let written = sheet[..5 + k + usize::from(card[4])].to_vec();
        assert_eq!(kit_planner::read(card, &written), Ok(k));
        let reader = call_time(15, || {
            let _ = black_box(kit_planner::read(black_box(card), black_box(&written)));
        });
        println!("{tray:>14}{n:>5}{k:>5}{:>12}{:>12}", time(planner), time(reader));
    }

    pub fn table(sheet: &mut [u8]) {
        println!("{ABOUT}");
        println!("{:>14}{:>5}{:>5}{:>12}{:>12}", "", "n", "k", "planner", "reader");
        for n in [8, 16, 32, 64] {
            print_row("equal parts", n, families::equal(n, n), sheet);
        }
        for n in [3, 7, 15] {
            print_row("chain", n, families::chain(n), sheet);
        }
        for n in [16, 32, 64] {
            print_row("biggest card", n, families::biggest(n), sheet);
        }
    }
}

const ABOUT: &str = "\
Each time is the median of several runs: in tables 1 and 3 of 15 runs of the planner or the reader
and of 3 of the divider, where a run is as many calls as take about 100 us, at least one, and the time
is that of one call; in table 2 of 7 passes over all cards of a row. The planner's sheet buffer is
allocated and cleared once, before all timed calls. All is built for release.
";

fn main() {
    println!("{ABOUT}");
    let mut sheet = vec![0; ROOM];
    divisions::table(&mut sheet);
    independent::table(&mut sheet);
    reading::table(&mut sheet);
}
