//! The deepest calls on a stack of 1 MB. `cargo test --release --test deep -- --nocapture` prints what each takes.
mod cards;
mod families;
mod model;
mod stack;

use cards::{Draft, Random};
use families::deep;
use kit_planner::ROOM_TO_JOIN;
use model::{bench, count, decode};

const STACK: usize = 1 << 20;
const BUDGET: usize = 10_000_000;

fn all() -> impl Iterator<Item = (&'static str, Draft)> {
    deep::cards().into_iter().chain(deep::choosing())
}

/// Each card is planned as the independent implementation does, and its sheet accepted.
fn planned_and_read() {
    let (mut most_planned, mut most_read) = (0, 0);
    println!("{:<28}{:>6}{:>14}{:>12}", "bytes of stack", "steps", "planner", "reader");
    for (what, draft) in all() {
        let card = draft.bytes();
        let sound = decode::card(&card).expect("a sound card");
        let list = count::first(&sound, BUDGET).expect("enough budget").expect("a list");
        let wanted = model::sheet(&sound, &list);

        let (mut sheet, mut answer) = (vec![0; 324], Ok(0));
        let planner = stack::used(STACK, &mut || answer = kit_planner::plan(&card, &mut sheet));
        assert_eq!(answer, Ok(list.len()), "{what}");
        assert_eq!(sheet[..wanted.len()], wanted, "{what}");
        let reader = stack::used(STACK, &mut || answer = kit_planner::read(&card, &wanted));
        assert_eq!(answer, Ok(list.len()), "{what}");

        println!("{what:<28}{:>6}{planner:>14}{reader:>12}", list.len());
        (most_planned, most_read) = (most_planned.max(planner), most_read.max(reader));
    }
    println!("{:<28}{:>6}{most_planned:>14}{most_read:>12}", "most", "");
}

/// The deepest cards each with itself, and two that join to the longest there is.
fn joined() {
    let mut pairs: Vec<_> = all().map(|(what, c)| (what, c.bytes(), c.bytes())).collect();
    let mut r = Random::new(9);
    let mut half = |nodes| Draft::sized(&mut r, 32, 32, nodes, 7).bytes();
    pairs.push(("the longest", half(256), half(255)));
    let (mut most_joined, mut most_asked) = (0, 0);
    for (what, first, second) in pairs {
        let (mut buffer, mut answer) = (vec![0; ROOM_TO_JOIN], Ok(0));
        let join = stack::used(STACK, &mut || answer = kit_planner::join(&first, &second, &mut buffer));
        assert_eq!(answer, bench::join(&first, &second, ROOM_TO_JOIN).map(|card| card.len()), "{what}");
        let mut told = kit_planner::located(&first, &second, 0);
        let source = stack::used(STACK, &mut || told = kit_planner::located(&first, &second, 63));
        assert_eq!(told, bench::source(&first, &second, 63), "{what}");
        (most_joined, most_asked) = (most_joined.max(join), most_asked.max(source));
    }
    println!("joining takes at most {most_joined}, asking for a line's source {most_asked}");
}

#[test]
fn deepest_cards() {
    planned_and_read();
    joined();
}
