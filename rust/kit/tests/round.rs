//! Cards to text and back: the formula form keeps formulas, rules, lines and limits, the other forms keep every byte.
#[path = "../../tests/cards/mod.rs"]
mod cards;

use cards::{any_card, Draft, Random};
use desk::card::Sound;
use desk::names::Names;
use desk::text::{as_bytes, as_formulas, as_nodes, parse};
use std::io::Write;
use std::process::{Command, Stdio};

/// A sound card of any size.
fn card(seed: u64) -> Vec<u8> {
    let r = &mut Random::new(seed);
    if r.once_in(4) {
        let (rules, lines, nodes, height) = (r.below(65), r.below(65), 8 + r.below(505), 1 + r.below(8));
        return Draft::sized(r, rules, lines, nodes, height).bytes();
    }
    Draft::sound(r, 6, 9).bytes()
}

/// Words for some of the numbers.
fn words(seed: u64) -> Names {
    let r = &mut Random::new(seed);
    let mut names = Names::default();
    for number in [1, 500, 999].into_iter().chain((2..999).step_by(7)) {
        let word = format!("{}{number}", r.pick(&["part", "seal-", "o.ring_", "ü"]));
        if r.once_in(2) {
            names.add(&word, number).expect("each is another");
        }
    }
    names
}

fn sound(bytes: &[u8]) -> Sound<'_> {
    Sound::checked(bytes).expect("the check finds it sound")
}

fn parsed(text: &str, names: &Names) -> Vec<u8> {
    parse(text, names).unwrap_or_else(|mistake| panic!("{}", mistake.told("text", text))).bytes
}

/// Goal, rules, lines and limits, in words.
fn meaning(bytes: &[u8]) -> (String, Vec<String>, Vec<(String, u8)>, usize, usize) {
    let (card, names) = (sound(bytes), Names::default());
    let formula = |node: usize| card.formula(node, &names);
    let rules = (0..card.rules()).map(|i| formula(card.rule(i))).collect();
    let lines = (0..card.lines()).map(|i| card.line(i)).map(|line| (formula(line.node), line.must)).collect();
    (formula(card.goal()), rules, lines, card.nesting_limit(), card.step_limit())
}

#[test]
fn formulas_keep_their_meaning() {
    let mut smaller = 0;
    for seed in 0..20_000 {
        let (bytes, names) = (card(seed), words(seed));
        let text = as_formulas(sound(&bytes), &names);
        let again = parsed(&text, &Names::default());
        assert_eq!(meaning(&again), meaning(&bytes), "card {seed}");
        assert_eq!(as_formulas(sound(&again), &names), text, "card {seed}");
        assert!(again.len() <= bytes.len(), "card {seed}");
        smaller += usize::from(again.len() < bytes.len());
    }
    assert!(smaller > 1_000, "only {smaller} cards had nodes to share or to leave out");
}

#[test]
fn nodes_keep_every_byte() {
    for seed in 0..20_000 {
        let (bytes, names) = (card(seed), words(seed));
        let text = as_nodes(sound(&bytes), &names);
        assert_eq!(parsed(&text, &Names::default()), bytes, "card {seed}");
        assert_eq!(as_nodes(sound(&parsed(&text, &names)), &names), text, "card {seed}");
    }
}

#[test]
fn any_bytes_can_be_written() {
    let r = &mut Random::new(5);
    for seed in 0..20_000 {
        let bytes = any_card(r);
        let text = as_bytes(&bytes, &words(seed));
        assert_eq!(parsed(&text, &Names::default()), bytes, "card {seed}");
    }
    assert_eq!(parsed(&as_bytes(&[], &Names::default()), &Names::default()), []);
}

/// Nodes that nobody would write: each twice as long as the one before, and 13,104 of them.
#[test]
fn a_broken_card_with_endless_formulas_can_be_written() {
    let mut bytes = vec![255, 255, 1, 0, 0, 255, 255, 0, 0, 0, 0, 1, 0, 1, 0, 0];
    for i in 0..13_104_u16 {
        let [high, low] = i.to_be_bytes();
        bytes.extend([4, high, low, high, low]);
    }
    bytes.truncate(65_535);
    let text = as_bytes(&bytes, &Names::default());
    assert!(text.len() < 4 << 20, "{} bytes", text.len());
    assert_eq!(parsed(&text, &Names::default()), bytes);
}

#[test]
fn a_formula_takes_the_first_of_equal_nodes() {
    let bytes = parsed("limits nesting 0 steps 0\nnode 0 name 1\nnode 1 name 1\ngoal 1\n", &Names::default());
    assert_eq!(bytes[7..9], [0, 0]);
}

/// What the program prints for this input.
fn kit(args: &[&str], input: &[u8]) -> Vec<u8> {
    let mut command = Command::new(env!("CARGO_BIN_EXE_kit"));
    let mut kit = command.args(args).stdin(Stdio::piped()).stdout(Stdio::piped()).spawn().unwrap();
    kit.stdin.take().unwrap().write_all(input).unwrap();
    let output = kit.wait_with_output().unwrap();
    assert!(output.status.success(), "{args:?}");
    output.stdout
}

#[test]
fn the_program_does_the_same() {
    for seed in 0..300 {
        let bytes = card(seed);
        for form in ["--nodes", "--bytes"] {
            assert_eq!(kit(&["card", "-"], &kit(&["text", form, "-"], &bytes)), bytes, "card {seed}, {form}");
        }
        let text = kit(&["text", "-"], &bytes);
        assert_eq!(text, as_formulas(sound(&bytes), &Names::default()).as_bytes(), "card {seed}");
        assert_eq!(kit(&["text", "-"], &kit(&["card", "-"], &text)), text, "card {seed}");
    }
}
