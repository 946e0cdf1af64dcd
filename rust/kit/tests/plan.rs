//! `kit plan` on many cards: what it tells is the proved planner's answer, and its words fit the sheet.
#[path = "../../tests/cards/mod.rs"]
mod cards;

use cards::{Draft, Random};
use kit_planner::{plan_sheet, Refusal, Sheet};
use std::path::{Path, PathBuf};
use std::process::{Command, Output};
use std::{env, fs, process};

/// A folder for scratch files, gone at the end.
struct Scratch(PathBuf);

impl Scratch {
    fn new() -> Scratch {
        let folder = env::temp_dir().join(format!("kit-plan-{}", process::id()));
        fs::create_dir_all(&folder).unwrap();
        Scratch(folder)
    }

    fn card(&self, i: usize) -> PathBuf {
        self.0.join(format!("{i:05}.card"))
    }
}

impl Drop for Scratch {
    fn drop(&mut self) {
        let _ = fs::remove_dir_all(&self.0);
    }
}

fn kit(words: &[&str], file: &Path) -> Output {
    Command::new(env!("CARGO_BIN_EXE_kit")).args(words).arg(file).output().unwrap()
}

fn text(output: Output) -> String {
    String::from_utf8(output.stdout).unwrap()
}

/// The numbers behind a key, in order.
fn numbers(line: &str, key: &str) -> Vec<u8> {
    let key = format!("\"{key}\":");
    line.match_indices(&key)
        .map(|(at, _)| line[at + key.len()..].split([',', '}']).next().unwrap().parse().unwrap())
        .collect()
}

/// Random cards, small enough that every one of them is planned at once.
fn some_cards() -> Vec<(Vec<u8>, Result<Sheet, Refusal>)> {
    let r = &mut Random::new(3);
    (0..1_500).map(|_| Draft::sound(r, 3, 5).bytes()).map(|card| (card.clone(), plan_sheet(&card))).collect()
}

#[test]
fn many_are_planned_as_one_by_one() {
    let (scratch, all) = (Scratch::new(), some_cards());
    for (i, (card, _)) in all.iter().enumerate() {
        fs::write(scratch.card(i), card).unwrap();
    }
    let told = text(kit(&["plan", "--json", "-j", "3"], &scratch.0));
    let lines: Vec<&str> = told.lines().collect();
    assert_eq!(lines.len(), all.len() + 1);
    let (mut planned, mut chosen) = (0, 0);
    for ((_, answer), line) in all.iter().zip(lines) {
        match answer {
            Ok(sheet) => {
                let marks: Vec<u8> = sheet.marks().map(|mark| mark as u8).collect();
                let (steps, sides) =
                    (sheet.steps(), sheet.steps().iter().copied().filter(|&step| step > 253));
                let entries: Vec<u8> = steps.iter().copied().filter(|&step| step < 254).collect();
                assert_eq!((numbers(line, "entry"), numbers(line, "mark")), (entries, marks), "{line}");
                assert_eq!(numbers(line, "byte"), sides.collect::<Vec<_>>(), "{line}");
                planned += 1;
                chosen += numbers(line, "byte").len();
            }
            Err(refusal) => assert_eq!(numbers(line, "number"), [refusal.number], "{line}"),
        }
    }
    assert!(planned > 300 && chosen > 40, "{planned} planned, {chosen} choices");
    trees(&scratch, &all);
}

/// What a tree tells of a step: the entry used or the side taken.
fn word(card: &[u8], step: u8) -> String {
    let (rules, lines) = (card[3], card[4]);
    match step {
        254 => ", left".to_string(),
        255 => ", right".to_string(),
        e if e < rules => format!(" by rule {e}"),
        e if e < rules + lines => format!(" by line {}", e - rules),
        e => format!(" by lent {}", e - rules - lines),
    }
}

/// A tree has each step of the sheet once, in order, with the kind of its entry or the side taken.
fn trees(scratch: &Scratch, all: &[(Vec<u8>, Result<Sheet, Refusal>)]) {
    let planned =
        all.iter().enumerate().filter_map(|(i, (card, answer))| Some((i, card, answer.as_ref().ok()?)));
    for (i, card, sheet) in planned.take(250) {
        let told = text(kit(&["tree"], &scratch.card(i)));
        assert_eq!(told.matches(" [step ").count(), sheet.steps().len(), "{told}");
        let mut behind = told.as_str();
        for (step, &byte) in sheet.steps().iter().enumerate() {
            let wanted = format!("{} [step {step}]", word(card, byte));
            let at = behind.find(&wanted).unwrap_or_else(|| panic!("{wanted}: {told}"));
            behind = &behind[at + wanted.len()..];
        }
    }
}
