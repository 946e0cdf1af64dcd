//! `kit check` on damaged cards of every refusal: number and place are the proved call's, and the offset lies in the field that is wrong.
#[path = "../../tests/cards/mod.rs"]
mod cards;

use cards::{Draft, Random};
use desk::card::Card;
use desk::kinds::Holds;
use std::collections::BTreeMap;
use std::ops::Range;
use std::process::Command;
use std::{env, fs, process};

/// A card with one field put wrong: what was done, the refusal that follows, and the bytes of that field.
struct Damaged {
    what: &'static str,
    number: u8,
    bytes: Vec<u8>,
    field: Range<usize>,
    sound: Vec<u8>,
}

/// A sound card and ways to damage it.
struct Damage<'a> {
    card: Card<'a>,
    heights: Vec<usize>,
    r: Random,
    done: Vec<Damaged>,
}

impl Damage<'_> {
    fn new(bytes: &[u8], seed: u64) -> Damage<'_> {
        let card = Card::new(bytes);
        Damage { card, heights: card.heights(), r: Random::new(seed), done: Vec::new() }
    }

    fn put(&mut self, what: &'static str, number: u8, at: usize, len: usize, value: usize) {
        let mut bytes = self.card.bytes.to_vec();
        let value = value.to_be_bytes();
        bytes[at..at + len].copy_from_slice(&value[value.len() - len..]);
        if bytes != self.card.bytes {
            self.done.push(Damaged {
                what,
                number,
                bytes,
                field: at..at + len,
                sound: self.card.bytes.to_vec(),
            });
        }
    }

    fn length(&mut self, what: &'static str, number: u8, bytes: Vec<u8>, at: usize) {
        self.done.push(Damaged { what, number, bytes, field: at..at + 1, sound: self.card.bytes.to_vec() });
    }

    fn front(&mut self) {
        let whole = self.card.bytes.to_vec();
        let cut = self.r.below(11);
        self.length("cut in the front", 1, whole[..cut].to_vec(), cut);
        let cut = 11 + self.r.below(whole.len() - 11);
        self.length("cut behind the front", 2, whole[..cut].to_vec(), cut);
        let more = 1 + self.r.below(40);
        let bytes = self.r.bytes(more);
        self.length("bytes behind", 2, [&whole[..], &bytes].concat(), whole.len());
        let other = self.r.below(65_536);
        self.put("length", 2, 0, 2, other);
        let other = 2 + self.r.below(254);
        self.put("version", 3, 2, 1, other);
        for (what, at) in [("P above 64", 3), ("T above 64", 4)] {
            let other = 65 + self.r.below(191);
            self.put(what, 4, at, 1, other);
        }
        self.put("N 0", 4, 5, 2, 0);
        let other = 513 + self.r.below(65_023);
        self.put("N above 512", 4, 5, 2, other);
        let other = 17 + self.r.below(239);
        self.put("d above 16", 4, 9, 1, other);
        for (what, at, len, most) in [("P", 3, 1, 64), ("T", 4, 1, 64), ("N", 5, 2, 512)] {
            let other = 1 + self.r.below(most);
            self.put(what, 5, at, len, other);
        }
    }

    /// A node below this one that the field may not name.
    fn misfit(&mut self, i: usize, holds: Holds) -> Option<usize> {
        let misfits: Vec<usize> = (0..i).filter(|&j| !holds.fits(self.card.kind(j).unwrap().reads)).collect();
        (!misfits.is_empty()).then(|| self.r.pick(&misfits))
    }

    fn node(&mut self, i: usize) {
        let at = self.card.node_at(i);
        let unknown = (11 + self.r.below(246)) % 256;
        self.put("kind", 6, at, 1, unknown);
        let kind = self.card.kind(i).unwrap();
        for (side, holds) in kind.fields.into_iter().enumerate() {
            let (at, any) = (at + 1 + 2 * side, self.r.below(65_536));
            match holds {
                Holds::Name => self.put("name", 6, at, 2, any.max(1000)),
                Holds::Nothing => self.put("unused field", 6, at, 2, any.max(1)),
                Holds::Goal | Holds::Clause => {
                    self.put("part not lower", 6, at, 2, any.max(i));
                    if let Some(part) = self.misfit(i, holds) {
                        self.put("reading of a part", 6, at, 2, part);
                    }
                    let tall =
                        |j: &usize| self.heights[*j] == 8 && holds.fits(self.card.kind(*j).unwrap().reads);
                    if let Some(part) = (0..i).find(tall) {
                        self.put("height", 6, at, 2, part);
                    }
                }
            }
        }
    }

    fn root(&mut self, number: u8, at: usize, holds: Holds, what: [&'static str; 2]) {
        let nodes = self.card.nodes();
        let beyond = nodes + self.r.below(65_536 - nodes);
        self.put(what[0], number, at, 2, beyond);
        if let Some(other) = self.misfit(nodes, holds) {
            self.put(what[1], number, at, 2, other);
        }
    }

    fn roots(&mut self) {
        let card = self.card;
        self.root(7, 7, Holds::Goal, ["goal not below N", "goal that is none"]);
        if card.rules() > 0 {
            let at = card.rule_at(self.r.below(card.rules()));
            self.root(8, at, Holds::Clause, ["rule not below N", "rule that is no clause"]);
        }
        if card.lines() > 0 {
            let at = card.line_at(self.r.below(card.lines()));
            self.root(9, at, Holds::Clause, ["line not below N", "line that is no clause"]);
            let other = 2 + self.r.below(254);
            self.put("must/may byte", 9, at + 2, 1, other);
        }
    }
}

fn damaged(seed: u64) -> Vec<Damaged> {
    let r = &mut Random::new(seed);
    let bytes = if seed.is_multiple_of(3) {
        let (rules, lines, nodes) = (r.below(20), r.below(20), 8 + r.below(60));
        Draft::sized(r, rules, lines, nodes, 8).bytes()
    } else {
        Draft::sound(r, 5, 7).bytes()
    };
    let mut damage = Damage::new(&bytes, seed);
    damage.front();
    for _ in 0..4 {
        let i = damage.r.below(damage.card.nodes());
        damage.node(i);
    }
    damage.roots();
    damage.done
}

/// The value of a number in a line of JSON.
fn number(line: &str, key: &str) -> Option<usize> {
    let from = line.find(&format!("\"{key}\":"))? + key.len() + 3;
    line[from..].split([',', '}']).next()?.parse().ok()
}

fn word<'a>(line: &'a str, key: &str) -> &'a str {
    let from = line.find(&format!("\"{key}\":\"")).unwrap() + key.len() + 4;
    line[from..].split('"').next().unwrap()
}

/// What `kit check --json` tells of each card, in order.
fn told(all: &[Damaged]) -> Vec<String> {
    let folder = env::temp_dir().join(format!("kit-check-{}", process::id()));
    fs::create_dir_all(&folder).unwrap();
    for (i, damaged) in all.iter().enumerate() {
        fs::write(folder.join(format!("{i:06}.card")), &damaged.bytes).unwrap();
    }
    let output =
        Command::new(env!("CARGO_BIN_EXE_kit")).args(["check", "--json"]).arg(&folder).output().unwrap();
    fs::remove_dir_all(&folder).unwrap();
    assert_eq!(output.status.code(), Some(1));
    let mut lines: Vec<String> =
        String::from_utf8(output.stdout).unwrap().lines().map(String::from).collect();
    assert!(lines.pop().unwrap().starts_with("{\"summary\":"));
    lines
}

/// The damaged card with the bytes told, and whatever is missing or too many behind them, as they were before.
fn mended(damaged: &Damaged, offset: usize, length: usize) -> Vec<u8> {
    let Damaged { bytes, sound, .. } = damaged;
    if bytes.len() != sound.len() {
        return [&bytes[..offset], &sound[offset..]].concat();
    }
    let end = offset + length;
    [&bytes[..offset], &sound[offset..end], &bytes[end..]].concat()
}

#[test]
fn every_refusal_is_found_in_its_field() {
    let all: Vec<Damaged> = (0..600).flat_map(damaged).collect();
    let lines = told(&all);
    assert_eq!(lines.len(), all.len());
    let mut met: BTreeMap<&str, usize> = BTreeMap::new();
    let mut several = 0;
    for (damaged, line) in all.iter().zip(&lines) {
        let refusal = kit_planner::check(&damaged.bytes).unwrap_err();
        let (place, index) = refusal.place.word();
        assert_eq!(refusal.number, damaged.number, "{}: {line}", damaged.what);
        assert_eq!(number(line, "number"), Some(usize::from(refusal.number)), "{}: {line}", damaged.what);
        assert_eq!((word(line, "place"), number(line, "index")), (place, index.map(usize::from)), "{line}");
        let (offset, length) = (number(line, "offset").unwrap(), number(line, "length").unwrap());
        if damaged.number == 5 && length > 2 {
            // several counts would do, or none alone: then all three are told
            assert_eq!(offset..offset + length, 3..7, "{}: {line}", damaged.what);
            several += 1;
        } else {
            assert!(damaged.field.contains(&offset), "{}, {:?}: {line}", damaged.what, damaged.field);
        }
        assert_eq!(kit_planner::check(&mended(damaged, offset, length)), Ok(()), "{}: {line}", damaged.what);
        *met.entry(damaged.what).or_default() += 1;
    }
    assert!(several * 20 < met["P"] + met["T"] + met["N"], "of {several} no one count was told");
    assert_eq!(met.len(), 26, "{met:?}");
    assert!(met.values().all(|&n| n > 50), "{met:?}");
}

#[test]
fn of_two_parts_as_high_the_left_is_told() {
    let mut draft = Draft::limits(0, 0);
    draft.name(1);
    for i in 0..8 {
        draft.add(4, i, i);
    }
    let bytes = draft.bytes();
    let refusal = kit_planner::check(&bytes).unwrap_err();
    let why = desk::why::card(&bytes, refusal, &desk::names::Names::default());
    let wrong = why.wrong.unwrap();
    assert_eq!((refusal.number, wrong.at, wrong.len), (6, Card::new(&bytes).node_at(8) + 1, 2));
    assert_eq!(why.words, "this both has height 9, at most 8: its left part, node 7, has height 8");
}

/// The offsets of the bytes that the carets of a long answer stand under.
fn carets(answer: &str) -> Vec<usize> {
    let lines: Vec<&str> = answer.lines().collect();
    let mut found = Vec::new();
    for (row, under) in lines.iter().zip(&lines[1..]).filter(|(_, under)| under.contains('^')) {
        let start: usize = row[..6].trim().parse().unwrap();
        let columns = under.match_indices("^^").map(|(column, _)| column - 8);
        found.extend(columns.map(|column| start + column / 3));
    }
    found
}

#[test]
fn carets_stand_under_the_wrong_bytes() {
    let file = env::temp_dir().join(format!("kit-carets-{}.card", process::id()));
    let kit = |flag: &[&str]| {
        let output =
            Command::new(env!("CARGO_BIN_EXE_kit")).arg("check").args(flag).arg(&file).output().unwrap();
        assert_eq!(output.status.code(), Some(1));
        String::from_utf8(output.stdout).unwrap()
    };
    for damaged in (0..12).flat_map(damaged) {
        fs::write(&file, &damaged.bytes).unwrap();
        let json = kit(&["--json"]);
        let (at, len) = (number(&json, "offset").unwrap(), number(&json, "length").unwrap());
        let told = kit(&[]);
        let shown: Vec<usize> = (at..at + len.clamp(1, 16)).collect();
        assert_eq!(carets(&told), shown, "{}: {told}", damaged.what);
        let reason = format!("\"reason\":\"{}\"", told.lines().nth(1).unwrap());
        assert!(json.contains(&reason), "{json}: {told}");
    }
    fs::remove_file(&file).unwrap();
}
