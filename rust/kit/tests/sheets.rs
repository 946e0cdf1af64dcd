//! Sheets that the proved reader refuses: the reason told is one for this number, at this place.
#[path = "../../tests/cards/mod.rs"]
mod cards;

use cards::{any_step, Draft, Random};
use desk::card::Sound;
use desk::names::Names;
use desk::text::parse;
use desk::way::{amiss, use_at, walk, Step, Stop};
use desk::why::{self, Why};
use kit_planner::{plan_sheet, Place, Refusal, Sheet};
use std::collections::BTreeMap;

/// A sheet with this list and these marks.
fn sheet(steps: &[u8], marks: &[u8]) -> Vec<u8> {
    let length = (5 + steps.len() + marks.len()) as u16;
    let front = [length.to_be_bytes()[0], length.to_be_bytes()[1], 1, steps.len() as u8, marks.len() as u8];
    [&front[..], steps, marks].concat()
}

/// One thing changed in a sheet, and where, if it is a byte of its front.
fn damage(r: &mut Random, sheet_bytes: &[u8], entries: usize) -> (Vec<u8>, Option<usize>) {
    let k = usize::from(sheet_bytes[3]);
    let (mut steps, mut marks) = (sheet_bytes[5..5 + k].to_vec(), sheet_bytes[5 + k..].to_vec());
    match r.below(8) {
        0 => {
            let mut bytes = sheet_bytes.to_vec();
            let at = r.below(5);
            bytes[at] = bytes[at].wrapping_add(1 + r.below(255) as u8);
            return (bytes, Some(at));
        }
        1 => return (sheet_bytes[..r.below(sheet_bytes.len())].to_vec(), None),
        2 if k > 0 => drop(steps.remove(r.below(k))),
        3 => steps.insert(r.below(k + 1), any_step(r, entries + 2)),
        4 if !marks.is_empty() => {
            let i = r.below(marks.len());
            marks[i] = r.below(5) as u8;
        }
        5 => steps.iter_mut().filter(|step| **step > 253).take(1).for_each(|side| *side ^= 1),
        _ if k > 0 => steps[r.below(k)] = any_step(r, entries + 2),
        _ => {}
    }
    (sheet(&steps, &marks), None)
}

/// The number that a walk's end stands for.
fn walked(card: Sound, steps: &[u8]) -> Option<Refusal> {
    let walked = walk(card, steps);
    match walked.end {
        Ok(way) => amiss(card, &walked.taken, &way).map(|_| Refusal { number: 19, place: Place::Steps }),
        Err(stopped) => {
            let number = match stopped.stop {
                Stop::NoEntry { .. } | Stop::Misfit { .. } => 13,
                Stop::Choice | Stop::NoChoice | Stop::WrongSide { .. } => 13,
                Stop::Deep => 17,
                Stop::Missing | Stop::Extra => 18,
            };
            Some(Refusal { number, place: Place::Step(stopped.step as u16) })
        }
    }
}

/// A reason of its own, not the number's, and bytes that are there or are missing at the end of their part.
fn told(why: &Why, sheet: &[u8], refusal: Refusal) {
    assert_ne!(why.words, refusal.reason());
    let Some(wrong) = why.wrong else {
        assert_eq!((refusal.number, sheet[3]), (19, 0), "only no steps at all are told by no bytes");
        return;
    };
    assert!(wrong.at + wrong.len <= sheet.len(), "{wrong:?}");
    let at = match refusal.place {
        Place::Step(i) => 5 + usize::from(i),
        Place::Mark(i) => 5 + usize::from(sheet[3]) + usize::from(i),
        Place::Steps => 5,
        _ => wrong.at.min(5),
    };
    assert_eq!(wrong.at, at, "{refusal}: {}", why.words);
}

/// A card and the sheet of its plan; but now and then d is one less by then, or every done has become never.
fn planned(r: &mut Random) -> Option<(Vec<u8>, Sheet)> {
    let mut draft = Draft::sound(r, 4, 6);
    let sheet = plan_sheet(&draft.bytes()).ok()?;
    draft.d = draft.d.saturating_sub(u8::from(r.once_in(4)));
    let never = r.once_in(8);
    draft.nodes.iter_mut().filter(|node| never && node.0 == 3).for_each(|node| node.0 = 9);
    Some((draft.bytes(), sheet))
}

/// The mark that a reason tells to be the true one is: with it in its place no mark up to there is wrong any more.
fn mended(card: &[u8], sheet: &[u8], line: u16, words: &str) {
    let (_, right) = words.split_once("it must be ").expect("the true mark is told");
    let (at, mut sheet) = (5 + usize::from(sheet[3]) + usize::from(line), sheet.to_vec());
    sheet[at] = right[..1].parse().expect("a mark's number");
    let later = |refusal: Refusal| matches!(refusal.place, Place::Mark(i) if i > line);
    assert!(kit_planner::read(card, &sheet).err().is_none_or(later), "{words}");
}

/// Words of which each stands in many of the reasons.
const REASONS: [&str; 11] = [
    "again at step",
    "must be used",
    "is left over",
    "in one way",
    "never is wanted",
    "which is no choice",
    "but an entry has to stand there",
    "is missing: a choice of",
    "is wanted in step",
    "both sides of an either way use",
    "one side of an either way uses",
];

#[test]
fn every_refusal_has_its_reason() {
    let r = &mut Random::new(1);
    let names = Names::default();
    let mut met: BTreeMap<u8, usize> = BTreeMap::new();
    let mut reasons = Vec::new();
    for _ in 0..20_000 {
        let Some((bytes, planned)) = planned(r) else { continue };
        let card = Sound::checked(&bytes).expect("it is sound");
        for _ in 0..12 {
            let entries = card.rules() + card.lines() + 2;
            let (sheet, changed) = damage(r, planned.as_bytes(), entries);
            let refused = kit_planner::read(&bytes, &sheet).err();
            *met.entry(refused.map_or(0, |refusal| refusal.number)).or_default() += 1;
            let steps =
                sheet.get(5..).map(|all| &all[..all.len().min(usize::from(sheet[3]))]).unwrap_or_default();
            let Some(refusal) = refused else {
                assert_eq!(walked(card, steps), None);
                continue;
            };
            let why = why::sheet(card, &sheet, refusal, &names);
            told(&why, &sheet, refusal);
            if let Place::Mark(line) = refusal.place {
                mended(&bytes, &sheet, line, &why.words);
            }
            if let (12, Some(at), Some(wrong)) = (refusal.number, changed, why.wrong) {
                assert!((wrong.at..wrong.at + wrong.len).contains(&at), "{}", why.words);
            }
            reasons.push(why.words);
            if refusal.number != 12 {
                assert_eq!(walked(card, steps), Some(refusal).filter(|refusal| refusal.number != 14));
            }
        }
    }
    for number in [0, 12, 13, 14, 17, 18, 19] {
        assert!(met[&number] > 500, "{met:?}");
    }
    assert_eq!(met.len(), 7, "{met:?}");
    for words in REASONS {
        let n = reasons.iter().filter(|reason| reason.contains(words)).count();
        assert!(n > 40, "{words}: {n} of {}", reasons.len());
    }
}

/// The reason that is told of these steps and marks on a text card.
fn reason_of(text: &str, steps: &[u8], marks: &[u8]) -> String {
    let text = format!("limits nesting 2 steps 9\n{text}");
    let bytes = parse(&text, &Names::default()).expect("the text is right").bytes;
    let card = Sound::checked(&bytes).expect("it is sound");
    let sheet = sheet(steps, marks);
    let refusal = kit_planner::read(&bytes, &sheet).expect_err("it is refused");
    format!("{}: {}", refusal.number, why::sheet(card, &sheet, refusal, &Names::default()).words)
}

/// The same with marks that are all 1.
fn reason(text: &str, steps: &[u8]) -> String {
    let lines = text.lines().filter(|line| line.starts_with("must ") || line.starts_with("may ")).count();
    reason_of(text, steps, &vec![1; lines])
}

#[test]
fn reasons_in_words() {
    let lends = "goal ((lend 1 to done) both (lend 2 to 2))\n";
    assert_eq!(
        reason("goal 1\nmust 1\n", &[7]),
        "13: step 0 is entry 7, but the last one there is 0; 1 is wanted there for the goal"
    );
    assert_eq!(
        reason("goal 1\n", &[7]),
        "13: step 0 is entry 7, but there is none; 1 is wanted there for the goal"
    );
    assert_eq!(
        reason("goal 1\nmay rest\n", &[0]),
        "13: step 0 is line 0 (rest), which gives nothing; 1 is wanted there for the goal"
    );
    assert_eq!(reason("goal 1\nmust 1\n", &[]), "18: step 0 is missing: 1 is wanted there for the goal");
    assert_eq!(
        reason("goal 1\nmust 1\n", &[0, 0]),
        "18: step 1 is one too many: all that is wanted is met before it"
    );
    assert_eq!(
        reason("goal done\nmust 1\n", &[]),
        "19: line 0 (1) must be used, but no step uses it and no rest takes it"
    );
    let over = "19: lent 0 (1) is left over: no step inside its lend uses it and no rest there takes it";
    assert_eq!(reason(lends, &[0]), over);
    let rules = "goal 1\nrule (2 gives 1)\nrule (3 gives 2)\nrule 3\n";
    assert_eq!(
        reason(rules, &[0, 1, 2]),
        "17: step 2 has nesting 3, above the limit 2: it stands inside 2 uses"
    );
}

#[test]
fn reasons_of_choices_in_words() {
    let one_of = "goal (1 one of 2)\nmust 1\n";
    let wanted = "a choice of (1 one of 2), 254 (left) or 255 (right), is wanted there for the goal";
    assert_eq!(reason(one_of, &[]), format!("18: step 0 is missing: {wanted}"));
    assert_eq!(reason(one_of, &[0]), format!("13: step 0 is 0, which is no choice; {wanted}"));
    assert_eq!(
        reason(one_of, &[254, 255]),
        "13: step 1 is 255, the choice right, but an entry has to stand there; 1 is wanted there for the goal"
    );
    assert_eq!(
        reason(one_of, &[255, 0]),
        "13: step 1 is line 0 (1), which gives 1; 2 is wanted there for the goal"
    );
}

#[test]
fn reasons_of_menus_and_never_in_words() {
    let menu = "goal 1\nmust (3 gives ((3 gives 2) menu (1 menu 4)))\nmay 3\n";
    let side = "a choice of (1 menu 4), 254 (left) or 255 (right), is wanted there in step 0 (line 0)";
    assert_eq!(
        reason(menu, &[0, 254]),
        "13: step 1 is left (3 gives 2), which gives 2; 1 is wanted in step 0 (line 0)"
    );
    assert_eq!(reason(menu, &[0, 255]), format!("18: step 2 is missing: {side}"));
    assert_eq!(reason(menu, &[0, 255, 1]), format!("13: step 2 is 1, which is no choice; {side}"));
    assert_eq!(
        reason(menu, &[0, 255, 255]),
        "13: step 2 is right (4), which gives 4; 1 is wanted in step 0 (line 0)"
    );
    assert_eq!(
        reason("goal 5\nmust (3 gives ((3 gives 2) menu (1 menu 4)))\n", &[0]),
        "13: step 0 is line 0 (3 gives ((3 gives 2) menu (1 menu 4))), which gives 2, 1 or 4; 5 is wanted there for the goal"
    );
    assert_eq!(
        reason("goal 1\nmay (1 menu rest)\n", &[0, 255]),
        "13: step 1 is right (rest), which gives nothing; 1 is wanted in step 0 (line 0)"
    );
    assert_eq!(
        reason("goal (1 both (rest either way never))\nmust 1\n", &[0]),
        "19: never is wanted for the goal, the other way, and nothing meets it"
    );
    assert_eq!(
        reason("goal 1\nrule ((2 one of never) gives 1)\n", &[0, 255]),
        "19: never is wanted for condition 0 of step 0 (rule 0), chosen right, and nothing meets it"
    );
}

#[test]
fn reasons_of_marks_in_words() {
    let one_way =
        "the mark of line 0 is 1; it must be 3: one side of an either way uses the line, the other does not";
    assert_eq!(reason("goal (1 either way rest)\nmust 1\n", &[0]), format!("14: {one_way}"));
    assert_eq!(
        reason("goal (2 either way rest)\nmay 1\nrule (1 gives 2)\n", &[0, 1]),
        format!("14: {one_way}")
    );
    let ways = "goal ((1 both rest) either way (2 both (1 both rest)))\nmust 1\nmust 2\nmust 3\nmay 3\n";
    let told = |marks: &[u8]| reason_of(ways, &[0, 1, 0], marks);
    assert_eq!(
        told(&[3, 3, 2, 0]),
        "14: the mark of line 0 is 3; it must be 1: both sides of an either way use the line"
    );
    assert_eq!(told(&[1, 1, 2, 0]), format!("14: {}", one_way.replace("line 0", "line 1")));
    assert_eq!(
        told(&[1, 3, 3, 0]),
        "14: the mark of line 2 is 3; it must be 2: no step uses this must line, so a rest takes it"
    );
    assert_eq!(told(&[1, 3, 2, 3]), "14: the mark of line 3 is 3; it must be 0: no step uses this may line");
    assert_eq!(
        reason_of("goal 1\nmust 1\n", &[0], &[3]),
        "14: the mark of line 0 is 3; it must be 1: a step uses the line"
    );
}

#[test]
fn what_a_step_serves_in_words() {
    let text = "limits nesting 2 steps 9\ngoal ((1 either way 1) either way (2 both rest))\nmay 1\nmay (1 gives 2)\n";
    let bytes = parse(text, &Names::default()).expect("the text is right").bytes;
    let taken = walk(Sound::checked(&bytes).expect("it is sound"), &[0, 0, 1, 0]).taken;
    let told: Vec<String> = (0..4).map(|step| why::served(use_at(&taken, step), &taken)).collect();
    let ways = ["the goal, one way, one way", "the goal, one way, the other way", "the goal, the other way"];
    assert_eq!(told[..3], ways);
    assert_eq!(told[3], "condition 0 of step 2 (line 1)");
}

/// What is told of each step of a list: what a use serves, or what a choice takes and where.
fn told_of(text: &str, steps: &[u8]) -> Vec<String> {
    let bytes = parse(text, &Names::default()).expect("the text is right").bytes;
    let card = Sound::checked(&bytes).expect("it is sound");
    let walked = walk(card, steps);
    assert!(walked.end.is_ok(), "{:?}", walked.end);
    let told = |step: &Step| match step {
        Step::Use(one) => format!("for {}", why::served(one, &walked.taken)),
        Step::Choice(choice) => why::taken_by(choice, *card, &walked.taken, &Names::default()),
    };
    walked.taken.iter().map(told).collect()
}

#[test]
fn what_a_choice_takes_in_words() {
    let text = "limits nesting 2 steps 9\ngoal (rest either way (9 one of 1))\nmust (2 gives ((3 gives 1) menu 1))\nmay 2\nmay 3\n";
    let told = told_of(text, &[255, 0, 254, 2, 1]);
    assert_eq!(told[0], "1 of (9 one of 1) for the goal, the other way");
    assert_eq!(told[1], "for the goal, the other way, chosen right");
    assert_eq!(told[2], "(3 gives 1) of ((3 gives 1) menu 1) in step 1 (line 0)");
    assert_eq!(told[3], "for condition 0 of step 1 (line 0)");
    assert_eq!(told[4], "for condition 1 of step 1 (line 0)");
}
