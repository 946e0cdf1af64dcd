//! Choices: cards with "one of", never and menus worked by hand, every list of small cards, and each way in which a
//! choice can be wrong.
mod cards;
mod met;
mod model;

use cards::{any_step, damage_mark, written, Draft, Random};
use kit_planner::{Place, Refusal};
use model::decode::{self, Card, LEFT, RIGHT};
use std::collections::BTreeMap;

const BUDGET: usize = 20_000;
/// Room for any card's sheet.
const ROOM: usize = 324;

fn decoded(bytes: &[u8]) -> Card {
    decode::card(bytes).expect("a sound card")
}

const L: u8 = LEFT;
const R: u8 = RIGHT;

/// Limits, goal, rules, lines, and all lists in their order.
type Worked = ((u8, u8), &'static str, &'static str, &'static str, &'static [&'static [u8]]);

const WORKED: &[Worked] = &[
    // one of: left, right, both, none
    ((4, 8), "+ab", "", "a", &[&[L, 0]]),
    ((4, 8), "+ab", "", "b", &[&[R, 0]]),
    ((4, 8), "+ab", "", "?a ?b", &[&[L, 0], &[R, 1]]),
    ((4, 8), "+ab", "", "a b", &[]),
    ((4, 8), "+aa", "", "a", &[&[L, 0], &[R, 0]]),
    ((4, 8), "+a+bc", "", "c", &[&[R, R, 0]]),
    ((4, 8), "++abc", "", "b", &[&[L, R, 0]]),
    ((4, 8), "*+ab+ab", "", "a b", &[&[L, 0, R, 1], &[R, 1, L, 0]]),
    ((4, 8), "&+ab+ab", "", "?a ?b", &[&[L, 0, L, 0], &[R, 1, R, 1]]),
    ((4, 8), "-a+ab", "", "", &[&[L, 0]]),
    ((4, 8), "-a+1T", "", "", &[&[R]]),
    // never
    ((4, 8), "0", "", "", &[]),
    ((4, 8), "*0T", "", "a", &[]),
    ((4, 8), "&0T", "", "a", &[]),
    ((4, 8), "+0a", "", "a", &[&[R, 0]]),
    ((4, 8), "+00", "", "", &[]),
    ((4, 8), "a", ">0a", "?a", &[&[1]]),
    ((4, 8), "-a0", "", "", &[]),
    // menus
    ((4, 8), "a", "", "|ab", &[&[0, L]]),
    ((4, 8), "b", "", "|ab", &[&[0, R]]),
    ((4, 8), "a", "", "|aa", &[&[0, L], &[0, R]]),
    ((4, 8), "a", "", "|bc", &[]),
    ((4, 8), "a", "", "|aT", &[&[0, L]]),
    ((4, 8), "*aT", "", "|TT ?a", &[&[1]]),
    ((4, 8), "*ab", "", "|ab |ab", &[&[0, L, 1, R], &[1, L, 0, R]]),
    ((4, 8), "*ab", "|ab", "", &[&[0, L, 0, R]]),
    ((4, 8), "&ab", "", "|ab", &[&[0, L, 0, R]]),
    ((4, 8), "c", "", "||ab|cd", &[&[0, R, L]]),
    ((4, 8), "a", "", "||ba|ac", &[&[0, L, R], &[0, R, L]]),
    ((4, 8), "-|aba", "", "", &[&[0, L]]),
    // menus in recipes: outer choices first, then the conditions from the head on, those outside behind
    ((4, 8), "a", "", ">b|>caa b ?c", &[&[0, L, 2, 1], &[0, R, 1]]),
    ((4, 8), "a", "", ">b|>caa b c", &[&[0, L, 2, 1]]),
    ((4, 8), "a", "", ">b|>ca>da b d", &[&[0, R, 2, 1]]),
    ((4, 8), "a", "", ">b|c>d|ea b d", &[&[0, R, R, 2, 1]]),
    ((4, 8), "a", "", "|>b|ac>bc b", &[&[0, L, L, 1]]),
    ((4, 8), "a", "", ">+bc|da c", &[&[0, R, R, 1]]),
    ((4, 8), "a", ">b|ac b", "", &[&[0, L, 1]]),
    ((4, 8), "a", "", ">0|ab", &[]),
    ((4, 8), "a", "", "|>0aa", &[&[0, R]]),
    // the limits: a choice costs a step and no nesting
    ((0, 8), "+1a", "", "?a", &[&[L]]),
    ((0, 8), "+a1", "", "?a", &[&[R]]),
    ((0, 2), "*+1a+1a", "", "", &[&[L, L]]),
    ((0, 1), "*+1a+1a", "", "", &[]),
    ((0, 8), "+ab", "", "a", &[]),
    ((1, 2), "+ab", "", "a", &[&[L, 0]]),
    ((1, 1), "+ab", "", "a", &[]),
    ((1, 2), "a", "", "|ab", &[&[0, L]]),
    ((1, 1), "a", "", "|ab", &[]),
    ((0, 8), "a", "", "|ab", &[]),
    ((2, 4), "a", "", ">b|>caa b c", &[&[0, L, 2, 1]]),
    ((2, 3), "a", "", ">b|>caa b ?c", &[&[0, R, 1]]),
    ((1, 8), "a", "", ">+1b|ca", &[&[0, R, L]]),
    ((1, 8), "a", "", ">+b1|ca ?b", &[&[0, R, R]]),
];

/// The lists by each means of the model are these, and its reader accepts them.
fn lists_are(bytes: &[u8], wanted: &[&[u8]]) {
    let card = decoded(bytes);
    let lists = model::lists(&card, BUDGET).expect("enough budget");
    assert_eq!(lists, wanted, "card {bytes:02x?}");
    assert_eq!(
        model::divide::lists(bytes, 100 * BUDGET).expect("enough budget"),
        wanted,
        "card {bytes:02x?}"
    );
    let first = model::count::first(&card, BUDGET).expect("enough budget");
    assert_eq!(first.as_deref(), wanted.first().copied(), "card {bytes:02x?}");
    for list in wanted {
        assert_eq!(model::read(bytes, &model::sheet(&card, list)), Ok(list.len()), "card {bytes:02x?}");
    }
}

#[test]
fn worked_lists() {
    for &((d, s), goal, rules, lines, wanted) in WORKED {
        lists_are(&written(d, s, goal, rules, lines), wanted);
    }
}

#[test]
fn worked_cards_are_planned_and_read() {
    for &((d, s), goal, rules, lines, wanted) in WORKED {
        let bytes = written(d, s, goal, rules, lines);
        let mut sheet = vec![0; ROOM];
        let answer = kit_planner::plan(&bytes, &mut sheet);
        let first = wanted.first().ok_or(Refusal { number: 11, place: Place::Card });
        assert_eq!(answer, first.map(|list| list.len()), "goal {goal}, rules {rules}, lines {lines}");
        assert!(wanted.first().is_none_or(|list| sheet[5..].starts_with(list)), "goal {goal}, lines {lines}");
        for list in wanted {
            let sheet = model::sheet(&decoded(&bytes), list);
            assert_eq!(kit_planner::read(&bytes, &sheet), Ok(list.len()), "goal {goal}, list {list:?}");
        }
    }
}

/// Limits, goal, rules, lines, steps, and the refusal's number and step; none for 19.
type Refused = ((u8, u8), &'static str, &'static str, &'static str, &'static [u8], u8, Option<u16>);

const REFUSED: &[Refused] = &[
    // a choice is missing, or an entry stands there
    ((4, 8), "+ab", "", "a", &[], 18, Some(0)),
    ((4, 8), "+ab", "", "a", &[0], 13, Some(0)),
    ((4, 8), "a", "", "|ab", &[0], 18, Some(1)),
    ((4, 8), "a", "", "|ab", &[0, 0], 13, Some(1)),
    ((4, 8), "c", "", "||ab|cd", &[0, R], 18, Some(2)),
    ((4, 8), "c", "", "||ab|cd", &[0, R, 0], 13, Some(2)),
    // a choice stands where an entry is wanted, or where nothing is
    ((4, 8), "a", "", "a", &[L], 13, Some(0)),
    ((4, 8), "a", "", "a", &[R], 13, Some(0)),
    ((4, 8), "+ab", "", "a", &[L, L], 13, Some(1)),
    ((4, 8), "a", "", "|ab", &[L, 0], 13, Some(0)),
    ((4, 8), "a", "", ">b|ac b", &[0, L, L, 1], 13, Some(2)),
    ((4, 8), "a", "", "a", &[0, L], 18, Some(1)),
    ((4, 8), "1", "", "", &[R], 18, Some(0)),
    // a side without the name wanted, at each menu on the way
    ((4, 8), "a", "", "|ab", &[0, R], 13, Some(1)),
    ((4, 8), "c", "", "||ab|cd", &[0, L], 13, Some(1)),
    ((4, 8), "c", "", "||ab|cd", &[0, R, R], 13, Some(2)),
    ((4, 8), "a", "", "|aT", &[0, R], 13, Some(1)),
    ((4, 8), "a", "", "|bc", &[0, L], 13, Some(0)),
    // the entry is nested above d, not the choice; and 13 at it comes before 17
    ((0, 8), "a", "", "|ab", &[0, R], 17, Some(0)),
    ((0, 8), "a", "", "|bc", &[0, R], 13, Some(0)),
    ((0, 8), "+ab", "", "a", &[L, 0], 17, Some(1)),
    ((1, 8), "a", "", ">b|ac b", &[0, R], 13, Some(1)),
    ((1, 8), "a", "", ">b|ac b", &[0, L, 1], 17, Some(2)),
    // never stops nothing on the way
    ((4, 8), "*0a", "", "a", &[0], 19, None),
    ((4, 8), "*0a", "", "a", &[1], 13, Some(0)),
    ((4, 8), "*0a", "", "a", &[], 18, Some(0)),
    ((4, 8), "*0a", "", "a", &[0, 0], 18, Some(1)),
    ((0, 8), "*0a", "", "a", &[0], 17, Some(0)),
    ((4, 8), "0", "", "", &[], 19, None),
    ((4, 8), "&0a", "", "a", &[0], 19, None),
    ((4, 8), "+0a", "", "a", &[L], 19, None),
    ((4, 8), "a", ">0a", "", &[0], 19, None),
    ((4, 8), "a", "", ">0|ab", &[0, L], 19, None),
    // the items
    ((4, 8), "*ab", "", "|ab", &[0, L, 0, R], 19, None),
    ((4, 8), "+ab", "", "a b", &[L, 0], 19, None),
    ((4, 8), "&+ab+ab", "", "?a ?b", &[L, 0, R, 1], 19, None),
    ((4, 8), "a", "", ">b|>caa b c", &[0, R, 1], 19, None),
];

#[test]
fn worked_refusals() {
    for &((d, s), goal, rules, lines, steps, number, step) in REFUSED {
        let bytes = written(d, s, goal, rules, lines);
        let sheet = model::sheet(&decoded(&bytes), steps);
        let place = step.map_or(Place::Steps, Place::Step);
        let wanted = Err(Refusal { number, place });
        assert_eq!(model::read(&bytes, &sheet), wanted, "goal {goal}, lines {lines}, steps {steps:?}");
        assert_eq!(kit_planner::read(&bytes, &sheet), wanted, "goal {goal}, lines {lines}, steps {steps:?}");
    }
}

/// A node of kinds 8 to 10 behind nodes 0 to 5: a, done, rest, "a gives a", never, "a menu a"; and whether it is sound.
const NODES: &[((u8, u16, u16), bool)] = &[
    ((8, 0, 0), true),
    ((8, 1, 2), true),
    ((8, 4, 4), true),
    ((8, 3, 0), false),
    ((8, 0, 3), false),
    ((8, 5, 0), false),
    ((8, 0, 5), false),
    ((8, 6, 0), false),
    ((8, 0, 6), false),
    ((8, 0, 65_535), false),
    ((9, 0, 0), true),
    ((9, 1, 0), false),
    ((9, 0, 1), false),
    ((9, 256, 0), false),
    ((10, 0, 0), true),
    ((10, 2, 3), true),
    ((10, 5, 5), true),
    ((10, 1, 0), false),
    ((10, 0, 1), false),
    ((10, 4, 0), false),
    ((10, 0, 4), false),
    ((10, 6, 0), false),
    ((10, 0, 6), false),
    ((11, 0, 0), false),
];

/// The refusal of a card, 1 to 9, by the model and the library.
fn checked(c: &Draft) -> Option<(u8, Place)> {
    let told = |refusal: Refusal| (refusal.number, refusal.place);
    let answer = kit_planner::check(&c.bytes()).err().map(told);
    assert_eq!(answer, decode::card(&c.bytes()).err().map(told), "card {:02x?}", c.bytes());
    answer
}

#[test]
fn nodes_are_checked() {
    let six = [(1, 1, 0), (3, 0, 0), (2, 0, 0), (7, 0, 0), (9, 0, 0), (10, 0, 0)];
    for &((kind, left, right), sound) in NODES {
        let mut c = Draft::limits(4, 8);
        c.nodes = six.to_vec();
        c.nodes.push((kind, usize::from(left), usize::from(right)));
        assert_eq!(checked(&c), (!sound).then_some((6, Place::Node(6))), "kind {kind}, {left} and {right}");
    }
    // a goal is no clause and a menu no goal, as goal, rule, line, part of a recipe and part of a lend
    for (kind, goal, clause) in [(8, true, false), (9, true, false), (10, false, true)] {
        let mut c = Draft::limits(4, 8);
        c.nodes = vec![(1, 1, 0), (kind, 0, 0)];
        c.goal = 1;
        assert_eq!(checked(&c), (!goal).then_some((7, Place::Card)));
        (c.goal, c.rules) = (0, vec![1]);
        assert_eq!(checked(&c), (!clause).then_some((8, Place::Rule(0))));
        (c.rules, c.lines) = (vec![], vec![(1, 1)]);
        assert_eq!(checked(&c), (!clause).then_some((9, Place::Line(0))));
        c.lines = vec![];
        for (node, fits) in [((7, 1, 0), goal), ((7, 0, 1), clause), ((6, 1, 0), clause), ((6, 0, 1), goal)] {
            c.nodes.push(node);
            assert_eq!(checked(&c), (!fits).then_some((6, Place::Node(2))), "{node:?}");
            c.nodes.pop();
        }
    }
}

#[test]
fn heights_are_checked() {
    for kind in [8, 10] {
        for right in [false, true] {
            let mut c = Draft::limits(4, 8);
            c.name(1);
            for i in 0..7 {
                let (high, low) = if right { (0, i) } else { (i, 0) };
                c.add(kind, high, low);
            }
            assert_eq!(checked(&c), None, "height 8 by kind {kind}");
            let (high, low) = if right { (0, 7) } else { (7, 0) };
            c.add(kind, high, low);
            assert_eq!(checked(&c), Some((6, Place::Node(8))), "height 9 by kind {kind}");
        }
    }
    let mut c = Draft::limits(4, 8);
    c.goal = c.add(9, 0, 0);
    for i in 0..7 {
        c.goal = c.add(8, i, i);
    }
    assert_eq!(checked(&c), None, "never has height 1");
}

/// Kinds by how often a small card grows them: more choices than anything else.
const RICH: &[u8] = &[4, 4, 5, 6, 7, 7, 8, 8, 8, 10, 10, 10];

/// A small card with many choices.
fn rich(r: &mut Random) -> Draft {
    let mut c = Draft::sound_of(RICH, r, 2, 3);
    c.s = c.s.min(4);
    c
}

/// The model's three ways to the lists of a card, of which one goes by residuals, find the same.
#[test]
fn lists_agree() {
    let mut r = Random::new(34);
    let mut met = met::Met::default();
    for _ in 0..6_000 {
        let bytes = rich(&mut r).bytes();
        let card = decoded(&bytes);
        let both = model::divide::lists(&bytes, 20 * BUDGET).zip(model::lists(&card, BUDGET));
        met.count_lists(both.as_ref().map(|lists| &lists.0));
        let Some((divided, lists)) = both else { continue };
        assert_eq!(divided, lists, "card {bytes:02x?}");
        let first = model::count::first(&card, 20 * BUDGET).expect("enough for a small card");
        assert_eq!(first.as_ref(), lists.first(), "card {bytes:02x?}");
    }
    println!("lists: {met:?}");
    met.all(&[11]);
    met.enough(2_000);
    met.chose(1_500);
}

/// Every list of so many steps by these entries and choices, and every shorter one.
fn every_list(entries: u8, most: usize) -> Vec<Vec<u8>> {
    let alphabet: Vec<u8> = (0..entries).chain([LEFT, RIGHT]).collect();
    let mut all = vec![Vec::new()];
    let mut from = 0;
    for _ in 0..most {
        let to = all.len();
        for i in from..to {
            all.extend(alphabet.iter().map(|&step| [&all[i][..], &[step]].concat()).collect::<Vec<_>>());
        }
        from = to;
    }
    all
}

/// Of all step lists there are, the reader accepts just the lists that the model finds, and none begins another. With a
/// mark changed it answers as the model does.
#[test]
fn every_list_is_read() {
    let mut r = Random::new(31);
    let (mut met, mut read) = (met::Met::default(), 0);
    for _ in 0..600 {
        let mut draft = rich(&mut r);
        draft.s = draft.s.min(3);
        let (bytes, card) = (draft.bytes(), decoded(&draft.bytes()));
        let lists = model::lists(&card, BUDGET);
        met.count_lists(lists.as_ref());
        let Some(lists) = lists else { continue };
        let entries = (draft.rules.len() + draft.lines.len() + 1) as u8;
        let mut accepted = Vec::new();
        for list in every_list(entries, card.s) {
            let mut sheet = model::sheet(&card, &list);
            let answer = kit_planner::read(&bytes, &sheet);
            assert_eq!(answer, model::read(&bytes, &sheet), "card {bytes:02x?}, list {list:?}");
            damage_mark(&mut r, &mut sheet);
            let damaged = kit_planner::read(&bytes, &sheet);
            assert_eq!(damaged, model::read(&bytes, &sheet), "card {bytes:02x?}, sheet {sheet:02x?}");
            accepted.extend(answer.is_ok().then_some(list));
            read += 1;
        }
        accepted.sort();
        let reached = |list: &Vec<u8>| list.iter().all(|&e| e < entries || e >= LEFT);
        assert_eq!(
            accepted,
            lists.iter().filter(|l| reached(l)).cloned().collect::<Vec<_>>(),
            "card {bytes:02x?}"
        );
        let begins = |a: &Vec<u8>| lists.iter().any(|b| a != b && b.starts_with(a));
        assert!(!lists.iter().any(begins), "card {bytes:02x?}");
    }
    println!("every list: {met:?}, {read} read");
    met.enough(150);
    met.chose(60);
    assert!(read > 50_000);
}

/// Whether a choice is wanted at a step that is refused with 13: then one of the two is not.
fn wants_choice(bytes: &[u8], card: &Card, steps: &[u8], at: usize) -> bool {
    [LEFT, RIGHT].into_iter().any(|side| {
        let mut steps = steps.to_vec();
        steps[at] = side;
        let wrong = Err(Refusal { number: 13, place: Place::Step(at as u16) });
        model::read(bytes, &model::sheet(card, &steps)) != wrong
    })
}

/// The same list on the card with done for every never.
fn accepted_without_never(draft: &Draft, steps: &[u8]) -> bool {
    let mut other = draft.clone();
    other.nodes.iter_mut().filter(|node| node.0 == 9).for_each(|node| node.0 = 3);
    let bytes = other.bytes();
    model::read(&bytes, &model::sheet(&decoded(&bytes), steps)).is_ok()
}

/// What is said of these steps, by what it has to do with choices.
fn reason(draft: &Draft, card: &Card, steps: &[u8]) -> &'static str {
    let bytes = draft.bytes();
    let sheet = model::sheet(card, steps);
    let answer = kit_planner::read(&bytes, &sheet);
    assert_eq!(answer, model::read(&bytes, &sheet), "card {bytes:02x?}, steps {steps:?}");
    let chosen = steps.iter().any(|&step| step >= LEFT);
    match answer.map_err(|refusal| (refusal.number, refusal.place)) {
        Ok(_) if chosen && card.d == 0 => "accepted, choices alone",
        Ok(_) if chosen => "accepted, with choices",
        Err((13, Place::Step(i))) => {
            let (i, step) = (usize::from(i), steps[usize::from(i)]);
            match (step >= LEFT, wants_choice(&bytes, card, steps, i)) {
                (true, true) => "13, a side without the name",
                (true, false) => "13, a choice for an entry",
                (false, true) => "13, an entry for a choice",
                (false, false) => "13, no such entry",
            }
        }
        Err((17, _)) if chosen => "17, behind choices",
        Err((18, Place::Step(i))) if usize::from(i) == steps.len() => {
            let more = [steps, &[LEFT]].concat();
            if steps.len() < card.s && wants_choice(&bytes, card, &more, steps.len()) {
                "18, a choice missing"
            } else {
                "18, a step missing"
            }
        }
        Err((18, Place::Step(i))) if steps[usize::from(i)] >= LEFT => "18, a choice too many",
        Err((19, _)) if accepted_without_never(draft, steps) => "19, never",
        _ => "other",
    }
}

/// A step more, another or the other side in its place, or the last ones cut off.
fn damage(r: &mut Random, steps: &mut Vec<u8>) {
    let at = r.below(steps.len() + 1);
    match r.below(4) {
        0 => steps.insert(at, any_step(r, 6)),
        1 if at < steps.len() => steps[at] = any_step(r, 6),
        2 if steps.iter().any(|&step| step >= LEFT) => {
            let sides: Vec<usize> = (0..steps.len()).filter(|&i| steps[i] >= LEFT).collect();
            steps[r.pick(&sides)] ^= LEFT ^ RIGHT;
        }
        _ => steps.truncate(at),
    }
}

/// Lists of cards with many choices, damaged: every way in which a choice can be wrong is met often.
#[test]
fn every_reason_is_met() {
    let mut r = Random::new(32);
    let mut met: BTreeMap<&str, usize> = BTreeMap::new();
    for _ in 0..16_000 {
        let mut draft = Draft::sound_of(RICH, &mut r, 3, 4);
        if r.once_in(4) {
            draft.nodes.iter_mut().filter(|node| node.0 == 3).for_each(|node| node.0 = 9);
        }
        let lists = model::lists(&decoded(&draft.bytes()), BUDGET).unwrap_or_default();
        let mut steps = if lists.is_empty() { Vec::new() } else { lists[r.below(lists.len())].clone() };
        draft.d = draft.d.saturating_sub(u8::from(r.once_in(4)));
        let card = decoded(&draft.bytes());
        for _ in 0..6 {
            steps.truncate(card.s);
            *met.entry(reason(&draft, &card, &steps)).or_default() += 1;
            damage(&mut r, &mut steps);
        }
    }
    println!("{met:#?}");
    let wanted = [
        "accepted, choices alone",
        "accepted, with choices",
        "13, a side without the name",
        "13, a choice for an entry",
        "13, an entry for a choice",
        "17, behind choices",
        "18, a choice missing",
        "18, a choice too many",
        "19, never",
    ];
    for reason in wanted {
        assert!(met.get(reason).is_some_and(|&n| n >= 100), "{reason}: {met:?}");
    }
}

/// What the planner answers with each step limit up to the list's length and one more: with fewer steps another list or
/// none.
#[test]
fn step_limits_agree() {
    let mut r = Random::new(33);
    let mut met = met::Met::default();
    for _ in 0..3_000 {
        let mut draft = Draft::sound_of(RICH, &mut r, 3, 4);
        draft.d = draft.d.max(1);
        let Some(Ok(sheet)) = model::plan(&draft.bytes(), ROOM, BUDGET) else { continue };
        for s in 0..=sheet[3] + 1 {
            draft.s = s;
            let card = draft.bytes();
            met::compare_plan(&mut r, &mut met, &card, ROOM, model::plan(&card, ROOM, BUDGET));
        }
    }
    println!("step limits: {met:?}");
    met.all(&[11]);
    met.enough(1_500);
    met.chose(300);
}
