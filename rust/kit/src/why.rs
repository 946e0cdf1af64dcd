//! The one reason behind a refusal, and the bytes it is about. Number and place are the proved call's; here they are put into words.
use crate::card::{
    Card, Sound, FRONT, HEIGHT_LIMIT, LINE_LIMIT, NAME_LIMIT, NESTING_LIMIT, NODE_LIMIT, RULE_LIMIT,
};
use crate::files::MOST;
use crate::kinds::{Holds, KINDS};
use crate::names::Names;
use crate::way::{
    amiss, side_of, surely, use_at, walk, Amiss, Choice, Offer, Serves, Step, Stop, Stopped, Turn, Use, Walk,
    Wanted, SIDES,
};
use kit_planner::{Place, Refusal};

/// What is wrong: the bytes that are, where some are, and the reason.
#[derive(Clone, Debug)]
pub struct Why {
    pub wrong: Option<Wrong>,
    pub words: String,
}

/// The wrong bytes, none where some are missing there, and where the record that holds them begins and how long it is.
#[derive(Clone, Copy, Debug)]
pub struct Wrong {
    pub at: usize,
    pub len: usize,
    pub record: (usize, usize),
}

impl Why {
    fn new(at: usize, len: usize, record: (usize, usize), words: String) -> Why {
        Why { wrong: Some(Wrong { at, len, record }), words }
    }

    fn front(at: usize, len: usize, words: String) -> Why {
        Why::new(at, len, (0, FRONT), words)
    }
}

/// Why a card is refused with one of 1 to 9, or cannot be planned (11).
pub fn card(bytes: &[u8], refusal: Refusal, names: &Names) -> Why {
    let card = Card::new(bytes);
    match (refusal.number, refusal.place) {
        (1, _) => {
            let n = bytes.len();
            Why::new(n, 0, (0, n), format!("the card has {}; its front alone has 11", count(n, "byte")))
        }
        (2, _) => wrong_length(card),
        (3, _) => Why::front(2, 1, format!("the version is {}; it must be 1", card.byte(2))),
        (4, _) => out_of_range(card),
        (5, _) => wrong_counts(card),
        (6, Place::Node(i)) => wrong_node(card, usize::from(i), names),
        (7, _) => wrong_root(card, "the goal", 7, (0, FRONT), names),
        (8, Place::Rule(i)) => {
            let at = card.rule_at(usize::from(i));
            wrong_root(card, "the rule", at, (at, 2), names)
        }
        (9, Place::Line(i)) => wrong_line(card, card.line_at(usize::from(i)), names),
        _ => Why { wrong: None, words: no_way(card) },
    }
}

fn no_way(card: Card) -> String {
    let (nesting, steps) = (card.nesting_limit(), count(card.step_limit(), "step"));
    let rules = "uses each part at most once, and every must line and lent part unless a rest takes it";
    format!("no way within nesting {nesting} and {steps} meets the goal and {rules}")
}

/// A formula in parentheses, which it may have already.
fn within(formula: &str) -> String {
    match formula.starts_with('(') {
        true => formula.to_string(),
        false => format!("({formula})"),
    }
}

/// So many of them, in words.
pub fn count(n: usize, word: &str) -> String {
    format!("{n} {word}{}", if n == 1 { "" } else { "s" })
}

/// How many bytes there are. Of a longer file only so many are read as show that it is too long.
pub fn bytes_there(n: usize) -> String {
    match n < MOST {
        true => count(n, "byte"),
        false => format!("more than {} bytes", MOST - 1),
    }
}

/// 2: the length field, or bytes missing or too many behind a front that agrees with itself.
fn wrong_length(card: Card) -> Why {
    let (says, lent) = (card.length(), card.bytes.len());
    let there = format!("the length field says {says}, but there are {}", bytes_there(lent));
    if says != card.formula_length() {
        return Why::front(0, 2, there);
    }
    if lent < says {
        let (short, last) = (count(says - lent, "byte"), lent.min(8));
        return Why::new(lent, 0, (lent - last, last), format!("{there}: {short} missing at the end"));
    }
    let over = lent - says;
    Why::new(says, over, (says, over.min(16)), format!("{there}; the card ends before byte {says}"))
}

/// 4: the first of P, T, N and d that is.
fn out_of_range(card: Card) -> Why {
    let fields = [
        (3, 1, "P, the number of rules,", card.rules(), 0, RULE_LIMIT),
        (4, 1, "T, the number of lines,", card.lines(), 0, LINE_LIMIT),
        (5, 2, "N, the number of nodes,", card.nodes(), 1, NODE_LIMIT),
        (9, 1, "d, the nesting limit,", card.nesting_limit(), 0, NESTING_LIMIT),
    ];
    let wrong = fields.into_iter().find(|&(_, _, _, value, least, most)| value < least || value > most);
    let (at, len, word, value, least, most) = wrong.unwrap_or(fields[0]);
    Why::front(at, len, format!("{word} is {value}; it must be {least} to {most}"))
}

/// 5: the count that would make the card sound if it were another, where there is just one; else all of P, T and N.
fn wrong_counts(card: Card) -> Why {
    let (nodes, rules, lines) = (card.nodes(), card.rules(), card.lines());
    let asked = card.formula_length();
    let sum = format!(
        "11 + 5 * {nodes} + 2 * {rules} + 3 * {lines} = {asked}, but the card has {}",
        count(card.length(), "byte")
    );
    let fields = [(5, 2, "N", nodes, 5), (3, 1, "P", rules, 2), (4, 1, "T", lines, 3)];
    let mended = fields.into_iter().filter_map(|(at, len, word, value, size)| {
        let right = (card.length() + size * value).checked_sub(asked).filter(|n| n % size == 0)? / size;
        mends(card, at, len, right)
            .then(|| Why::front(at, len, format!("{sum}; with {word} = {right} it would be sound")))
    });
    let mut mended: Vec<Why> = mended.collect();
    match mended.len() {
        1 => mended.remove(0),
        _ => Why::front(3, 4, sum),
    }
}

/// Whether the proved check finds the card sound with this value there.
fn mends(card: Card, at: usize, len: usize, value: usize) -> bool {
    let mut bytes = card.bytes.to_vec();
    let value = value.to_be_bytes();
    bytes[at..at + len].copy_from_slice(&value[value.len() - len..]);
    kit_planner::check(&bytes).is_ok()
}

/// 6: kind, left, right, then height.
fn wrong_node(card: Card, i: usize, names: &Names) -> Why {
    let at = card.node_at(i);
    let told = |from: usize, len: usize, words: String| Why::new(at + from, len, (at, 5), words);
    let node = card.node(i);
    let Some(kind) = card.kind(i) else {
        return told(0, 1, format!("its kind is {}; there are kinds 1 to {}", node.kind, KINDS.len()));
    };
    for side in 0..2 {
        if let Some(words) = wrong_field(card, i, side, names) {
            return told(1 + 2 * side, 2, words);
        }
    }
    let heights = card.heights();
    let height = |side: usize| card.part(i, side).map_or(0, |part| heights[part]);
    let side = usize::from(height(1) > height(0));
    let (part, below) = (node.fields[side], height(side));
    let deep = format!("its {} part, node {part}, has height {below}", SIDES[side]);
    let height = below + 1;
    told(1 + 2 * side, 2, format!("this {} has height {height}, at most {HEIGHT_LIMIT}: {deep}", kind.word))
}

fn wrong_field(card: Card, i: usize, side: usize, names: &Names) -> Option<String> {
    let kind = card.kind(i)?;
    let value = card.node(i).fields[side];
    let (holds, word) = (kind.fields[side], SIDES[side]);
    match holds {
        Holds::Name => (usize::from(value) > NAME_LIMIT)
            .then(|| format!("its name is {value}; names go to {NAME_LIMIT}")),
        Holds::Nothing => (value != 0)
            .then(|| format!("its {word} field is {value}; a {} has nothing there, so 0", kind.word)),
        Holds::Goal | Holds::Clause => {
            let part = usize::from(value);
            if i == 0 {
                return Some(format!("its {word} part is node {part}; node 0 can have no parts"));
            }
            if part >= i {
                return Some(format!("its {word} part is node {part}; a part must be lower than {i}"));
            }
            let reads = card.kind(part)?.reads;
            let formula = within(&card.formula(part, names));
            let asked = if holds == Holds::Goal { "goal" } else { "clause" };
            let role = kind.roles[side];
            (!holds.fits(reads)).then(|| {
                format!("its {word} part is node {part} {formula}, which is no {asked}; {role} must be one")
            })
        }
    }
}

/// Whether a node is there and reads as asked.
fn fits(card: Card, node: usize, holds: Holds) -> bool {
    node < card.nodes() && card.kind(node).is_some_and(|kind| holds.fits(kind.reads))
}

/// 7, 8, 9: a node that is not there, or reads otherwise.
fn wrong_root(card: Card, word: &str, at: usize, record: (usize, usize), names: &Names) -> Why {
    let node = usize::from(card.word(at));
    let asked = if word == "the goal" { "goal" } else { "clause" };
    let words = if node >= card.nodes() {
        format!("{word} is node {node}; there are nodes 0 to {}", card.nodes() - 1)
    } else {
        format!("{word} is node {node} {}, which is no {asked}", within(&card.formula(node, names)))
    };
    Why::new(at, 2, record, words)
}

/// 9: the node, then the must/may byte.
fn wrong_line(card: Card, at: usize, names: &Names) -> Why {
    let must = card.byte(at + 2);
    if !fits(card, usize::from(card.word(at)), Holds::Clause) {
        return wrong_root(card, "the line", at, (at, 3), names);
    }
    let words = format!("its must/may byte is {must}; it must be 1 (must) or 0 (may)");
    Why::new(at + 2, 1, (at, 3), words)
}

/// Why a sheet is refused with 12, 13, 14, 17, 18 or 19.
pub fn sheet(card: Sound, sheet: &[u8], refusal: Refusal, names: &Names) -> Why {
    if refusal.number == 12 {
        return wrong_front(card, sheet);
    }
    let k = usize::from(sheet[3]);
    let steps = &sheet[5..5 + k];
    match refusal.place {
        Place::Mark(i) => wrong_mark(card, sheet, usize::from(i)),
        Place::Step(i) => wrong_step(card, steps, usize::from(i), refusal, names),
        _ if k == 0 => Why { wrong: None, words: undivided(card, steps, refusal, names) },
        _ => Why::new(5, k, (5, k), undivided(card, steps, refusal, names)),
    }
}

/// 12, in the order of 01.
fn wrong_front(card: Sound, sheet: &[u8]) -> Why {
    let n = sheet.len();
    let front = |at: usize, len: usize, words: String| Why::new(at, len, (0, n.min(5)), words);
    if n < 5 {
        return front(n, 0, format!("the sheet has {}; its front alone has 5", count(n, "byte")));
    }
    let (says, k, t) =
        (usize::from(sheet[0]) * 256 + usize::from(sheet[1]), usize::from(sheet[3]), usize::from(sheet[4]));
    let asked = 5 + k + t;
    if says != n {
        return front(0, 2, format!("the length field says {says}, but there are {}", bytes_there(n)));
    }
    if sheet[2] != 1 {
        return front(2, 1, format!("the version is {}; it must be 1", sheet[2]));
    }
    if t != card.lines() {
        return front(4, 1, format!("T is {t}; the card has {}", count(card.lines(), "line")));
    }
    if n != asked {
        return front(
            3,
            1,
            format!("5 + k + T = 5 + {k} + {t} = {asked}, but the sheet has {}", count(n, "byte")),
        );
    }
    front(3, 1, format!("k is {k}; the card allows {}", count(card.step_limit(), "step")))
}

/// 14: the mark that is there, and the true one.
fn wrong_mark(card: Sound, sheet: &[u8], line: usize) -> Why {
    let k = usize::from(sheet[3]);
    let (from, at) = (5 + k, 5 + k + line);
    let (mark, right) = (sheet[at], true_mark(card, &sheet[5..from], line));
    let words = format!("the mark of line {line} is {mark}; it must be {right}");
    Why::new(at, 1, (from, sheet.len() - from), words)
}

/// A line's true mark for the list of a derivation, and why it is that.
fn true_mark(card: Sound, steps: &[u8], line: usize) -> &'static str {
    let number = card.rules() + line;
    let Walk { taken, end } = walk(card, steps);
    let surely = end.is_ok_and(|way| surely(&taken, &way).contains(&number));
    let uses = steps.iter().filter(|&&step| usize::from(step) == number).count();
    match (uses, surely, card.line(line).must) {
        (0, _, 1) => "2: no step uses this must line, so a rest takes it",
        (0, ..) => "0: no step uses this may line",
        (1, true, _) => "1: a step uses the line",
        (_, true, _) => "1: both sides of an either way use the line",
        (_, false, _) => "3: one side of an either way uses the line, the other does not",
    }
}

/// What is to be served, in words.
pub fn serves(serves: Serves, taken: &[Step]) -> String {
    match serves {
        Serves::Goal => "the goal".to_string(),
        Serves::Condition { step, count } => {
            format!("condition {count} of step {step} ({})", use_at(taken, step).entry)
        }
    }
}

/// The same on which sides of either ways and behind which choices.
fn serves_by(whom: Serves, turns: &[Turn], taken: &[Step]) -> String {
    let turn = |turn: &Turn| match *turn {
        Turn::Way(side) => [", one way", ", the other way"][side].to_string(),
        Turn::Chosen(side) => format!(", chosen {}", SIDES[side]),
    };
    serves(whom, taken) + &turns.iter().map(turn).collect::<String>()
}

/// What a use serves.
pub fn served(one: &Use, taken: &[Step]) -> String {
    serves_by(one.serves, &one.turns, taken)
}

/// Where a choice is made: `for the goal`, or `in step 0 (rule 2)`.
pub fn offered(offer: &Offer, taken: &[Step]) -> String {
    match offer {
        Offer::OneOf { serves, turns } => format!("for {}", serves_by(*serves, turns, taken)),
        Offer::Menu { step } => format!("in step {step} ({})", use_at(taken, *step).entry),
    }
}

/// What a choice takes, and of what.
pub fn taken_by(choice: &Choice, card: Card, taken: &[Step], names: &Names) -> String {
    let [chosen, of] = [choice.chosen, choice.node].map(|node| card.formula(node, names));
    format!("{chosen} of {of} {}", offered(&choice.offer, taken))
}

/// What is wanted where a walk stopped.
fn wanted(card: Sound, wanted: &Wanted, taken: &[Step], names: &Names) -> String {
    match wanted {
        Wanted::Nothing => "nothing is wanted there".to_string(),
        Wanted::Name { name, serves: whom, .. } => {
            format!("{} is wanted there for {}", names.word(*name), serves(*whom, taken))
        }
        Wanted::Side { node, offer } => {
            let (of, place) = (card.formula(*node, names), offered(offer, taken));
            format!("a choice of {of}, 254 (left) or 255 (right), is wanted there {place}")
        }
    }
}

/// The names that a clause gives: `gives a, b or c`.
fn gives(card: Sound, clause: usize, names: &Names) -> String {
    let heads: Vec<String> = card.heads(clause).into_iter().map(|head| names.word(head)).collect();
    match heads.split_last() {
        None => "gives nothing".to_string(),
        Some((last, [])) => format!("gives {last}"),
        Some((last, others)) => format!("gives {} or {last}", others.join(", ")),
    }
}

fn wrong_step(card: Sound, steps: &[u8], at: usize, refusal: Refusal, names: &Names) -> Why {
    let Walk { taken, end } = walk(card, steps);
    let record = (5, steps.len());
    let Err(stopped) = end else {
        return Why::new(5 + at, 1, record, refusal.reason().to_string());
    };
    let len = usize::from(stopped.stop != Stop::Missing);
    let words = format!("step {at} {}", stopped_words(card, &stopped, steps.get(at).copied(), &taken, names));
    Why::new(5 + at, len, record, words)
}

/// What of the step is wrong where a walk stopped.
fn stopped_words(card: Sound, stopped: &Stopped, byte: Option<u8>, taken: &[Step], names: &Names) -> String {
    let formula = |clause: usize| within(&card.formula(clause, names));
    let wanted = wanted(card, &stopped.wanted, taken, names);
    let byte = byte.unwrap_or_default();
    let side = side_of(byte).map_or("", |side| SIDES[side]);
    match stopped.stop {
        Stop::Missing => format!("is missing: {wanted}"),
        Stop::Extra => "is one too many: all that is wanted is met before it".to_string(),
        Stop::NoEntry { entries } => format!("is entry {byte}, but {}; {wanted}", entries_there(entries)),
        Stop::Misfit { clause } => {
            let entry = card.entry(usize::from(byte));
            format!("is {entry} {}, which {}; {wanted}", formula(clause), gives(card, clause, names))
        }
        Stop::Choice => format!("is {byte}, the choice {side}, but an entry has to stand there; {wanted}"),
        Stop::NoChoice => format!("is {byte}, which is no choice; {wanted}"),
        Stop::WrongSide { chosen } => {
            let Wanted::Side { offer: Offer::Menu { step }, .. } = stopped.wanted else { return wanted };
            let name = names.word(use_at(taken, step).name);
            let place = offered(&Offer::Menu { step }, taken);
            format!(
                "is {side} {}, which {}; {name} is wanted {place}",
                formula(chosen),
                gives(card, chosen, names)
            )
        }
        Stop::Deep => deep(card, &stopped.wanted),
    }
}

/// 17: how deep the step is nested.
fn deep(card: Sound, wanted: &Wanted) -> String {
    let nesting = if let Wanted::Name { nesting, .. } = wanted { *nesting } else { 1 };
    let (limit, uses) = (card.nesting_limit(), count(nesting - 1, "use"));
    format!("has nesting {nesting}, above the limit {limit}: it stands inside {uses}")
}

fn entries_there(entries: usize) -> String {
    match entries {
        0 => "there is none".to_string(),
        n => format!("the last one there is {}", n - 1),
    }
}

/// 19: what does not divide.
fn undivided(card: Sound, steps: &[u8], refusal: Refusal, names: &Names) -> String {
    let Walk { taken, end } = walk(card, steps);
    let clause = |step: usize| use_at(&taken, step).clause;
    let called = |number: usize, clause: usize| {
        format!("{} {}", card.entry(number), within(&card.formula(clause, names)))
    };
    match end.ok().and_then(|way| amiss(card, &taken, &way)) {
        Some(Amiss::Twice { number, steps: [one, other] }) => {
            let entry = called(number, clause(one));
            format!("{entry} is used at step {one} and again at step {other}")
        }
        Some(Amiss::Unused { line }) => {
            let entry = called(card.rules() + line, card.line(line).node);
            format!("{entry} must be used, but no step uses it and no rest takes it")
        }
        Some(Amiss::LentOver { number, clause }) => {
            let entry = called(number, clause);
            format!("{entry} is left over: no step inside its lend uses it and no rest there takes it")
        }
        Some(Amiss::OneSide { number, step }) => {
            let entry = called(number, clause(step));
            format!(
                "{entry} is used at step {step} in one way, but the other way neither uses it nor has a rest"
            )
        }
        Some(Amiss::Never { serves, turns }) => {
            format!("never is wanted for {}, and nothing meets it", serves_by(serves, &turns, &taken))
        }
        None => refusal.reason().to_string(),
    }
}
