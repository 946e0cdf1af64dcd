//! Plan, read and check: one card each.
use super::told::{about, refusal, Manner, Tally, Told};
use crate::card::{Card, Sound};
use crate::fields::{mark_word, must_word};
use crate::json::{object, Json};
use crate::way::{walk, Choice, Offer, Serves, Step, Use, SIDES};
use crate::why::{self, count, offered, served};
use kit_planner::Refusal;

/// `kit check`
pub fn check(label: &str, bytes: &[u8], manner: Manner) -> Told {
    let card = Card::new(bytes);
    if let Err(found) = kit_planner::check(bytes) {
        return refused(label, bytes, found, manner);
    }
    let counts = [
        count(card.nodes(), "node"),
        count(card.rules(), "rule"),
        count(card.lines(), "line"),
        format!("nesting limit {}", card.nesting_limit()),
        format!("at most {}", count(card.step_limit(), "step")),
    ];
    let line = format!("{label}: {}: {}\n", manner.paint.good("sound"), counts.join(", "));
    let json = about(label)
        .with("answer", "sound")
        .with("nodes", card.nodes())
        .with("rules", card.rules())
        .with("lines", card.lines())
        .with("nesting", card.nesting_limit())
        .with("steps", card.step_limit());
    Told { long: line.clone(), line, json, tally: Tally::Good, sheet: None }
}

/// A card's own refusal.
pub fn refused(label: &str, bytes: &[u8], found: Refusal, manner: Manner) -> Told {
    let why = why::card(bytes, found, manner.names);
    refusal(label, about(label), found, why, ("card", bytes), manner)
}

/// `kit plan`
pub fn plan(label: &str, bytes: &[u8], manner: Manner) -> Told {
    let planned = Sound::checked(bytes).and_then(|card| Ok((card, kit_planner::plan_sheet(bytes)?)));
    let (card, sheet) = match planned {
        Ok(planned) => planned,
        Err(found) => return refused(label, bytes, found, manner),
    };
    let marks: Vec<u8> = sheet.marks().map(|mark| mark as u8).collect();
    let taken = walk(card, sheet.steps()).taken;
    let head = format!("planned, {}", count(taken.len(), "step"));
    let line = format!("{label}: {}\n", manner.paint.good(&head));
    let long = format!("{line}{}{}", steps_told(card, &taken, manner), lines_told(card, &marks, manner));
    let json = about(label)
        .with("answer", "planned")
        .with("k", taken.len())
        .with("steps", Json::list(taken.iter().map(|step| step_json(card, step, &taken, manner))))
        .with(
            "lines",
            Json::list(marks.iter().enumerate().map(|(i, &mark)| line_json(card, i, mark, manner))),
        );
    Told { long, line, json, tally: Tally::Good, sheet: Some(sheet.as_bytes().to_vec()) }
}

/// Rows in columns, behind an empty line; a long cell pushes the rest of its row to the right.
fn columns(rows: &[Vec<String>]) -> String {
    const WIDEST: usize = 40;
    let width =
        |i: usize| rows.iter().map(|row| row[i].chars().count()).filter(|&w| w <= WIDEST).max().unwrap_or(0);
    let widths: Vec<usize> = (0..rows.first().map_or(0, Vec::len)).map(width).collect();
    let mut text = String::from(if rows.is_empty() { "" } else { "\n" });
    for row in rows {
        let cells: Vec<String> =
            row.iter().zip(&widths).map(|(cell, &width)| format!("{cell:<width$}")).collect();
        text += &format!("{}\n", cells.join("  ").trim_end());
    }
    text
}

/// Of a use its entry, what it gives, what for and by which clause; of a choice its side, what it takes, where and of what.
fn steps_told(card: Sound, taken: &[Step], manner: Manner) -> String {
    let formula = |node: usize| card.formula(node, manner.names);
    let row = |step: &Step| match step {
        Step::Use(one) => {
            let (name, clause) = (manner.names.word(one.name), formula(one.clause));
            let recipe = if clause == name { String::new() } else { format!("by {clause}") };
            let (gives, whom) = (format!("gives {name}"), format!("for {}", served(one, taken)));
            vec![format!("step {}", one.step), one.entry.to_string(), gives, whom, recipe]
        }
        Step::Choice(choice) => {
            let side = SIDES[choice.side].to_string();
            let (takes, of) =
                (format!("takes {}", formula(choice.chosen)), format!("of {}", formula(choice.node)));
            vec![format!("step {}", choice.step), side, takes, offered(&choice.offer, taken), of]
        }
    };
    columns(&taken.iter().map(row).collect::<Vec<_>>())
}

fn lines_told(card: Sound, marks: &[u8], manner: Manner) -> String {
    let row = |(i, &mark): (usize, &u8)| {
        let line = card.line(i);
        let formula = card.formula(line.node, manner.names);
        vec![format!("line {i}"), must_word(line.must).to_string(), formula, mark_word(mark).to_string()]
    };
    columns(&marks.iter().enumerate().map(row).collect::<Vec<_>>())
}

/// A name by number and, where it has one, its word.
fn name_json(number: u16, manner: Manner) -> Json {
    object().with("name", number).with("word", manner.names.given(number))
}

fn step_json(card: Sound, step: &Step, taken: &[Step], manner: Manner) -> Json {
    match step {
        Step::Use(one) => use_json(card, one, taken, manner),
        Step::Choice(choice) => choice_json(card, choice, taken, manner),
    }
}

/// The step whose condition is served, and which that is.
fn condition_json(serves: Serves) -> (Option<usize>, Option<usize>) {
    match serves {
        Serves::Goal => (None, None),
        Serves::Condition { step, count } => (Some(step), Some(count)),
    }
}

fn choice_json(card: Sound, choice: &Choice, taken: &[Step], manner: Manner) -> Json {
    let (step, condition) = match choice.offer {
        Offer::OneOf { serves, .. } => condition_json(serves),
        Offer::Menu { step } => (Some(step), None),
    };
    object()
        .with("step", choice.step)
        .with("byte", [kit_planner::LEFT, kit_planner::RIGHT][choice.side])
        .with("choice", SIDES[choice.side])
        .with("takes", card.formula(choice.chosen, manner.names))
        .with("of", card.formula(choice.node, manner.names))
        .with("made", offered(&choice.offer, taken))
        .with("for_step", step)
        .with("condition", condition)
}

fn use_json(card: Sound, one: &Use, taken: &[Step], manner: Manner) -> Json {
    let (step, condition) = condition_json(one.serves);
    object()
        .with("step", one.step)
        .with("entry", one.number)
        .with("kind", one.entry.word())
        .with("index", one.entry.index())
        .with("clause", card.formula(one.clause, manner.names))
        .with("gives", name_json(one.name, manner))
        .with("nesting", one.nesting)
        .with("serves", served(one, taken))
        .with("for_step", step)
        .with("condition", condition)
}

fn line_json(card: Sound, i: usize, mark: u8, manner: Manner) -> Json {
    let line = card.line(i);
    object()
        .with("line", i)
        .with("must", line.must == 1)
        .with("clause", card.formula(line.node, manner.names))
        .with("mark", mark)
        .with("is", mark_word(mark))
}

/// `kit read`
pub fn read(label: &str, card: (&str, &[u8]), sheet: (&str, &[u8]), manner: Manner) -> Told {
    let begin = about(card.0).with("sheet", sheet.0);
    let found = match kit_planner::read(card.1, sheet.1) {
        Ok(k) => {
            let line =
                format!("{label}: {}\n", manner.paint.good(&format!("accepted, {}", count(k, "step"))));
            let json = begin.with("answer", "accepted").with("k", k);
            return Told { long: line.clone(), line, json, tally: Tally::Good, sheet: None };
        }
        Err(found) => found,
    };
    match Sound::checked(card.1) {
        Ok(sound) => {
            let why = why::sheet(sound, sheet.1, found, manner.names);
            refusal(label, begin, found, why, ("sheet", sheet.1), manner)
        }
        Err(found) => {
            refusal(label, begin, found, why::card(card.1, found, manner.names), ("card", card.1), manner)
        }
    }
}
