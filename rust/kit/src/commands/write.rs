//! Text cards to bytes and back.
use super::ask;
use super::told::{about, Manner};
use crate::args::Options;
use crate::card::{Card, Sound};
use crate::fields::{hex, must_word};
use crate::files::{is_stream, label, print, read, read_text, write, Pending, Trouble};
use crate::json::{object, Json};
use crate::names::Names;
use crate::paint::Paint;
use crate::text::{as_bytes, as_formulas, as_nodes, parse};
use kit_planner::Refusal;
use std::ffi::OsStr;
use std::io::{self, IsTerminal};

/// `kit card`
pub fn card(options: &Options, names: &Names) -> Result<u8, Trouble> {
    let file = &options.files[0];
    let text = read_text(file)?;
    let parsed = parse(&text, names).map_err(|mistake| Trouble(mistake.told(&label(file), &text)))?;
    match kit_planner::check(&parsed.bytes) {
        Err(found) if !options.has("--as-is") => refused(options, &parsed.bytes, found, &parsed.names),
        _ => put(options, &parsed.bytes).map(|()| 0),
    }
}

/// A card's refusal, told instead of what was asked for.
fn refused(options: &Options, bytes: &[u8], found: Refusal, names: &Names) -> Result<u8, Trouble> {
    let manner = Manner { names, paint: Paint::of_output() };
    let told = ask::refused(&label(&options.files[0]), bytes, found, manner);
    let text = if options.has("--json") { format!("{}\n", told.json) } else { told.long };
    print(text.as_bytes())?;
    Ok(told.tally.status())
}

/// The card to its file, when all the rest is done; or its bytes to standard output.
fn put(options: &Options, bytes: &[u8]) -> Result<(), Trouble> {
    let told = options.has("--json").then(|| format!("{}\n", written_json(options, bytes)));
    match (&options.output, told) {
        (Some(output), told) if !is_stream(output) => {
            let pending = Pending::write(output, bytes)?;
            print(told.unwrap_or_default().as_bytes())?;
            pending.put()
        }
        (None, Some(told)) => print(told.as_bytes()),
        (None, None) if io::stdout().is_terminal() => {
            Err(Trouble("kit: a card is bytes: give it a file with -o, or a pipe\n".to_string()))
        }
        _ => print(bytes),
    }
}

/// What was written.
fn written_json(options: &Options, bytes: &[u8]) -> Json {
    let card = Card::new(bytes);
    object()
        .with("text", label(&options.files[0]))
        .with("card", options.output.as_deref().map(label))
        .with("length", bytes.len())
        .with("nodes", card.nodes())
        .with("rules", card.rules())
        .with("lines", card.lines())
        .with("bytes", hex(bytes))
}

/// `kit text`
pub fn text(options: &Options, names: &Names) -> Result<u8, Trouble> {
    let bytes = read(&options.files[0])?;
    let text = if options.has("--bytes") {
        as_bytes(&bytes, names)
    } else {
        match Sound::checked(&bytes) {
            Err(found) => return refused(options, &bytes, found, names),
            Ok(card) if options.has("--json") => {
                format!("{}\n", text_json(&label(&options.files[0]), card, names))
            }
            Ok(card) if options.has("--nodes") => as_nodes(card, names),
            Ok(card) => as_formulas(card, names),
        }
    };
    write(options.output.as_deref().unwrap_or(OsStr::new("-")), text.as_bytes())?;
    Ok(0)
}

fn text_json(file: &str, card: Sound, names: &Names) -> Json {
    let formula = |node: usize| Json::Text(card.formula(node, names));
    let line = |i: usize| {
        let line = card.line(i);
        object().with("is", must_word(line.must)).with("clause", formula(line.node))
    };
    about(file)
        .with("nesting", card.nesting_limit())
        .with("steps", card.step_limit())
        .with("goal", formula(card.goal()))
        .with("rules", Json::list((0..card.rules()).map(|i| formula(card.rule(i)))))
        .with("lines", Json::list((0..card.lines()).map(line)))
}
