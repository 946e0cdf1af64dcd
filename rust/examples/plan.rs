//! Plans the card of a file and prints its steps and marks, or why it is refused, as examples/plan.c does.
//!
//! Usage: plan CARD
//!
//! The exit status is 0 where the card is planned, 1 where it is refused, 2 where it could not be read or told.
use kit_planner::{plan_sheet, Sheet, Step, CARD_MAX};
use std::env;
use std::fs::File;
use std::io::{self, Read, Write};
use std::path::{Path, PathBuf};
use std::process::ExitCode;

/// The file's beginning: one byte more than the longest card, so that a longer file is refused too.
fn read_file(name: &Path) -> io::Result<Vec<u8>> {
    let mut card = Vec::new();
    File::open(name)?.take(CARD_MAX as u64 + 1).read_to_end(&mut card)?;
    Ok(card)
}

/// A choice, or the entry used. Entries are numbered through: P rules, then T lines, then what is lent.
fn told(card: &[u8], step: Step) -> String {
    let (rules, lines) = (card[3], card[4]);
    match step {
        Step::Entry(entry) if entry < rules => format!("rule {entry}"),
        Step::Entry(entry) if entry < rules + lines => format!("line {}", entry - rules),
        Step::Entry(entry) => format!("lent {}", entry - rules - lines),
        side => side.to_string(),
    }
}

fn print_sheet(out: &mut impl Write, card: &[u8], sheet: &Sheet) -> io::Result<()> {
    writeln!(out, "planned, steps: {}", sheet.steps().len())?;
    for (i, step) in sheet.walk().enumerate() {
        writeln!(out, "step {i}: {}", told(card, step))?;
    }
    for (i, mark) in sheet.marks().enumerate() {
        writeln!(out, "line {i}: {mark}")?;
    }
    Ok(())
}

fn main() -> ExitCode {
    let names: Vec<PathBuf> = env::args_os().skip(1).map(PathBuf::from).collect();
    let [name] = names.as_slice() else {
        eprintln!("usage: plan CARD");
        return ExitCode::from(2);
    };
    let card = match read_file(name) {
        Ok(card) => card,
        Err(error) => {
            eprintln!("plan: {}: {error}", name.display());
            return ExitCode::from(2);
        }
    };
    let planned = plan_sheet(&card);
    let mut out = io::stdout().lock();
    let told = match &planned {
        Ok(sheet) => print_sheet(&mut out, &card, sheet),
        Err(refusal) => writeln!(out, "{refusal}"),
    };
    if let Err(error) = told.and_then(|()| out.flush()) {
        eprintln!("plan: standard output: {error}");
        return ExitCode::from(2);
    }
    ExitCode::from(u8::from(planned.is_err()))
}
