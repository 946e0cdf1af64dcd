//! The commands.
mod ask;
mod draw;
mod many;
mod told;
mod write;

use crate::args::{Command, Options};
use crate::files::{apart, label, read_text, Trouble};
use crate::names::Names;
use crate::text;
use std::ffi::OsStr;

/// The words of a names file, or none.
fn names(path: Option<&OsStr>) -> Result<Names, Trouble> {
    let Some(path) = path else { return Ok(Names::default()) };
    let found = read_text(path)?;
    text::names_of(&found, &Names::default()).map_err(|mistake| Trouble(mistake.told(&label(path), &found)))
}

/// Does what is asked; the exit status.
pub fn run(options: &Options) -> Result<u8, Trouble> {
    if let Some(output) = &options.output {
        apart(&[output], options.files.iter().chain(&options.names))?;
    }
    let names = names(options.names.as_deref())?;
    match options.command {
        Command::Plan | Command::Read | Command::Check => many::run(options, names),
        Command::Show => draw::show(options, &names),
        Command::Tree => draw::tree(options, &names),
        Command::Card => write::card(options, &names),
        Command::Text => write::text(options, &names),
    }
}
