//! The command line.
use crate::files::{is_stream, label};
use std::ffi::{OsStr, OsString};
use std::os::unix::ffi::OsStrExt;

#[derive(Clone, Copy, Debug, PartialEq, Eq)]
pub enum Command {
    Plan,
    Read,
    Check,
    Show,
    Tree,
    Card,
    Text,
}

pub const COMMANDS: [(&str, Command); 7] = [
    ("plan", Command::Plan),
    ("read", Command::Read),
    ("check", Command::Check),
    ("show", Command::Show),
    ("tree", Command::Tree),
    ("card", Command::Card),
    ("text", Command::Text),
];

impl Command {
    pub fn word(self) -> &'static str {
        COMMANDS.iter().find(|(_, command)| *command == self).expect("every command has its word").0
    }

    /// Options beside those that every command has (`--json`, `--names`).
    fn options(self) -> &'static [&'static str] {
        match self {
            Command::Plan => &["-o", "-j"],
            Command::Read | Command::Check => &["-j"],
            Command::Show => &["-o", "--svg"],
            Command::Tree => &["-o", "--svg", "--dot"],
            Command::Card => &["-o", "--as-is"],
            Command::Text => &["-o", "--nodes", "--bytes"],
        }
    }

    /// How many files it takes.
    fn files(self) -> (usize, usize) {
        match self {
            Command::Plan | Command::Read | Command::Check => (1, usize::MAX),
            Command::Show | Command::Tree => (1, 2),
            Command::Card | Command::Text => (1, 1),
        }
    }
}

/// What is asked of a command.
#[derive(Debug)]
pub struct Options {
    pub command: Command,
    pub files: Vec<OsString>,
    pub output: Option<OsString>,
    pub names: Option<OsString>,
    pub jobs: Option<usize>,
    flags: Vec<String>,
}

impl Options {
    /// Whether a flag such as `--json` is given.
    pub fn has(&self, flag: &str) -> bool {
        self.flags.iter().any(|given| given == flag)
    }
}

#[derive(Debug)]
pub enum Asked {
    Help(Option<Command>),
    Version,
    Run(Options),
}

/// Reads the words behind the program's name.
pub fn parse(words: Vec<OsString>) -> Result<Asked, String> {
    let mut words = words.into_iter();
    let first = words.next().ok_or("no command is given")?;
    let word = label(&first);
    match word.as_str() {
        "--help" | "-h" => return Ok(Asked::Help(None)),
        "--version" | "-V" => return Ok(Asked::Version),
        _ => {}
    }
    let known = COMMANDS.iter().find(|(name, _)| *name == word);
    let command = known.ok_or(format!("\"{word}\" is no command"))?.1;
    let rest: Vec<OsString> = words.collect();
    let before_files = rest.iter().take_while(|w| *w != "--");
    if before_files.into_iter().any(|w| w == "--help" || w == "-h") {
        return Ok(Asked::Help(Some(command)));
    }
    options(command, rest).map(Asked::Run)
}

fn options(command: Command, words: Vec<OsString>) -> Result<Options, String> {
    let mut options =
        Options { command, files: Vec::new(), output: None, names: None, jobs: None, flags: Vec::new() };
    let mut words = words.into_iter();
    while let Some(word) = words.next() {
        if word == "--" {
            options.files.extend(words.by_ref());
        } else if is_stream(&word) || !word.to_string_lossy().starts_with('-') {
            options.files.push(word);
        } else {
            options.option(&word, &mut words)?;
        }
    }
    options.sensible()?;
    Ok(options)
}

/// An option and, where it stands in the same word, its value: `-j4`, `--names=FILE`.
fn divided(word: &OsStr) -> (String, Option<OsString>) {
    let bytes = word.as_bytes();
    let cut = match bytes.starts_with(b"--") {
        true => bytes.iter().position(|&b| b == b'=').map(|at| (at, at + 1)),
        false => Some((2, 2)).filter(|_| bytes.len() > 2),
    };
    let (option, value) = cut.map_or((bytes, None), |(end, from)| (&bytes[..end], Some(&bytes[from..])));
    (label(OsStr::from_bytes(option)), value.map(|value| OsStr::from_bytes(value).to_os_string()))
}

impl Options {
    fn option(&mut self, word: &OsStr, more: &mut impl Iterator<Item = OsString>) -> Result<(), String> {
        let (option, given) = divided(word);
        let name = self.command.word();
        let known = ["--json", "--names"].iter().chain(self.command.options()).any(|o| *o == option);
        if !known {
            return Err(format!("kit {name} has no option \"{option}\""));
        }
        if !["-o", "-j", "--names"].contains(&option.as_str()) {
            return match given {
                Some(_) => Err(format!("\"{option}\" takes no value")),
                None => {
                    self.flags.push(option);
                    Ok(())
                }
            };
        }
        let value = given.or_else(|| more.next()).ok_or(format!("\"{option}\" wants a value"))?;
        match option.as_str() {
            "-o" => self.output = Some(value),
            "--names" => self.names = Some(value),
            _ => self.jobs = Some(jobs(&value)?),
        }
        Ok(())
    }

    /// What no command can do.
    fn sensible(&self) -> Result<(), String> {
        let (least, most) = self.command.files();
        let (name, given) = (self.command.word(), self.files.len());
        if given < least {
            return Err(format!("kit {name} wants a file"));
        }
        if given > most {
            return Err(format!("kit {name} takes {most} at most, but {given} are given"));
        }
        let inputs = self.files.iter().chain(&self.names);
        if inputs.filter(|file| is_stream(file)).count() > 1 {
            return Err("standard input (-) can be read once only".to_string());
        }
        for [one, other] in [
            ["--svg", "--dot"],
            ["--svg", "--json"],
            ["--dot", "--json"],
            ["--nodes", "--bytes"],
            ["--nodes", "--json"],
            ["--bytes", "--json"],
        ] {
            if self.has(one) && self.has(other) {
                return Err(format!("{one} and {other} do not go together"));
            }
        }
        let bytes = matches!(self.command, Command::Plan | Command::Card)
            && self.output.as_deref().is_some_and(is_stream);
        match bytes && self.has("--json") {
            true => Err("-o - writes bytes, so --json does not go with it".to_string()),
            false => Ok(()),
        }
    }
}

fn jobs(value: &OsStr) -> Result<usize, String> {
    match value.to_string_lossy().parse() {
        Ok(n) if (1..=256).contains(&n) && value.as_bytes()[0] != b'+' => Ok(n),
        _ => Err(format!("-j wants a number from 1 to 256, not \"{}\"", label(value))),
    }
}
