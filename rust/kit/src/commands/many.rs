//! Plan, read and check over the files given.
use super::ask;
use super::told::{about, error, Manner, Tally, Told};
use crate::args::{Command, Options};
use crate::batch;
use crate::files::{apart, files_in, is_folder, is_stream, label, print, read, Pending, Trouble};
use crate::json::{object, Json};
use crate::names::Names;
use crate::paint::Paint;
use crate::why::count;
use std::collections::{BTreeMap, BTreeSet};
use std::ffi::{OsStr, OsString};
use std::path::{Path, PathBuf};
use std::sync::Arc;
use std::thread::available_parallelism;

/// A card, the sheet to be read against it, and where the plan's sheet goes.
struct Task {
    card: OsString,
    sheet: Option<OsString>,
    place: Option<OsString>,
}

impl Task {
    fn new(card: impl Into<OsString>, sheet: Option<OsString>) -> Task {
        Task { card: card.into(), sheet, place: None }
    }

    fn label(&self) -> String {
        match &self.sheet {
            Some(sheet) => format!("{} {}", label(&self.card), label(sheet)),
            None => label(&self.card),
        }
    }

    fn begin(&self) -> Json {
        let card = about(&label(&self.card));
        match &self.sheet {
            Some(sheet) => card.with("sheet", label(sheet)),
            None => card,
        }
    }

    /// What is told where a file could not be read or written.
    fn failed(&self, Trouble(line): Trouble) -> Told {
        let (label, words) = (self.label(), line.trim_end());
        let words = words.strip_prefix("kit: ").unwrap_or(words);
        error(&label, self.begin(), words.strip_prefix(&format!("{label}: ")).unwrap_or(words))
    }
}

/// The cards given, folders opened; and whether they are told a line each.
fn cards(files: &[OsString]) -> Result<(Vec<Task>, bool), Trouble> {
    let mut found = Vec::new();
    let mut many = files.len() > 1;
    for file in files {
        if is_folder(file) {
            many = true;
            found.extend(files_in(file, "card")?.into_iter().map(|path| Task::new(path, None)));
        } else {
            found.push(Task::new(file, None));
        }
    }
    Ok((found, many))
}

/// The file of the same name with another ending, in this folder.
fn beside(folder: &OsStr, file: &Path, ending: &str) -> OsString {
    Path::new(folder).join(file.with_extension(ending).file_name().unwrap_or_default()).into()
}

/// Cards with their sheets in turn; or each NAME.sheet of a folder with NAME.card beside it, or in a first folder.
fn pairs(files: &[OsString]) -> Result<(Vec<Task>, bool), Trouble> {
    let folder = |file: &OsString| is_folder(file);
    if files.len() <= 2 && files.iter().all(folder) {
        let (cards, sheets) = (&files[0], &files[files.len() - 1]);
        let pair = |sheet: PathBuf| Task::new(beside(cards, &sheet, "card"), Some(sheet.into()));
        return Ok((files_in(sheets, "sheet")?.into_iter().map(pair).collect(), true));
    }
    if files.len() % 2 == 1 || files.iter().any(folder) {
        let usage =
            "kit read wants cards and sheets in turn, or a folder, or a folder of cards and one of sheets";
        return Err(Trouble(format!("kit: {usage}\n")));
    }
    let pair = |two: &[OsString]| Task::new(&two[0], Some(two[1].clone()));
    Ok((files.chunks(2).map(pair).collect(), files.len() > 2))
}

/// Tells each task where the plan's sheet goes: nowhere, to the file given, or into the folder given.
fn place_sheets(output: Option<&OsString>, tasks: &mut [Task], many: bool) -> Result<(), Trouble> {
    let Some(output) = output else { return Ok(()) };
    if !many {
        tasks[0].place = Some(output.clone());
        return Ok(());
    }
    if !is_folder(output) {
        return Err(Trouble::new(
            &label(output),
            "for the sheets of several cards, -o wants a folder that is there",
        ));
    }
    let mut seen = BTreeSet::new();
    for task in tasks {
        let place = beside(output, Path::new(&task.card), "sheet");
        if !seen.insert(place.clone()) {
            return Err(Trouble::new(&label(&place), "two of the cards would have this sheet"));
        }
        task.place = Some(place);
    }
    Ok(())
}

/// What every worker goes by.
struct Desk {
    command: Command,
    tasks: Vec<Task>,
    names: Names,
    paint: Paint,
}

impl Desk {
    /// Reads the files of a task and asks the proved calls.
    fn ask(&self, task: &Task) -> Result<Told, Trouble> {
        let manner = Manner { names: &self.names, paint: self.paint };
        let (name, card) = (label(&task.card), read(&task.card)?);
        let Some(sheet) = &task.sheet else {
            let ask = if self.command == Command::Plan { ask::plan } else { ask::check };
            return Ok(ask(&name, &card, manner));
        };
        let bytes = read(sheet)?;
        Ok(ask::read(&task.label(), (&name, &card), (&label(sheet), &bytes), manner))
    }

    /// The same among many: the sheet is put in its place at once.
    fn ask_among(&self, task: &Task) -> Told {
        let asked = self.ask(task).and_then(|told| {
            if let (Some(place), Some(sheet)) = (&task.place, &told.sheet) {
                Pending::write(place, sheet)?.put()?;
            }
            Ok(told)
        });
        asked.unwrap_or_else(|trouble| task.failed(trouble))
    }
}

/// Asks of every card, and tells.
pub fn run(options: &Options, names: Names) -> Result<u8, Trouble> {
    let read = options.command == Command::Read;
    let (mut tasks, many) = if read { pairs(&options.files)? } else { cards(&options.files)? };
    place_sheets(options.output.as_ref(), &mut tasks, many)?;
    let places: Vec<&OsString> = tasks.iter().filter_map(|task| task.place.as_ref()).collect();
    apart(&places, tasks.iter().map(|task| &task.card).chain(&options.names))?;
    let desk = Arc::new(Desk { command: options.command, tasks, names, paint: Paint::of_output() });
    let jobs = options.jobs.unwrap_or_else(|| available_parallelism().map_or(1, usize::from));
    match many {
        true => several(&desk, jobs, options.has("--json")),
        false => single(&desk, options.has("--json")),
    }
}

/// One card, told at length. The sheet is put in its place when all the rest is done.
fn single(desk: &Arc<Desk>, json: bool) -> Result<u8, Trouble> {
    let (worker, task) = (desk.clone(), &desk.tasks[0]);
    let work = Arc::new(move |i: usize| worker.ask(&worker.tasks[i]));
    let mut status = 0;
    batch::run(1, 1, work, &|_| task.label(), |_, told| {
        let told = told.unwrap_or_else(|| Err(Trouble::new(&task.label(), "the program failed")))?;
        status = told.tally.status();
        let text = if json { format!("{}\n", told.json) } else { told.long };
        match (&task.place, &told.sheet) {
            (Some(place), Some(sheet)) if is_stream(place) => print(sheet),
            (Some(place), Some(sheet)) => {
                let pending = Pending::write(place, sheet)?;
                print(text.as_bytes())?;
                pending.put()
            }
            _ => print(text.as_bytes()),
        }
    })?;
    Ok(status)
}

/// Many cards, a line each, and how it went.
fn several(desk: &Arc<Desk>, jobs: usize, json: bool) -> Result<u8, Trouble> {
    let worker = desk.clone();
    let work = Arc::new(move |i: usize| worker.ask_among(&worker.tasks[i]));
    let tasks = &desk.tasks;
    let mut summary = Summary::default();
    batch::run(tasks.len(), jobs, work, &|i| tasks[i].label(), |i, told| {
        let told = told.unwrap_or_else(|| tasks[i].failed(Trouble("the program failed".to_string())));
        summary.count(told.tally);
        let text = if json { format!("{}\n", told.json) } else { told.line };
        print(text.as_bytes())
    })?;
    print(summary.told(desk.command, json).as_bytes())?;
    summary.status()
}

/// How many cards went how.
#[derive(Default)]
struct Summary {
    good: usize,
    refused: BTreeMap<u8, usize>,
    errors: usize,
    worst: u8,
}

impl Summary {
    fn count(&mut self, tally: Tally) {
        match tally {
            Tally::Good => self.good += 1,
            Tally::Refused(number) => *self.refused.entry(number).or_insert(0) += 1,
            Tally::Error => self.errors += 1,
        }
        self.worst = self.worst.max(tally.status());
    }

    fn refusals(&self) -> usize {
        self.refused.values().sum()
    }

    fn all(&self) -> usize {
        self.good + self.refusals() + self.errors
    }

    fn told(&self, command: Command, json: bool) -> String {
        let good = match command {
            Command::Plan => "planned",
            Command::Read => "accepted",
            _ => "sound",
        };
        if json {
            let number = |(n, c): (&u8, &usize)| object().with("number", *n).with("cards", *c);
            let refused = Json::list(self.refused.iter().map(number));
            let counts = object().with("cards", self.all()).with(good, self.good);
            return format!(
                "{}\n",
                object().with("summary", counts.with("refused", refused).with("errors", self.errors))
            );
        }
        let refused: Vec<String> = self.refused.iter().map(|(n, c)| format!("{n}: {c}")).collect();
        let by_number = if refused.is_empty() { String::new() } else { format!(" ({})", refused.join(", ")) };
        let (cards, errors) = (count(self.all(), "card"), count(self.errors, "error"));
        format!("{cards}: {} {good}, {} refused{by_number}, {errors}\n", self.good, self.refusals())
    }

    /// The worst of all. Errors were told in their places; here is their line for standard error.
    fn status(&self) -> Result<u8, Trouble> {
        match self.errors {
            0 => Ok(self.worst),
            n => Err(Trouble(format!(
                "kit: {n} of {} could not be read or written\n",
                count(self.all(), "card")
            ))),
        }
    }
}
