//! Show and tree.
use super::ask;
use super::told::{about, refusal_json, refused, Manner, Tally, Told};
use crate::args::Options;
use crate::card::{Card, Sound};
use crate::fields::{card_fields, sheet_fields, Field};
use crate::files::{label, print, read, write, Trouble, MOST};
use crate::json::{object, Json};
use crate::names::Names;
use crate::paint::Paint;
use crate::picture::{svg, Drawn};
use crate::tree::Tree;
use crate::way::{walk, Step, Walk};
use crate::why::{self, bytes_there, count, Why};
use kit_planner::Refusal;
use std::ffi::OsStr;
use std::fmt::Write;

/// Colour for what is printed; none for what goes to a file.
fn manner<'a>(options: &Options, names: &'a Names) -> Manner<'a> {
    let paint = if options.output.is_some() { Paint(false) } else { Paint::of_output() };
    Manner { names, paint }
}

/// To the file given, or standard output.
fn put(options: &Options, text: &str) -> Result<(), Trouble> {
    write(options.output.as_deref().unwrap_or(OsStr::new("-")), text.as_bytes())
}

/// A drawn card or sheet, and its refusal.
struct Shown<'a> {
    of: &'static str,
    file: String,
    drawn: Drawn<'a>,
    refusal: Option<(Refusal, Why)>,
}

impl<'a> Shown<'a> {
    fn new(
        of: &'static str,
        file: &OsStr,
        bytes: &'a [u8],
        fields: Vec<Field>,
        refusal: Option<(Refusal, Why)>,
    ) -> Shown<'a> {
        let wrong = refusal.as_ref().and_then(|(_, why)| why.wrong).map(|wrong| (wrong.at, wrong.len));
        let title = format!("{of} {}, {}", label(file), bytes_there(bytes.len()));
        let told = |(found, why): &(Refusal, Why)| format!("{}: {}", refused(*found, why, of), why.words);
        let drawn = Drawn { title, refusal: refusal.as_ref().map(told), bytes, fields, wrong };
        Shown { of, file: label(file), drawn, refusal }
    }
}

/// `kit show`
pub fn show(options: &Options, names: &Names) -> Result<u8, Trouble> {
    let manner = manner(options, names);
    let bytes = read(&options.files[0])?;
    let fields = card_fields(Card::new(&bytes), names);
    let sound = Sound::checked(&bytes);
    let refusal = sound.err().map(|found| (found, why::card(&bytes, found, names)));
    let mut all = vec![Shown::new("card", &options.files[0], &bytes, fields, refusal)];
    let sheet = options.files.get(1).map(|file| read(file)).transpose()?;
    if let Some(sheet) = &sheet {
        let (taken, refusal) = sound.map_or((Vec::new(), None), |card| read_against(card, sheet, names));
        let fields = sheet_fields(Card::new(&bytes), sheet, &taken, names);
        let mut shown = Shown::new("sheet", &options.files[1], sheet, fields, refusal);
        if sound.is_err() {
            shown.drawn.title += ", not read: its card is refused";
        }
        all.push(shown);
    }
    let refused = all.iter().any(|shown| shown.refusal.is_some());
    put(options, &shown(options, all, manner))?;
    Ok(u8::from(refused))
}

/// The steps of a sheet that the walk reaches, and its refusal.
fn read_against(card: Sound, sheet: &[u8], names: &Names) -> (Vec<Step>, Option<(Refusal, Why)>) {
    let found = kit_planner::read(card.bytes, sheet).err();
    let refusal = found.map(|found| (found, why::sheet(card, sheet, found, names)));
    let steps = sheet.get(5..).unwrap_or_default();
    let k = steps.len().min(usize::from(Card::new(sheet).byte(3)));
    (walk(card, &steps[..k]).taken, refusal)
}

fn shown(options: &Options, all: Vec<Shown>, manner: Manner) -> String {
    if options.has("--svg") {
        let title = all[0].drawn.title.clone();
        let drawn: Vec<Drawn> = all.into_iter().map(|shown| shown.drawn).collect();
        return svg(&title, &drawn);
    }
    if options.has("--json") {
        let sound = all[0].refusal.is_none();
        return format!("{}\n", Json::list(all.iter().map(|shown| shown_json(shown, sound))));
    }
    all.iter().map(|shown| drawing(shown, manner.paint)).collect::<Vec<_>>().join("\n")
}

/// The drawing in words, a field a line.
fn drawing(shown: &Shown, paint: Paint) -> String {
    let Drawn { title, bytes, fields, .. } = &shown.drawn;
    let mut text = format!("{title}\n\n{:>6}  {:<8}{:<11}{:<7}value\n", "byte", "bytes", "field", "");
    let mut before = None;
    for field in fields {
        let whose = if before == Some(field.part) { String::new() } else { field.part.to_string() };
        before = Some(field.part);
        let (first, second) =
            if field.part.index().is_some() { (whose.as_str(), field.name) } else { (field.name, "") };
        let value = match field.note.as_str() {
            "" => field.value.clone(),
            note => format!("{:<25}   {}", field.value, paint.dim(note)),
        };
        let name = format!("{first:<11}{second:<7}");
        let name = paint.part(field.part.word(), &name);
        let _ = writeln!(text, "{:>6}  {:<6}  {name}{value}", field.at, field.hex(bytes));
        let under = under(field, shown.drawn.wrong);
        if !under.is_empty() {
            let _ = writeln!(text, "{:>6}  {}", "", paint.bad(&under));
        }
    }
    let _ = writeln!(text, "{:>6}  {}", bytes.len(), if bytes.len() < MOST { "end" } else { "and more" });
    if let Some(refusal) = &shown.drawn.refusal {
        let _ = writeln!(text, "\n{}", paint.bad(refusal));
    }
    text
}

/// Carets under the wrong bytes of a field; one behind its last where bytes are missing there.
fn under(field: &Field, wrong: Option<(usize, usize)>) -> String {
    let end = field.at + field.len;
    let (at, len) = wrong.unwrap_or_default();
    let marked = |i: usize| (at..at + len).contains(&i) && i < end || wrong == Some((i, 0)) && i == end;
    let marks = (field.at..=end).map(|i| if marked(i) { "^^" } else { "  " });
    marks.collect::<Vec<_>>().join(" ").trim_end().to_string()
}

/// A sheet is not read against a card that is refused.
fn shown_json(shown: &Shown, sound: bool) -> Json {
    let Drawn { bytes, fields, .. } = &shown.drawn;
    let field = |field: &Field| {
        object()
            .with("offset", field.at)
            .with("bytes", field.hex(bytes))
            .with("part", field.part.word())
            .with("index", field.part.index())
            .with("field", field.name)
            .with("value", field.value.as_str())
            .with("note", Some(field.note.as_str()).filter(|note| !note.is_empty()))
    };
    let begin = object().with("is", shown.of).with("file", shown.file.as_str()).with("size", bytes.len());
    let begin = begin.with("fields", Json::list(fields.iter().map(field)));
    match &shown.refusal {
        Some((refusal, why)) => refusal_json(begin, *refusal, why, shown.of),
        None if shown.of == "card" => begin.with("answer", "sound"),
        None => begin.with("answer", if sound { "accepted" } else { "not read" }),
    }
}

/// `kit tree`
pub fn tree(options: &Options, names: &Names) -> Result<u8, Trouble> {
    let manner = manner(options, names);
    let file = label(&options.files[0]);
    let bytes = read(&options.files[0])?;
    let sheet = options.files.get(1).map(|file| read(file)).transpose()?;
    let told = match &sheet {
        Some(sheet) => {
            let (name, both) = (label(&options.files[1]), format!("{file} {}", label(&options.files[1])));
            ask::read(&both, (&file, &bytes), (&name, sheet), manner)
        }
        None => ask::plan(&file, &bytes, manner),
    };
    if told.tally != Tally::Good {
        return not_drawn(options, told);
    }
    let given = sheet.is_some();
    let sheet = sheet.or(told.sheet).unwrap_or_default();
    let card = Sound::checked(&bytes).map_err(|found| Trouble::new(&file, found))?;
    let Walk { taken, end } = walk(card, &sheet[5..5 + usize::from(sheet[3])]);
    let way = end.map_err(|stopped| Trouble::new(&file, format!("the walk stopped: {stopped:?}")))?;
    let tree = Tree { card, taken: &taken, way: &way, names };
    let title = format!("{file}: {}", count(taken.len(), "step"));
    let text = if options.has("--svg") {
        tree.svg(&title)
    } else if options.has("--dot") {
        tree.dot()
    } else if options.has("--json") {
        let answer = if given { "accepted" } else { "planned" };
        let begin = about(&file).with("sheet", options.files.get(1).map(|file| label(file)));
        format!("{}\n", begin.with("answer", answer).with("k", taken.len()).with("way", tree.json()))
    } else {
        tree.text(manner.paint)
    };
    put(options, &text)?;
    Ok(0)
}

/// A refusal goes to standard output; the file that `-o` names is not written.
fn not_drawn(options: &Options, told: Told) -> Result<u8, Trouble> {
    let text = if options.has("--json") { format!("{}\n", told.json) } else { told.long };
    print(text.as_bytes())?;
    Ok(told.tally.status())
}
