//! Files and standard streams. A file is written whole or not at all.
use std::collections::BTreeSet;
use std::ffi::{OsStr, OsString};
use std::fs::{self, File, OpenOptions};
use std::io::{self, Read, Write};
use std::path::{Path, PathBuf};
use std::sync::atomic::{AtomicBool, Ordering};
use std::sync::{Mutex, MutexGuard, PoisonError};

/// What stopped the program: one line for standard error, or the lines about a mistake in a text.
#[derive(Debug)]
pub struct Trouble(pub String);

impl Trouble {
    pub fn new(about: &str, error: impl std::fmt::Display) -> Trouble {
        Trouble(format!("kit: {about}: {error}\n"))
    }
}

/// A length field has two bytes, so no card or sheet of more is right: what stands behind is not read.
pub const MOST: usize = 65_536;
/// A longer text is refused. That of any card, drawn by its bytes, is shorter.
const MOST_TEXT: usize = 1 << 24;

/// What stands for standard input, or output.
pub fn is_stream(path: &OsStr) -> bool {
    path == "-"
}

/// Text without what would move a terminal.
pub fn plain(text: &str) -> String {
    text.chars().map(|c| if c.is_control() && c != '\t' { '\u{fffd}' } else { c }).collect()
}

/// The name of a file as it is told.
pub fn label(path: &OsStr) -> String {
    plain(&path.to_string_lossy())
}

/// The bytes of a card or sheet, 65,536 at most.
pub fn read(path: &OsStr) -> Result<Vec<u8>, Trouble> {
    read_most(path, MOST)
}

/// A text, whole.
pub fn read_text(path: &OsStr) -> Result<String, Trouble> {
    let bytes = read_most(path, MOST_TEXT + 1)?;
    if bytes.len() > MOST_TEXT {
        return Err(Trouble::new(&label(path), format!("a text has at most {MOST_TEXT} bytes")));
    }
    let text = String::from_utf8(bytes).map_err(|error| {
        let before = &error.as_bytes()[..error.utf8_error().valid_up_to()];
        let line = 1 + before.iter().filter(|&&b| b == b'\n').count();
        let column = 1 + String::from_utf8_lossy(before).chars().rev().take_while(|&c| c != '\n').count();
        Trouble(format!("{}:{line}:{column}: this is no UTF-8 text\n", label(path)))
    })?;
    // a mark that only tells the encoding is no part of it
    Ok(text.strip_prefix('\u{feff}').map(String::from).unwrap_or(text))
}

fn read_most(path: &OsStr, most: usize) -> Result<Vec<u8>, Trouble> {
    let mut bytes = Vec::new();
    let mut read = |from: &mut dyn Read| from.take(most as u64).read_to_end(&mut bytes);
    if is_stream(path) {
        opened(0, "standard input")?;
        read(&mut io::stdin().lock()).map_err(|error| Trouble::new("standard input", error))?;
    } else {
        let found = File::open(path).and_then(|mut file| read(&mut file));
        found.map_err(|error| Trouble::new(&label(path), error))?;
    }
    Ok(bytes)
}

static OPEN: [AtomicBool; 2] = [AtomicBool::new(true), AtomicBool::new(true)];

/// Runs before the standard library opens the null device where a standard stream is closed, which would go unseen.
extern "C" fn look() {
    extern "C" {
        fn fcntl(file: i32, command: i32, ...) -> i32;
    }
    const GET_FLAGS: i32 = 1;
    for (file, open) in (0..).zip(&OPEN) {
        // SAFETY: it only asks whether the file is open.
        let flags = unsafe { fcntl(file, GET_FLAGS) };
        open.store(flags >= 0, Ordering::Relaxed);
    }
}

#[used]
#[link_section = ".init_array"]
static LOOK: extern "C" fn() = look;

/// Standard input (0) or output (1), if it was open when the program began.
fn opened(file: usize, name: &str) -> Result<(), Trouble> {
    match OPEN[file].load(Ordering::Relaxed) {
        true => Ok(()),
        false => Err(Trouble::new(name, "it is closed")),
    }
}

/// Writes to standard output and flushes it.
pub fn print(bytes: &[u8]) -> Result<(), Trouble> {
    if bytes.is_empty() {
        return Ok(());
    }
    opened(1, "standard output")?;
    let mut out = io::stdout().lock();
    out.write_all(bytes).and_then(|()| out.flush()).map_err(|error| Trouble::new("standard output", error))
}

/// The files written beside their places and not put there yet; none once the program ends.
static BESIDE: Mutex<Option<BTreeSet<PathBuf>>> = Mutex::new(Some(BTreeSet::new()));

fn beside() -> MutexGuard<'static, Option<BTreeSet<PathBuf>>> {
    BESIDE.lock().unwrap_or_else(PoisonError::into_inner)
}

/// Before the program ends, whatever its threads do: what is not in its place is removed, and nothing more is written.
pub fn end() {
    for path in beside().take().into_iter().flatten() {
        let _ = fs::remove_file(path);
    }
}

/// A file written beside its place, and put there last. Dropped before that, it is removed.
pub struct Pending {
    beside: Option<PathBuf>,
    place: PathBuf,
}

impl Pending {
    /// Writes the bytes beside the place. A place that is there and no plain file, a device for one, is written at once.
    pub fn write(path: &OsStr, bytes: &[u8]) -> Result<Pending, Trouble> {
        let told = |error: io::Error| Trouble::new(&label(path), error);
        match fs::metadata(path) {
            Ok(found) if found.is_dir() => return Err(Trouble::new(&label(path), "it is a folder")),
            Ok(found) if !found.is_file() => {
                let file = OpenOptions::new().write(true).open(path);
                file.and_then(|mut file| file.write_all(bytes)).map_err(told)?;
                return Ok(Pending { beside: None, place: PathBuf::new() });
            }
            _ => {}
        }
        let place = place(path)?;
        let (file, beside) = create_beside(&place).map_err(told)?;
        let pending = Pending { beside: Some(beside), place };
        pending.fill(file, bytes).map_err(told)?;
        Ok(pending)
    }

    /// Who may read or write the file that stood there, and the bytes.
    fn fill(&self, mut file: File, bytes: &[u8]) -> io::Result<()> {
        if let Ok(found) = fs::metadata(&self.place) {
            file.set_permissions(found.permissions())?;
        }
        file.write_all(bytes)?;
        file.sync_all()
    }

    /// Puts it in its place.
    pub fn put(mut self) -> Result<(), Trouble> {
        let Some(path) = &self.beside else { return Ok(()) };
        let mut all = beside();
        let Some(all) = all.as_mut() else { return Err(Trouble("kit: the program ends\n".to_string())) };
        if let Err(error) = fs::rename(path, &self.place) {
            return Err(Trouble::new(&label(self.place.as_os_str()), error));
        }
        all.remove(path);
        self.beside = None;
        Ok(())
    }
}

impl Drop for Pending {
    fn drop(&mut self) {
        if let Some(path) = &self.beside {
            let _ = fs::remove_file(path);
            beside().as_mut().map(|all| all.remove(path));
        }
    }
}

/// Where a file is to stand: links are followed, whether or not they lead to something.
fn place(path: &OsStr) -> Result<PathBuf, Trouble> {
    let mut place = PathBuf::from(path);
    if path.is_empty() || path.as_encoded_bytes().ends_with(b"/") {
        return Err(Trouble(format!("kit: \"{}\" names no file\n", label(path))));
    }
    for _ in 0..40 {
        match fs::read_link(&place) {
            Ok(to) => place = place.parent().unwrap_or(Path::new("")).join(to),
            Err(_) => return Ok(place),
        }
    }
    Err(Trouble::new(&label(path), "too many links"))
}

/// A new file in the same folder.
fn create_beside(place: &Path) -> io::Result<(File, PathBuf)> {
    let mut all = beside();
    let all = all.as_mut().ok_or(io::ErrorKind::Interrupted)?;
    for attempt in 0..1000 {
        let beside = place.with_file_name(format!(".kit.{}.{attempt}", std::process::id()));
        match OpenOptions::new().write(true).create_new(true).open(&beside) {
            Err(error) if error.kind() == io::ErrorKind::AlreadyExists => continue,
            opened => {
                let file = opened?;
                all.insert(beside.clone());
                return Ok((file, beside));
            }
        }
    }
    Err(io::ErrorKind::AlreadyExists.into())
}

/// Writes a file whole, or prints it for `-`.
pub fn write(path: &OsStr, bytes: &[u8]) -> Result<(), Trouble> {
    if is_stream(path) {
        return print(bytes);
    }
    Pending::write(path, bytes)?.put()
}

/// What is written may be none of what is read.
pub fn apart<'a>(outputs: &[&OsString], inputs: impl Iterator<Item = &'a OsString>) -> Result<(), Trouble> {
    let there = |path: &&OsString| fs::canonicalize(path).ok().filter(|_| !is_stream(path));
    let read: BTreeSet<PathBuf> = inputs.filter_map(|path| there(&path)).collect();
    match outputs.iter().find(|path| there(path).is_some_and(|path| path.is_file() && read.contains(&path))) {
        Some(path) => Err(Trouble::new(&label(path), "it is read, so it cannot be written")),
        None => Ok(()),
    }
}

/// Whether it is a folder, and not standard input.
pub fn is_folder(path: &OsStr) -> bool {
    !is_stream(path) && Path::new(path).is_dir()
}

/// The files of a folder with this ending, in order of name.
pub fn files_in(folder: &OsStr, ending: &str) -> Result<Vec<PathBuf>, Trouble> {
    let told = |error: io::Error| Trouble::new(&label(folder), error);
    let mut found = Vec::new();
    for entry in fs::read_dir(folder).map_err(told)? {
        let path = entry.map_err(told)?.path();
        if path.extension() == Some(OsStr::new(ending)) && !path.is_dir() {
            found.push(path);
        }
    }
    found.sort();
    match found.is_empty() {
        true => Err(Trouble::new(&label(folder), format!("the folder has no file NAME.{ending}"))),
        false => Ok(found),
    }
}
