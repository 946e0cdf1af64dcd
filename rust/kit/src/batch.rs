//! Many cards at once, told in the order given.
use crate::files::Trouble;
use std::io::{self, IsTerminal, Write};
use std::panic::{catch_unwind, AssertUnwindSafe};
use std::sync::atomic::{AtomicU8, AtomicUsize, Ordering};
use std::sync::mpsc::{channel, Receiver, RecvTimeoutError, Sender};
use std::sync::Arc;
use std::thread;
use std::time::{Duration, Instant};

/// A card that takes longer no longer counts among those at a time, and the progress is told.
const LONG: Duration = Duration::from_secs(1);
/// Whatever is set aside, there are no more threads than this.
const THREADS: usize = 256;
/// Letters of the progress line, so that it stays one line.
const WIDTH: usize = 78;
/// The planner takes 461 KB of it on the deepest cards.
const STACK: usize = 4 << 20;

/// A card is begun; or ended, with its result and whether its worker has stopped too.
enum News<T> {
    Begun(usize),
    Ended(usize, Option<T>, bool),
}

type Work<T> = dyn Fn(usize) -> T + Send + Sync;

/// What the workers share: the next card's index, and what has become of each card.
struct Queue<T> {
    work: Arc<Work<T>>,
    next: AtomicUsize,
    states: Vec<AtomicU8>,
}

/// A card's states: begun or waiting, set aside while it runs, ended.
const PLAIN: u8 = 0;
const ASIDE: u8 = 1;
const ENDED: u8 = 2;

impl<T> Queue<T> {
    /// Takes card after card, and stops behind one that was set aside: another worker has begun in its stead.
    fn serve(&self, news: &Sender<News<T>>) {
        loop {
            let i = self.next.fetch_add(1, Ordering::Relaxed);
            if i >= self.states.len() || news.send(News::Begun(i)).is_err() {
                return;
            }
            let done = catch_unwind(AssertUnwindSafe(|| (self.work)(i))).ok();
            let aside = self.states[i].swap(ENDED, Ordering::AcqRel) == ASIDE;
            if news.send(News::Ended(i, done, aside)).is_err() || aside {
                return;
            }
        }
    }
}

/// A card being worked on.
struct Running {
    i: usize,
    since: Instant,
}

/// The main thread's view.
struct Desk<'a, T> {
    queue: Arc<Queue<T>>,
    news: (Sender<News<T>>, Receiver<News<T>>),
    running: Vec<Running>,
    threads: usize,
    progress: Progress<'a>,
}

/// Does the work for each index below the count, so many at a time, and hands each result on in order.
pub fn run<T: Send + 'static>(
    count: usize,
    jobs: usize,
    work: Arc<Work<T>>,
    label: &dyn Fn(usize) -> String,
    mut told: impl FnMut(usize, Option<T>) -> Result<(), Trouble>,
) -> Result<(), Trouble> {
    let states = (0..count).map(|_| AtomicU8::new(PLAIN)).collect();
    let queue = Arc::new(Queue { work, next: AtomicUsize::new(0), states });
    let progress =
        Progress { next: Instant::now() + LONG, label, shown: false, terminal: io::stderr().is_terminal() };
    let mut desk = Desk { queue, news: channel(), running: Vec::new(), threads: 0, progress };
    for _ in 0..jobs.min(count) {
        match desk.begin() {
            Err(trouble) if desk.threads == 0 => return Err(trouble),
            Err(_) => break,
            Ok(()) => {}
        }
    }
    let mut results: Vec<Option<Option<T>>> = (0..count).map(|_| None).collect();
    let mut next = 0;
    while next < count {
        match desk.news.1.recv_timeout(Duration::from_millis(100)) {
            Ok(News::Begun(i)) => desk.running.push(Running { i, since: Instant::now() }),
            Ok(News::Ended(i, done, stopped)) => {
                desk.running.retain(|running| running.i != i);
                desk.threads -= usize::from(stopped);
                results[i] = Some(done);
            }
            Err(RecvTimeoutError::Timeout) => {}
            Err(RecvTimeoutError::Disconnected) => unreachable!("the desk holds a sender"),
        }
        while next < count && results[next].is_some() {
            desk.progress.clear();
            told(next, results[next].take().expect("it is there"))?;
            next += 1;
        }
        desk.set_aside()?;
        desk.progress.tell(next, count, &desk.running);
    }
    desk.progress.clear();
    Ok(())
}

impl<T: Send + 'static> Desk<'_, T> {
    /// One more worker.
    fn begin(&mut self) -> Result<(), Trouble> {
        let (queue, news) = (self.queue.clone(), self.news.0.clone());
        let started = thread::Builder::new().stack_size(STACK).spawn(move || queue.serve(&news));
        started.map_err(|error| Trouble::new("a thread", error))?;
        self.threads += 1;
        Ok(())
    }

    /// Another worker for each card that takes long, as long as cards wait.
    fn set_aside(&mut self) -> Result<(), Trouble> {
        for i in 0..self.running.len() {
            let Running { i: card, since } = self.running[i];
            let queue = &self.queue;
            let waiting = queue.next.load(Ordering::Relaxed) < queue.states.len() && self.threads < THREADS;
            let long = waiting && since.elapsed() > LONG;
            let turn =
                |state: &AtomicU8| state.compare_exchange(PLAIN, ASIDE, Ordering::AcqRel, Ordering::Acquire);
            if long && turn(&queue.states[card]).is_ok() {
                self.begin()?;
            }
        }
        Ok(())
    }
}

/// A line on a terminal's standard error.
struct Progress<'a> {
    next: Instant,
    label: &'a dyn Fn(usize) -> String,
    shown: bool,
    terminal: bool,
}

impl Progress<'_> {
    fn tell(&mut self, done: usize, count: usize, running: &[Running]) {
        let now = Instant::now();
        if !self.terminal || now < self.next {
            return;
        }
        self.next = now + Duration::from_millis(100);
        let longest = running.iter().max_by_key(|running| running.since.elapsed());
        let longest = longest.map_or(String::new(), |r| {
            format!(", {} s with {}", r.since.elapsed().as_secs(), (self.label)(r.i))
        });
        let line: String = format!("kit: {done} of {count} told{longest}").chars().take(WIDTH).collect();
        let _ = write!(io::stderr(), "\r\x1b[K{line}");
        self.shown = true;
    }

    fn clear(&mut self) {
        if self.shown {
            let _ = write!(io::stderr(), "\r\x1b[K");
            self.shown = false;
        }
    }
}
