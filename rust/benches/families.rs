//! Times of the planner by families of cards: `cargo bench --offline --bench families`. Beside those of an earlier
//! commit's planner where tests/bench-against.sh built it in.
mod archives;
#[path = "../tests/cards/mod.rs"]
mod cards;
#[path = "../tests/families/mod.rs"]
mod families;

use archives::{all_choose, only_one_way, Answer, Archive, Asked, ARCHIVES, ROOM};
use families::choices::CHOOSING;
use families::dones::DONES;
use families::{Family, FAMILIES, HARD};
use std::hint::black_box;
use std::time::{Duration, Instant};

/// A card without an answer in this time is not timed.
const LIMIT: Duration = Duration::from_secs(1);
/// Places on the stack at which each planner is timed, and how often at each.
const PLACES: usize = 64;
const TURNS: usize = 5;

/// Times of one call in nanoseconds, one for each archive, none where it does not answer; and now by before.
struct Times {
    each: Vec<Option<f64>>,
    ratio: Option<f64>,
}

impl Times {
    fn now(&self) -> Option<f64> {
        self.each[ARCHIVES.len() - 1]
    }
}

fn main() {
    archives::serve();
    println!("{}", about());
    let mut asked: Vec<Asked> = (0..ARCHIVES.len()).map(Asked::start).collect();
    let rows = table(&mut asked, FAMILIES);
    println!("\nHard cards, not up to full size:\n");
    let hard = table(&mut asked, HARD);
    println!("\nCards with many \"done\"s:\n");
    let dones = table(&mut asked, DONES);
    println!("\nCards with choices:\n");
    let choosing = match all_choose() {
        true => table(&mut asked, CHOOSING),
        false => Vec::new(),
    };
    if choosing.is_empty() {
        println!("The planner before does not know them.");
    }
    summary(&[&rows, &hard, &dones, &choosing]);
}

/// A card of a family, the times of its planning and, where it is planned, of the reading of its sheet.
type Row = (&'static Family, usize, Times, Option<Times>);

/// Prints the times of the families' cards.
fn table(asked: &mut [Asked], families: &'static [Family]) -> Vec<Row> {
    let mut rows = Vec::new();
    print_head();
    for family in families {
        let mut last = None;
        for &n in family.sizes {
            let card = (family.card)(n).bytes();
            let answers: Vec<Option<Answer>> = asked.iter_mut().map(|a| a.ask(&card, LIMIT)).collect();
            check(family, n, &answers);
            let planning = times(&card, &mut vec![0; ROOM], &answers, Archive::plan);
            print_row(family, n, &answers, &planning, last);
            last = planning.now().map(|t| (n, t));
            let reading = answers.iter().flatten().next().and_then(|a| reading_times(&card, a, &answers));
            rows.push((family, n, planning, reading));
        }
    }
    rows
}

/// The times of the reading of the card's sheet, if it has one, and the same of both planners; both readers accept it.
fn reading_times(card: &[u8], answer: &Answer, answers: &[Option<Answer>]) -> Option<Times> {
    if answer.number >> 24 != 0 || answers.iter().flatten().any(|other| other.sheet != answer.sheet) {
        return None;
    }
    let length = u16::from_be_bytes([answer.sheet[0], answer.sheet[1]]);
    let mut sheet = answer.sheet[..usize::from(length)].to_vec();
    ARCHIVES.iter().for_each(|archive| assert_eq!(archive.read(card, &sheet), answer.number));
    Some(times(card, &mut sheet, answers, |archive, card, sheet| archive.read(card, sheet)))
}

fn about() -> String {
    let before = if ARCHIVES.len() > 1 {
        "\"before\" is the planner of the earlier commit, \"now\" that of this tree. They take turns, and \"ratio\" is the\n\
         geometric mean of now by before over the places."
    } else {
        "\"now\" is the planner of this tree."
    };
    format!(
        "{before}\n\
         Each time is that of one call, from the card's bytes to the sheet: the least of {TURNS} turns at each of {PLACES}\n\
         places on the stack (one where a call takes over 5 ms), and of these the geometric mean. A turn is as many\n\
         calls as take the slower about 50 us, at least one. \"power\" is the power of n by which the time grew since the\n\
         row above. Each planner is first asked in a process of its own, which is ended where it has no answer in {} s.\n",
        LIMIT.as_secs()
    )
}

/// The answers are what the family says, and alike.
fn check(family: &Family, n: usize, answers: &[Option<Answer>]) {
    for answer in answers.iter().flatten() {
        let planned = answer.number >> 24 == 0;
        assert!(planned || answer.number >> 24 == 11, "{} {n}: {:08x}", family.name, answer.number);
        assert_eq!(planned, family.planned, "{} {n}", family.name);
    }
    if let [Some(a), Some(b)] = answers {
        let alike = a.sheet == b.sheet || only_one_way(&a.sheet, &b.sheet);
        assert!(a.number == b.number && alike, "{} {n}: the answers differ", family.name);
    }
}

/// The time of one call of each archive that answers. Where the stack begins sets how its cells fall on lines and pages, which can make a call
/// a quarter slower; so all are timed at many places.
fn times(card: &[u8], sheet: &mut [u8], answers: &[Option<Answer>], call: Call) -> Times {
    let answering: Vec<usize> = (0..answers.len()).filter(|&i| answers[i].is_some()).collect();
    // the second call is warm, and says how many there are to a turn
    let mut warm = |i: &usize| [(); 2].map(|()| turn(ARCHIVES[*i], call, card, sheet, 1))[1];
    let once: Vec<f64> = answering.iter().map(&mut warm).collect();
    let calls = once.iter().map(|&ns| (50_000.0 / ns.max(1.0)).ceil() as usize).min().unwrap_or(0);
    let places = if once.iter().any(|&ns| ns > 5e6) { 1 } else { PLACES };
    let mut found: Vec<Vec<f64>> = vec![Vec::new(); answers.len()];
    for place in 0..places {
        deeper(place, &mut || {
            for (i, least) in least_of_turns(&answering, call, card, sheet, calls) {
                found[i].push(least);
            }
        });
    }
    let ratio = match &found[..] {
        [before, now] => mean(now.iter().zip(before).map(|(n, b)| n / b)),
        _ => None,
    };
    Times { each: found.into_iter().map(|times| mean(times.into_iter())).collect(), ratio }
}

/// The least time of each archive at this place, by turns: what is more was disturbed.
fn least_of_turns(
    answering: &[usize],
    call: Call,
    card: &[u8],
    sheet: &mut [u8],
    calls: usize,
) -> Vec<(usize, f64)> {
    let mut least: Vec<(usize, f64)> = answering.iter().map(|&i| (i, f64::INFINITY)).collect();
    for _ in 0..TURNS {
        for (i, time) in &mut least {
            *time = time.min(turn(ARCHIVES[*i], call, card, sheet, calls));
        }
    }
    least
}

/// Calls the function so many frames of some hundred bytes further down the stack.
#[inline(never)]
fn deeper(frames: usize, f: &mut dyn FnMut()) {
    let frame = black_box([0u8; 208]);
    match frames {
        0 => f(),
        _ => deeper(frames - 1, f),
    }
    black_box(&frame);
}

/// A call of an archive that is timed.
type Call = fn(Archive, &[u8], &mut [u8]) -> u32;

fn turn(archive: Archive, call: Call, card: &[u8], sheet: &mut [u8], calls: usize) -> f64 {
    let start = Instant::now();
    for _ in 0..calls {
        black_box(call(archive, black_box(card), sheet));
    }
    start.elapsed().as_nanos() as f64 / calls as f64
}

/// The geometric mean, if there is anything.
fn mean(values: impl Iterator<Item = f64>) -> Option<f64> {
    let logs: Vec<f64> = values.map(f64::ln).collect();
    (!logs.is_empty()).then(|| (logs.iter().sum::<f64>() / logs.len() as f64).exp())
}

fn time(ns: Option<f64>) -> String {
    match ns {
        None => format!("none in {} s", LIMIT.as_secs()),
        Some(ns) if ns < 10_000.0 => format!("{ns:.0} ns"),
        Some(ns) if ns < 10_000_000.0 => format!("{:.0} us", ns / 1e3),
        Some(ns) => format!("{:.0} ms", ns / 1e6),
    }
}

fn print_head() {
    let before = if ARCHIVES.len() > 1 { format!("{:>13}", "before") } else { String::new() };
    let ratio = if ARCHIVES.len() > 1 { format!("{:>9}", "ratio") } else { String::new() };
    println!("{:<30}{:>4}  {:<12}{before}{:>13}{ratio}{:>7}", "family", "n", "answer", "now", "power");
}

fn print_row(
    family: &Family,
    n: usize,
    answers: &[Option<Answer>],
    times: &Times,
    last: Option<(usize, f64)>,
) {
    let answer = match answers.iter().flatten().next() {
        None => "none".to_string(),
        Some(a) if a.number >> 24 == 0 => format!("{} steps", a.number),
        Some(a) => format!("refused {}", a.number >> 24),
    };
    let cells: String = times.each.iter().map(|&t| format!("{:>13}", time(t))).collect();
    let ratio = match times.ratio {
        Some(ratio) => format!("{ratio:>9.3}"),
        None if times.each.len() > 1 => format!("{:>9}", "-"),
        None => String::new(),
    };
    let power = match (last, times.now()) {
        (Some((m, before)), Some(now)) => format!("{:.1}", (now / before).ln() / (n as f64 / m as f64).ln()),
        _ => String::new(),
    };
    let mark = if family.straight { "*" } else { " " };
    println!("{:<29}{mark}{n:>4}  {answer:<12}{cells}{ratio}{power:>7}", family.name);
}

/// Ratios of these rows: their mean, the worst, and how many are above 1.05.
fn ratios(of: &str, rows: &[(&Row, Option<f64>)]) {
    let known: Vec<(f64, &Row)> = rows.iter().filter_map(|&(row, ratio)| Some((ratio?, row))).collect();
    if let (Some(mean), Some((worst, row))) =
        (mean(known.iter().map(|r| r.0)), known.iter().max_by(|a, b| a.0.total_cmp(&b.0)))
    {
        let above = known.iter().filter(|r| r.0 > 1.05).count();
        println!(
            "{of}: {} cards, geometric mean of the ratios {mean:.3}, worst {worst:.3} ({} {}), {above} above 1.05",
            known.len(),
            row.0.name,
            row.1
        );
    }
}

fn planning(row: &Row) -> (&Row, Option<f64>) {
    (row, row.2.ratio)
}

fn reading(row: &Row) -> (&Row, Option<f64>) {
    (row, row.3.as_ref().and_then(|times| times.ratio))
}

/// The families whose rows have a mean ratio above 1.02, and the one that has the greatest.
fn by_family(of: &str, rows: &[(&Row, Option<f64>)]) {
    let mut means: Vec<(f64, &str)> = rows
        .chunk_by(|a, b| a.0 .0.name == b.0 .0.name)
        .filter_map(|of| Some((mean(of.iter().filter_map(|row| row.1))?, of[0].0 .0.name)))
        .collect();
    means.sort_by(|a, b| b.0.total_cmp(&a.0));
    if let Some((worst, name)) = means.first() {
        let above = means.iter().filter(|m| m.0 > 1.02).count();
        println!(
            "{of}: {} families, the worst by its mean {worst:.3} ({name}), {above} above 1.02",
            means.len()
        );
        means.iter().take(above).for_each(|(ratio, name)| println!("  {name} {ratio:.3}"));
    }
}

/// The ratios of straight plans, of each table and by family, those of reading, and the cards that take longest now.
fn summary(tables: &[&[Row]; 4]) {
    let [rows, hard, dones, choosing] = tables;
    let all: Vec<&Row> = tables.iter().flat_map(|rows| rows.iter()).collect();
    println!();
    ratios("Straight plans (*)", &rows.iter().filter(|r| r.0.straight).map(planning).collect::<Vec<_>>());
    ratios("First two tables", &rows.iter().chain(*hard).map(planning).collect::<Vec<_>>());
    ratios("Many \"done\"s", &dones.iter().map(planning).collect::<Vec<_>>());
    ratios("Choices", &choosing.iter().map(planning).collect::<Vec<_>>());
    by_family("All tables", &all.iter().map(|&row| planning(row)).collect::<Vec<_>>());
    ratios("Reading the sheets", &all.iter().map(|&row| reading(row)).collect::<Vec<_>>());
    by_family("Reading the sheets", &all.iter().map(|&row| reading(row)).collect::<Vec<_>>());
    let slow: Vec<String> = rows
        .iter()
        .filter(|r| r.2.now().is_none_or(|t| t > 1e6))
        .map(|r| format!("{} {}", r.0.name, r.1))
        .collect();
    println!(
        "\n{} of {} cards of the first table take over 1 ms now{}",
        slow.len(),
        rows.len(),
        if slow.is_empty() { "." } else { ":" }
    );
    slow.iter().for_each(|card| println!("  {card}"));
}
