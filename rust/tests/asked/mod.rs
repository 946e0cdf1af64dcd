//! Planners asked in a process of their own, which is ended where it does not answer in time. That process is the
//! same program once more, whose `main` calls `serve` first.
#![allow(dead_code)]

use std::io::{self, Read, Write};
use std::process::{Child, Command, Stdio};
use std::sync::mpsc::{channel, Receiver, RecvTimeoutError};
use std::thread;
use std::time::{Duration, Instant};

/// Room for any card's sheet.
pub const ROOM: usize = 324;

/// What a planner answers, as a number, the sheet buffer afterwards, and how long one call took.
#[derive(Clone)]
pub struct Answer {
    pub number: u32,
    pub sheet: Vec<u8>,
    pub time: Duration,
}

const SERVE: &str = "answer-cards";

/// In a process that was started to answer, answers the cards of standard input and never returns. The call gets
/// the planner's number, the card and the sheet buffer.
pub fn serve(plan: impl Fn(usize, &[u8], &mut [u8]) -> u32) {
    let mut words = std::env::args().skip_while(|w| w != SERVE);
    let Some(which) = words.nth(1) else { return };
    let which = which.parse().expect("a planner's number");
    let (mut input, mut output) = (io::stdin().lock(), io::stdout().lock());
    let mut size = [0; 2];
    while input.read_exact(&mut size).is_ok() {
        let mut card = vec![0; usize::from(u16::from_be_bytes(size))];
        input.read_exact(&mut card).expect("a whole card");
        let mut sheet = vec![0xee; ROOM];
        let start = Instant::now();
        let number = plan(which, &card, &mut sheet);
        let nanos = start.elapsed().as_nanos() as u64;
        let reply = [&number.to_be_bytes()[..], &nanos.to_be_bytes(), &sheet].concat();
        output.write_all(&reply).and_then(|()| output.flush()).expect("the answer is taken");
    }
    std::process::exit(0);
}

/// A process that answers for one planner.
pub struct Asked {
    which: usize,
    child: Child,
    answers: Receiver<Answer>,
}

impl Asked {
    pub fn start(which: usize) -> Asked {
        let program = std::env::current_exe().expect("the program's own path");
        let mut command = Command::new(program);
        command.args([SERVE, &which.to_string()]).stdin(Stdio::piped()).stdout(Stdio::piped());
        let mut child = command.spawn().expect("a process");
        let mut output = child.stdout.take().expect("its output");
        let (told, answers) = channel();
        thread::spawn(move || {
            let mut reply = [0; 12 + ROOM];
            while output.read_exact(&mut reply).is_ok() {
                let number = u32::from_be_bytes(reply[..4].try_into().expect("four bytes"));
                let nanos = u64::from_be_bytes(reply[4..12].try_into().expect("eight bytes"));
                let (sheet, time) = (reply[12..].to_vec(), Duration::from_nanos(nanos));
                if told.send(Answer { number, sheet, time }).is_err() {
                    return;
                }
            }
        });
        Asked { which, child, answers }
    }

    /// The answer to a card, or none in this time.
    pub fn ask(&mut self, card: &[u8], limit: Duration) -> Option<Answer> {
        let size = u16::try_from(card.len()).expect("a card's size").to_be_bytes();
        let input = self.child.stdin.as_mut().expect("its input");
        input.write_all(&[&size[..], card].concat()).and_then(|()| input.flush()).expect("it reads on");
        match self.answers.recv_timeout(limit) {
            Ok(answer) => Some(answer),
            Err(RecvTimeoutError::Timeout) => {
                *self = Asked::start(self.which); // the old one is ended
                None
            }
            Err(RecvTimeoutError::Disconnected) => panic!("the planner broke off at card {card:02x?}"),
        }
    }
}

impl Drop for Asked {
    fn drop(&mut self) {
        let _ = self.child.kill();
        let _ = self.child.wait();
    }
}
