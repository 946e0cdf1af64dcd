//! `kit`: see, write, check and explain cards.
use desk::args::{self, Asked};
use desk::files::{end, print, Trouble};
use desk::{commands, help};
use std::env;
use std::io::{self, Write};
use std::process::exit;

fn asked() -> Result<u8, Trouble> {
    match args::parse(env::args_os().skip(1).collect()) {
        Err(words) => Err(Trouble(format!("kit: {words}; kit --help tells how\n"))),
        Ok(Asked::Help(command)) => print(help::page(command).as_bytes()).map(|()| 0),
        Ok(Asked::Version) => print(format!("kit {}\n", kit_planner::VERSION).as_bytes()).map(|()| 0),
        Ok(Asked::Run(options)) => commands::run(&options),
    }
}

fn main() {
    let status = asked().unwrap_or_else(|Trouble(words)| {
        let _ = io::stderr().write_all(words.as_bytes());
        2
    });
    end();
    exit(i32::from(status));
}
