//! The archive against the Rust, in one process: bench files go to both, and after every event everything is compared.
//! `judge/against/run` builds this program over the oracle's library and starts it.
//!
//!     vectors FOLDER          all good files of the folder; their lines are compared with those kept next to them
//!     random EVENTS [SEED]    files of the oracle's generator, 1,000 for each seed from SEED on (1 if none is given),
//!                             until at least EVENTS events are compared
//!     decode                  a decoded command for each line of hex digits on standard input, as `judge/oracle/run --decode`
//!     verdict                 the verdict's number for each line `max-LUN HEX`
//!
//! The Rust decodes as it was built, and our calls are told to do the same. A command step is also made as the file tells it; if the
//! Rust was built the other way, the command that it decodes then is compared with nothing of the Rust.
//!
//! A difference ends it with a message and status 1.

#[path = "../../rust/tests/bench/mod.rs"]
mod bench;
mod compare;
mod lines;
mod random;
mod vectors;
mod words;

use oracle::benchfile;
use std::process::ExitCode;

fn main() -> ExitCode {
    oracle::panics::install();
    let arguments: Vec<String> = std::env::args().skip(1).collect();
    let words: Vec<&str> = arguments.iter().map(String::as_str).collect();
    let done = match words[..] {
        ["vectors", folder] => vectors::compare_all(folder),
        ["random", events] => random::compare(events, "1"),
        ["random", events, seed] => random::compare(events, seed),
        ["decode"] => lines::answer(lines::decoded),
        ["verdict"] => lines::answer(lines::judged),
        _ => Err("unknown arguments; judge/against/run names them".to_string()),
    };
    match done {
        Ok(()) => ExitCode::SUCCESS,
        Err(what) => {
            eprintln!("against: {what}");
            ExitCode::FAILURE
        }
    }
}
