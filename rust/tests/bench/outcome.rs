//! What an event showed, in the terms of a bench line, and that line.

use souklavanh::ScsiCommand;
use std::fmt::Write;

#[derive(Clone, PartialEq, Eq, Debug)]
pub struct Outcome {
    pub answer: u8,
    /// The endpoint's error number; only with answer 7.
    pub carried: Option<u8>,
    pub count: usize,
    pub stalls: &'static str,
    pub bytes: Vec<u8>,
    /// Bytes of room that are missing; 0 with every answer but 1.
    pub missing: usize,
    /// What a command step decoded.
    pub command: Option<ScsiCommand>,
}

impl Outcome {
    pub fn answered(answer: u8) -> Outcome {
        Outcome {
            answer,
            carried: None,
            count: 0,
            stalls: "-",
            bytes: Vec::new(),
            missing: 0,
            command: None,
        }
    }

    /// The line, for the figures after the event.
    pub fn line(&self, index: usize, state: u8, left: u32, unread: u32) -> String {
        let Outcome {
            answer,
            count,
            stalls,
            ..
        } = self;
        let mut line = format!("{index} {answer} {state} {left} {unread} {count} {stalls} ");
        if self.bytes.is_empty() {
            line.push('-');
        }
        for byte in &self.bytes {
            write!(line, "{byte:02x}").expect("a string");
        }
        writeln!(line, " {}", self.missing).expect("a string");
        line
    }
}
