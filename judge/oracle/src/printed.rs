//! A bench file and the lines that some program printed for it. Nothing is run here.

use crate::benchfile::{self, Event, OutAnswer};
use crate::lines::hex_or_dash;
use std::fmt;

/// The fields of a line. The index and the bytes missing are tested; they and the stalls are not kept.
#[derive(Clone, PartialEq, Eq, Debug)]
pub struct Line {
    pub answer: u8,
    pub state: u8,
    pub left: u32,
    pub unread: usize,
    pub count: usize,
    pub bytes: Vec<u8>,
}

pub struct Step {
    pub event: Event,
    pub line: Line,
}

pub struct Printed {
    pub packet_size: usize,
    pub steps: Vec<Step>,
}

impl Printed {
    /// None if no device was made: the file is refused or empty, or the creation is refused. An error that says what is wrong
    /// if the text is not the output of `bench` for the file.
    pub fn new(file: &[u8], text: &str) -> Result<Option<Printed>, String> {
        let Ok(events) = benchfile::parse(file) else {
            return match text {
                "14\n" => Ok(None),
                _ => Err(format!("the file breaks a rule, and its text is {text:?}")),
            };
        };
        let lines = lines(text)?;
        let refused = matches!(&lines[..], [only] if only.answer != 0);
        if lines.len() != events.len() && !refused {
            let (lines, events) = (lines.len(), events.len());
            return Err(format!("{lines} lines for {events} events"));
        }
        let Some(Event::Create { packet_size, .. }) = events.first().filter(|_| !refused) else {
            return Ok(None);
        };
        Ok(Some(Printed {
            packet_size: usize::from(*packet_size),
            steps: events
                .into_iter()
                .zip(lines)
                .map(|(event, line)| Step { event, line })
                .collect(),
        }))
    }
}

impl Step {
    /// The OUT packets that a poll took, as the count of its line says.
    pub fn taken(&self) -> impl Iterator<Item = &[u8]> {
        let offered = match &self.event {
            Event::Poll(offers) => &offers.out[..],
            _ => &[],
        };
        offered
            .iter()
            .take(self.line.count)
            .filter_map(|answer| match answer {
                OutAnswer::Packet(packet) => Some(&packet[..]),
                OutAnswer::Busy | OutAnswer::Error(_) => None,
            })
    }

    /// The bytes that a poll sent. Those of other events' lines went to the firmware or over the control endpoint.
    pub fn sent(&self) -> &[u8] {
        match &self.event {
            Event::Poll(_) => &self.line.bytes,
            _ => &[],
        }
    }

    /// The bytes that the firmware put in, as the count of the line says.
    pub fn put(&self) -> &[u8] {
        match &self.event {
            Event::WriteData(source) | Event::TryWriteDataAll(source) => {
                &source[..self.line.count.min(source.len())]
            }
            _ => &[],
        }
    }
}

impl fmt::Display for Line {
    fn fmt(&self, to: &mut fmt::Formatter) -> fmt::Result {
        let Line {
            answer,
            state,
            left,
            unread,
            count,
            ..
        } = self;
        let mut bytes = String::new();
        hex_or_dash(&mut bytes, &self.bytes);
        write!(
            to,
            "answer {answer} state {state} left {left} unread {unread} count {count} bytes {bytes}"
        )
    }
}

fn lines(text: &str) -> Result<Vec<Line>, String> {
    let read = |(index, text): (usize, &str)| {
        line(index, text).ok_or_else(|| format!("this is no line of event {index}: {text}"))
    };
    text.lines().enumerate().map(read).collect()
}

fn line(index: usize, text: &str) -> Option<Line> {
    let words: Vec<&str> = text.split(' ').collect();
    let [at, answer, state, left, unread, count, _, bytes, missing] = words[..] else {
        return None;
    };
    let (answer, missing): (u8, usize) = (answer.parse().ok()?, missing.parse().ok()?);
    // Room is missing with answer 1, and with no other.
    if at.parse() != Ok(index) || (missing > 0) != (answer == 1) {
        return None;
    }
    Some(Line {
        answer,
        state: state.parse().ok()?,
        left: left.parse().ok()?,
        unread: unread.parse().ok()?,
        count: count.parse().ok()?,
        bytes: hex(bytes)?,
    })
}

fn hex(digits: &str) -> Option<Vec<u8>> {
    if digits == "-" {
        return Some(Vec::new());
    }
    if !digits.is_ascii() || !digits.len().is_multiple_of(2) {
        return None;
    }
    (0..digits.len())
        .step_by(2)
        .map(|at| u8::from_str_radix(&digits[at..at + 2], 16).ok())
        .collect()
}
