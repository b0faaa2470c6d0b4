//! `judge/oracle/buffer-ops`: buffer.rs alone under random operations, written down so that another
//! program can replay them and compare. judge/oracle/README.md has the two forms.

use crate::lines::hex_or_dash;
use crate::rng::Rng;
use std::fmt::Write as _;
use std::fs::File;
use std::io::{self, BufWriter, Write};
use usbd_storage::transport::bbb::peek::Buffer;

const NAMES: [&str; 8] = [
    "new",
    "write",
    "write_all",
    "read",
    "fill_up_to",
    "clean",
    "write_all of a busy endpoint",
    "shift",
];
const LONGEST_BUFFER: usize = 80;
/// What a destination holds before a read.
const UNTOUCHED: u8 = 0xEE;

enum Operation {
    New { content: Vec<u8> },
    Write { source: Vec<u8> },
    WriteAll { max_count: usize, source: Vec<u8> },
    Read { room: usize },
    FillUpTo { value: u8, up_to: usize },
    Clean,
    WriteAllBusy { max_count: usize },
    Shift,
}

enum NotWritten {
    Overflow,
    Busy,
}

/// What one operation showed.
#[derive(Default)]
struct Shown {
    overflow: bool,
    /// Bytes taken, read or filled; for an overflow the bytes of room that were missing.
    count: usize,
    destination: Option<Vec<u8>>,
}

#[derive(Default)]
struct Totals {
    operations: [usize; 8],
    moves: usize,
    overflows: usize,
}

pub fn command(seed: u64, count: usize, operations: &str, results: &str) -> io::Result<()> {
    let mut rng = Rng::new(seed);
    let mut operations = BufWriter::new(File::create(operations)?);
    let mut results = BufWriter::new(File::create(results)?);
    let mut totals = Totals::default();
    let mut buffer = Buffer::new(Vec::new());
    for index in 0..count {
        let operation = match index {
            0 => new_buffer(&mut rng),
            _ => choose(&buffer, &mut rng),
        };
        operations.write_all(&encode(&operation))?;
        let (read_before, write_before) = buffer.peek_marks();
        let shown = apply(&mut buffer, &operation);
        results.write_all(line(&operation, &shown, &buffer).as_bytes())?;

        totals.operations[usize::from(number(&operation))] += 1;
        totals.overflows += usize::from(shown.overflow);
        let set_back = matches!(operation, Operation::New { .. } | Operation::Clean);
        let moved = buffer.peek_marks().0 < read_before && read_before < write_before;
        totals.moves += usize::from(moved && !set_back);
    }
    operations.flush()?;
    results.flush()?;
    println!("{}", totals.text());
    Ok(())
}

impl Totals {
    fn text(&self) -> String {
        let counts = NAMES.iter().zip(self.operations);
        let mut text: String = counts
            .map(|(name, count)| format!("{name} {count}, "))
            .collect();
        let (moves, overflows) = (self.moves, self.overflows);
        write!(text, "moved unread bytes {moves}, overflowed {overflows}").expect("a string");
        text
    }
}

fn new_buffer(rng: &mut Rng) -> Operation {
    let any = rng.below(LONGEST_BUFFER + 1);
    let size = rng.pick(&[0, 1, 2, 7, 8, 13, 31, any, any, any]);
    Operation::New {
        content: rng.bytes(size),
    }
}

fn choose(buffer: &Buffer<Vec<u8>>, rng: &mut Rng) -> Operation {
    let amount = amount_near_a_limit(buffer, rng);
    match rng.below(40) {
        0 => new_buffer(rng),
        1 => Operation::Clean,
        2 | 3 => Operation::Shift,
        4..=12 => Operation::Write {
            source: rng.bytes(amount),
        },
        13..=20 => {
            let some = rng.below(amount + 1);
            let taken = rng.pick(&[amount, amount, 0, some]);
            Operation::WriteAll {
                max_count: amount,
                source: rng.bytes(taken),
            }
        }
        21..=24 => Operation::WriteAllBusy { max_count: amount },
        25..=28 => Operation::FillUpTo {
            value: rng.byte(),
            up_to: amount,
        },
        _ => {
            let (read, write) = buffer.peek_marks();
            let unread = write - read;
            let some = rng.below(unread + 1);
            Operation::Read {
                room: rng.pick(&[some, some, some, unread, unread + 1, 0, 1]),
            }
        }
    }
}

/// Amounts around the room after the write mark, the room once unread bytes are moved, and the whole.
fn amount_near_a_limit(buffer: &Buffer<Vec<u8>>, rng: &mut Rng) -> usize {
    let length = buffer.peek_bytes().len();
    let (read, write) = buffer.peek_marks();
    let behind = length - write;
    let moved = length - (write - read);
    let few = rng.below(9);
    rng.pick(&[
        0,
        few,
        few,
        behind.saturating_sub(1),
        behind,
        behind + 1,
        moved.saturating_sub(1),
        moved,
        moved + 1,
        length + few,
    ])
}

fn apply(buffer: &mut Buffer<Vec<u8>>, operation: &Operation) -> Shown {
    match operation {
        Operation::New { content } => {
            *buffer = Buffer::new(content.clone());
            Shown::default()
        }
        Operation::Write { source } => Shown {
            count: buffer.write(source),
            ..Shown::default()
        },
        Operation::WriteAll { max_count, source } => {
            let written = buffer.write_all(*max_count, NotWritten::Overflow, |lent| {
                assert_eq!(lent.len(), *max_count, "LOUD: lent another length");
                lent[..source.len()].copy_from_slice(source);
                Ok(source.len())
            });
            all_or_none(buffer, *max_count, written)
        }
        Operation::WriteAllBusy { max_count } => {
            let written =
                buffer.write_all(*max_count, NotWritten::Overflow, |_| Err(NotWritten::Busy));
            all_or_none(buffer, *max_count, written)
        }
        Operation::Read { room } => {
            let mut destination = vec![UNTOUCHED; *room];
            let read = buffer.read(|unread| {
                let count = destination.len().min(unread.len());
                destination[..count].copy_from_slice(&unread[..count]);
                Ok::<usize, std::convert::Infallible>(count)
            });
            let Ok(count) = read;
            Shown {
                count,
                destination: Some(destination),
                ..Shown::default()
            }
        }
        Operation::FillUpTo { value, up_to } => {
            let before = buffer.available_read();
            buffer.fill_up_to(*value, *up_to);
            Shown {
                // A move keeps the number of unread bytes, so any more unread bytes were filled.
                count: buffer.available_read() - before,
                ..Shown::default()
            }
        }
        Operation::Clean => {
            buffer.clean();
            Shown::default()
        }
        Operation::Shift => {
            buffer.peek_shift();
            Shown::default()
        }
    }
}

/// What a `write_all` showed that wanted room for this many bytes.
fn all_or_none(
    buffer: &Buffer<Vec<u8>>,
    wanted: usize,
    written: Result<usize, NotWritten>,
) -> Shown {
    let (overflow, count) = match written {
        Ok(count) => (false, count),
        Err(NotWritten::Busy) => (false, 0),
        Err(NotWritten::Overflow) => (true, buffer.peek_missing(wanted)),
    };
    Shown {
        overflow,
        count,
        ..Shown::default()
    }
}

fn number(operation: &Operation) -> u8 {
    match operation {
        Operation::New { .. } => 0,
        Operation::Write { .. } => 1,
        Operation::WriteAll { .. } => 2,
        Operation::Read { .. } => 3,
        Operation::FillUpTo { .. } => 4,
        Operation::Clean => 5,
        Operation::WriteAllBusy { .. } => 6,
        Operation::Shift => 7,
    }
}

fn encode(operation: &Operation) -> Vec<u8> {
    let mut bytes = vec![number(operation)];
    let mut number = |number: usize| bytes.extend((number as u32).to_le_bytes());
    match operation {
        Operation::New { content: counted } | Operation::Write { source: counted } => {
            number(counted.len());
            bytes.extend(counted);
        }
        Operation::WriteAll { max_count, source } => {
            number(*max_count);
            number(source.len());
            bytes.extend(source);
        }
        Operation::Read { room } => number(*room),
        Operation::FillUpTo { value, up_to } => {
            bytes.push(*value);
            bytes.extend((*up_to as u32).to_le_bytes());
        }
        Operation::WriteAllBusy { max_count } => number(*max_count),
        Operation::Clean | Operation::Shift => {}
    }
    bytes
}

fn line(operation: &Operation, shown: &Shown, buffer: &Buffer<Vec<u8>>) -> String {
    let (read, write) = buffer.peek_marks();
    let mut text = format!(
        "{} {} {} {read} {write} ",
        number(operation),
        u8::from(shown.overflow),
        shown.count
    );
    hex_or_dash(&mut text, buffer.peek_bytes());
    if let Some(destination) = &shown.destination {
        text.push(' ');
        hex_or_dash(&mut text, destination);
    }
    text.push('\n');
    text
}
