//! The wrapper and the status alone: one message or one set of figures in each line, one answer in each line.

use crate::benchfile::{Event, InAnswer, Offers, OutAnswer};
use crate::device::{Device, command_status};
use crate::lines::{self, from_hex};
use crate::show;
use usbd_storage::transport::bbb::BulkOnly;

const PACKET_SIZE: u16 = 64;
const MAX_LUN: u8 = 15;
const BUFFER: usize = 64;

/// What a new device makes of the message, which it reads in one poll.
pub fn parse(line: &str) -> String {
    let message = from_hex(line);
    assert_eq!(message.len(), 31, "not a message of 31 bytes: {line}");
    let allocator = lines::allocator();
    let mut device = Device::create(&allocator, PACKET_SIZE, MAX_LUN, BUFFER as u32)
        .expect("all of it is in the domain");
    device.apply(&Event::Poll(Offers {
        in_answer: InAnswer::Busy,
        out: [OutAnswer::Packet(message), OutAnswer::Busy],
    }));
    let figures = device.figures();
    let mut text = String::new();
    match figures.state {
        1 => text.push_str("invalid"),
        4 | 5 | 7 => show::wrapper(&mut text, &figures),
        state => panic!("LOUD: state {state} behind a whole message"),
    }
    text
}

/// The 13 bytes for tag, length, figure and status byte.
pub fn status(line: &str) -> String {
    let Some((tag, length, figure, byte)) = numbers(line) else {
        panic!("not a line of tag, length, figure and status byte: {line}");
    };
    // Rule 12: a status byte above 2. The Rust has no value for it.
    let Some(status) = command_status(byte) else {
        return "12".to_string();
    };
    let allocator = lines::allocator();
    let mut transport = BulkOnly::new(&allocator, PACKET_SIZE, MAX_LUN, vec![0; BUFFER])
        .expect("all of it is in the domain");
    let mut text = String::new();
    lines::hex(&mut text, &transport.peek_csw(tag, length, status, figure));
    text
}

fn numbers(line: &str) -> Option<(u32, u32, u32, u8)> {
    let words: Vec<&str> = line.split(' ').collect();
    let [tag, length, figure, byte] = words[..] else {
        return None;
    };
    Some((
        tag.parse().ok()?,
        length.parse().ok()?,
        figure.parse().ok()?,
        byte.parse().ok()?,
    ))
}
