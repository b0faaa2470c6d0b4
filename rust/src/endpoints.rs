//! What a poll is told about the endpoints, and what it reports.

use crate::answer::Error;
use crate::ffi;

/// The number of an endpoint's error: 2 to 255. 0 and 1 are not errors: 0 is an endpoint that does its part, 1 a busy one.
#[derive(Clone, Copy, PartialEq, Eq, Debug)]
pub struct EndpointError(u8);

impl EndpointError {
    pub const fn new(number: u8) -> Option<EndpointError> {
        match number {
            0 | 1 => None,
            _ => Some(EndpointError(number)),
        }
    }

    pub const fn number(self) -> u8 {
        self.0
    }
}

/// What the OUT endpoint would answer to one read.
#[derive(Clone, Copy, PartialEq, Eq, Debug)]
pub enum Out<'p> {
    /// A packet of 0 bytes up to the packet size.
    Packet(&'p [u8]),
    Busy,
    Error(EndpointError),
}

/// What the IN endpoint would answer to one write.
#[derive(Clone, Copy, PartialEq, Eq, Debug)]
pub enum In {
    /// It takes a whole packet.
    Accepts,
    Busy,
    Error(EndpointError),
}

/// What the endpoints would answer during one poll: the OUT endpoint to a first and a second read, IN to a write.
#[derive(Clone, Copy, PartialEq, Eq, Debug)]
pub struct Endpoints<'p> {
    pub out: [Out<'p>; 2],
    pub r#in: In,
}

impl<'p> Endpoints<'p> {
    /// The host has sent this packet and no other, and IN takes one.
    pub fn offering(packet: &'p [u8]) -> Endpoints<'p> {
        Endpoints {
            out: [Out::Packet(packet), Out::Busy],
            r#in: In::Accepts,
        }
    }

    /// The host has sent nothing, and IN takes a packet.
    pub fn silent() -> Endpoints<'static> {
        Endpoints {
            out: [Out::Busy, Out::Busy],
            r#in: In::Accepts,
        }
    }

    pub(crate) fn turn(self) -> ffi::Turn<'p> {
        let [(first, one), (second, two)] = self.out.map(Out::parts);
        ffi::Turn {
            one,
            two,
            first,
            second,
            write: self.r#in.number(),
        }
    }
}

impl<'p> Out<'p> {
    fn parts(self) -> (u8, &'p [u8]) {
        match self {
            Out::Packet(packet) => (0, packet),
            Out::Busy => (1, &[]),
            Out::Error(error) => (error.0, &[]),
        }
    }
}

impl In {
    fn number(self) -> u8 {
        match self {
            In::Accepts => 0,
            In::Busy => 1,
            In::Error(error) => error.0,
        }
    }
}

/// What you must do to both endpoints, now and in this order.
#[derive(Clone, Copy, PartialEq, Eq, Debug)]
#[repr(u8)]
pub enum Stalls {
    Kept = 0,
    Stalled = 1,
    Unstalled = 2,
    UnstalledStalled = 3,
}

impl Stalls {
    pub(crate) fn from_number(number: u8) -> Stalls {
        match number {
            0 => Stalls::Kept,
            1 => Stalls::Stalled,
            2 => Stalls::Unstalled,
            3 => Stalls::UnstalledStalled,
            _ => unreachable!("there are no stalls {number}"),
        }
    }
}

/// What a poll did. Do all of it at the endpoints, even if the result is an error.
#[must_use]
#[derive(Clone, Copy, PartialEq, Eq, Debug)]
pub struct Poll {
    pub result: Result<(), Error>,
    /// OUT packets taken, of those offered: 0, 1 or 2.
    pub taken: u8,
    /// How many bytes to send. They are at the front of the packet buffer; 0 means no packet.
    pub sent: usize,
    pub stalls: Stalls,
}

impl Poll {
    pub(crate) fn from_word(word: ffi::Word) -> Poll {
        Poll {
            result: Error::from_number(word.answer().into(), word.carried(), word.missing()),
            taken: word.flag(),
            sent: word.count() as usize,
            stalls: Stalls::from_number(word.stalls()),
        }
    }
}
