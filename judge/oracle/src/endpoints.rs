//! The bus behind the Rust's endpoints: it gives the answers that a poll was handed, notes what the
//! Rust did, and fails loudly at anything that document 01 says cannot happen in one event.

use crate::benchfile::{InAnswer, Offers, OutAnswer};
use std::cell::RefCell;
use usb_device::bus::UsbBus;
use usb_device::{Result, UsbError};

#[derive(Default)]
pub struct ScriptedBus {
    event: RefCell<Traffic>,
}

/// One event: what the endpoints would answer (only for a poll), and what happened.
#[derive(Default)]
struct Traffic {
    packet_size: usize,
    offers: Option<Offers>,
    reads: usize,
    taken: usize,
    writes: usize,
    sent: Vec<u8>,
    /// The endpoint and whether it was stalled (otherwise it was unstalled), in the order of the calls.
    stalls: Vec<(&'static str, bool)>,
}

/// What one event did to the endpoints.
pub struct Seen {
    pub packets_taken: usize,
    pub bytes_sent: Vec<u8>,
    /// `-`, `S`, `U` or `US`.
    pub stalls: &'static str,
}

impl ScriptedBus {
    pub fn begin_poll(&self, packet_size: usize, offers: Offers) {
        *self.event.borrow_mut() = Traffic {
            packet_size,
            offers: Some(offers),
            ..Traffic::default()
        };
    }

    /// An event in which no endpoint may be asked for traffic.
    pub fn begin_call(&self) {
        *self.event.borrow_mut() = Traffic::default();
    }

    pub fn finish(&self) -> Seen {
        let traffic = self.event.take();
        Seen {
            packets_taken: traffic.taken,
            stalls: stalls_of_both(&traffic.stalls),
            bytes_sent: traffic.sent,
        }
    }
}

impl UsbBus for ScriptedBus {
    fn read(&self, room: &mut [u8]) -> Result<usize> {
        let mut traffic = self.event.borrow_mut();
        let index = traffic.reads;
        traffic.reads += 1;
        assert_eq!(
            room.len(),
            traffic.packet_size,
            "LOUD: room for a packet other than P"
        );
        let Some(offers) = &traffic.offers else {
            panic!("LOUD: an OUT read outside of a poll");
        };
        let Some(answer) = offers.out.get(index) else {
            panic!("LOUD: a third OUT read in one poll");
        };
        match answer {
            OutAnswer::Busy => Err(UsbError::WouldBlock),
            OutAnswer::Error(number) => Err(UsbError::Endpoint(*number)),
            OutAnswer::Packet(packet) => {
                let length = packet.len();
                room[..length].copy_from_slice(packet);
                traffic.taken += 1;
                Ok(length)
            }
        }
    }

    fn write(&self, packet: &[u8]) -> Result<usize> {
        let mut traffic = self.event.borrow_mut();
        traffic.writes += 1;
        let Some(offers) = &traffic.offers else {
            panic!("LOUD: an IN write outside of a poll");
        };
        assert!(traffic.writes == 1, "LOUD: a second IN write in one poll");
        assert!(
            packet.len() <= traffic.packet_size,
            "LOUD: an IN write longer than P"
        );
        // A line shows an empty packet in the same way as no packet, so there must be no empty packet.
        assert!(!packet.is_empty(), "LOUD: an empty IN write");
        match offers.in_answer {
            InAnswer::Accepts => {
                traffic.sent.extend_from_slice(packet);
                Ok(packet.len())
            }
            InAnswer::Busy => Err(UsbError::WouldBlock),
            InAnswer::Error(number) => Err(UsbError::Endpoint(number)),
        }
    }

    fn set_stalled(&self, endpoint: &'static str, stalled: bool) {
        self.event.borrow_mut().stalls.push((endpoint, stalled));
    }
}

/// The letters of a line. The same must have happened to both endpoints; a line cannot show anything else.
fn stalls_of_both(stalls: &[(&'static str, bool)]) -> &'static str {
    let of = |endpoint| -> Vec<bool> {
        stalls
            .iter()
            .filter(|(name, _)| *name == endpoint)
            .map(|(_, stalled)| *stalled)
            .collect()
    };
    assert!(of("IN") == of("OUT"), "LOUD: a stall of one endpoint only");
    match of("IN")[..] {
        [] => "-",
        [true] => "S",
        [false] => "U",
        [false, true] => "US",
        [true, false] => panic!("LOUD: an unstall after a stall in one event"),
        _ => panic!("LOUD: more than one stall and one unstall in one event"),
    }
}
