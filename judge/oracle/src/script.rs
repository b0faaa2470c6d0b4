//! Bench files written down event by event, for the cases made by hand.

use crate::benchfile::{Event, InAnswer, Offers, OutAnswer, encode};
use crate::damage;
use crate::wrapper::Wrapper;

/// Events of one file, in order.
pub struct Script {
    packet_size: usize,
    pub events: Vec<Event>,
    /// The file is filled up to this many bytes.
    length: Option<usize>,
}

pub fn create(packet_size: u16, max_lun: u8, buffer: u32) -> Script {
    Script {
        packet_size: usize::from(packet_size),
        events: vec![Event::Create {
            packet_size,
            max_lun,
            buffer,
        }],
        length: None,
    }
}

/// Not even a creation.
pub fn nothing() -> Script {
    Script {
        packet_size: 0,
        events: Vec::new(),
        length: None,
    }
}

impl Script {
    fn event(mut self, event: Event) -> Script {
        self.events.push(event);
        self
    }

    pub fn offers(self, in_answer: InAnswer, first: OutAnswer, second: OutAnswer) -> Script {
        self.event(Event::Poll(Offers {
            in_answer,
            out: [first, second],
        }))
    }

    /// A poll with IN ready and nothing from the host.
    pub fn poll(self) -> Script {
        self.offers(InAnswer::Accepts, OutAnswer::Busy, OutAnswer::Busy)
    }

    pub fn polls(self, count: usize) -> Script {
        (0..count).fold(self, |script, _| script.poll())
    }

    /// A poll with IN ready and one packet from the host.
    pub fn packet(self, packet: &[u8]) -> Script {
        let packet = OutAnswer::Packet(packet.to_vec());
        self.offers(InAnswer::Accepts, packet, OutAnswer::Busy)
    }

    pub fn in_answers(self, in_answer: InAnswer) -> Script {
        self.offers(in_answer, OutAnswer::Busy, OutAnswer::Busy)
    }

    pub fn out_answers(self, first: OutAnswer) -> Script {
        self.offers(InAnswer::Accepts, first, OutAnswer::Busy)
    }

    /// In packets of P, one in each poll.
    pub fn wrapper(self, wrapper: Wrapper) -> Script {
        let packet_size = self.packet_size;
        let bytes = wrapper.bytes();
        let packets = bytes.chunks(packet_size);
        packets.fold(self, |script, packet| script.packet(packet))
    }

    pub fn status(self, status: u8, figure: u32) -> Script {
        self.event(Event::Status { status, figure })
    }

    pub fn write(self, source: &[u8]) -> Script {
        self.event(Event::WriteData(source.to_vec()))
    }

    pub fn write_all(self, source: &[u8]) -> Script {
        self.event(Event::TryWriteDataAll(source.to_vec()))
    }

    pub fn read(self, room: u16) -> Script {
        self.event(Event::ReadData { room })
    }

    pub fn reset(self) -> Script {
        self.event(Event::Reset)
    }

    pub fn control(self, bm_request_type: u8, request: u8) -> Script {
        self.event(Event::Control {
            bm_request_type,
            request,
        })
    }

    pub fn command(self) -> Script {
        self.event(Event::Command { told: None })
    }

    pub fn command_told(self, extended: bool) -> Script {
        self.event(Event::Command {
            told: Some(extended),
        })
    }

    pub fn filled_to(mut self, length: usize) -> Script {
        self.length = Some(length);
        self
    }

    pub fn file(&self) -> Vec<u8> {
        match self.length {
            Some(length) => damage::filled_to(&self.events, length),
            None => encode(&self.events),
        }
    }
}
