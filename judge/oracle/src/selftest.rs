//! Faults on purpose. Each must end the program with a message and a nonzero exit; checks/oracle runs
//! them all, so that it is noticed if the oracle no longer sees faults.

use crate::benchfile::{Event, InAnswer, Offers, OutAnswer};
use crate::device::{Device, Outcome};
use crate::endpoints::ScriptedBus;
use crate::generator;
use crate::lines;
use crate::panics;
use crate::putin::PutIn;
use crate::script::create;
use usb_device::endpoint::{Endpoint, In, Out};
use usbd_storage::subclass::scsi::peek::peek_parse_cb;
use usbd_storage::transport::bbb::peek::{Buffer, Figures};

const PACKET_SIZE: u16 = 8;

struct Ends<'a> {
    input: Endpoint<'a, ScriptedBus, In>,
    output: Endpoint<'a, ScriptedBus, Out>,
}

type Fault = fn(&Ends);

/// Name and fault; the name stands in the message that the fault must give.
const FAULTS: &[(&str, Fault)] = &[
    ("a third OUT read", |ends| read_packets(ends, 3)),
    ("a second IN write", |ends| write_packets(ends, 2, 8)),
    ("an IN write longer than P", |ends| {
        write_packets(ends, 1, 9)
    }),
    ("an empty IN write", |ends| write_packets(ends, 1, 0)),
    ("a stall of one endpoint only", |ends| ends.input.stall()),
    ("an unstall after a stall", |ends| {
        stall_both(ends);
        ends.input.unstall();
        ends.output.unstall();
    }),
    ("more than one stall", |ends| {
        stall_both(ends);
        stall_both(ends);
    }),
    ("a foreign panic", |_| {
        panics::catch(panics::SET_STATUS, || panic!("a foreign panic"));
    }),
    // A step that carries 1 breaks no rule.
    ("a damaged file was taken", |_| {
        let good = create(8, 0, 31).command_told(true);
        generator::refused("a step that carries 1", &good.file());
    }),
    // Eight bytes fit exactly.
    ("an overflow with room enough", |_| {
        Buffer::new(vec![0; 8]).peek_missing(8);
    }),
    ("state 0 was entered without an unstall", |_| {
        count(&Event::Reset, 4, 0);
    }),
    ("bytes put in before the wrapper", |_| {
        count(&Event::Poll(silent()), 0, 1);
    }),
    ("a write call took another number of bytes", |_| {
        count(&Event::WriteData(vec![0]), 4, 4);
    }),
    // A panic that is an answer of another call, but not of this one.
    ("cb.is_empty()", |_| {
        panics::catch(panics::SET_STATUS, || peek_parse_cb(&[]));
    }),
];

pub fn names() -> impl Iterator<Item = &'static str> {
    FAULTS.iter().map(|(name, _)| *name)
}

/// Runs the fault of that name inside a poll; returns only if nothing noticed it.
pub fn run(name: &str) {
    let (_, fault) = FAULTS
        .iter()
        .find(|(known, _)| *known == name)
        .expect("the name of a fault");
    let allocator = lines::allocator();
    let empty = OutAnswer::Packet(Vec::new());
    allocator.bus().begin_poll(
        usize::from(PACKET_SIZE),
        Offers {
            in_answer: InAnswer::Accepts,
            out: [empty.clone(), empty],
        },
    );
    fault(&Ends {
        input: allocator.bulk(PACKET_SIZE),
        output: allocator.bulk(PACKET_SIZE),
    });
    allocator.bus().finish();
}

fn read_packets(ends: &Ends, count: usize) {
    for _ in 0..count {
        let packet = ends.output.read(&mut [0; PACKET_SIZE as usize]);
        assert_eq!(packet, Ok(0), "an empty packet was offered");
    }
}

fn write_packets(ends: &Ends, count: usize, length: usize) {
    for _ in 0..count {
        let written = ends.input.write(&vec![0; length]);
        assert_eq!(written, Ok(length), "IN takes every packet");
    }
}

/// One byte was put in before this event, which goes from one state to another. It says a count of 1, but no mark has moved.
fn count(event: &Event, from: u8, to: u8) {
    let allocator = lines::allocator();
    let Ok(device) = Device::create(&allocator, PACKET_SIZE, 0, 31) else {
        return;
    };
    let in_state = |state| Figures {
        state,
        ..device.figures()
    };
    let outcome = Outcome {
        count: 1,
        ..Outcome::answered(0)
    };
    PutIn(1).after(event, &in_state(from), &outcome, &in_state(to));
}

fn silent() -> Offers {
    Offers {
        in_answer: InAnswer::Accepts,
        out: [OutAnswer::Busy, OutAnswer::Busy],
    }
}

fn stall_both(ends: &Ends) {
    ends.input.stall();
    ends.output.stall();
}
