//! The host of a random file: wrappers (whole, in pieces or glued), data, and what the endpoints
//! answer.

use crate::benchfile::{Event, InAnswer, Offers, OutAnswer};
use crate::lines::Step;
use crate::rng::Rng;
use crate::temper::Temper;
use crate::wrapper::Wrapper;
use std::collections::VecDeque;
use usbd_storage::transport::bbb::peek::Figures;

#[derive(Default)]
pub struct Host {
    /// Packets of the stream in which wrappers come; they wait until the device takes them.
    waiting: VecDeque<Vec<u8>>,
    /// How many packets of the last offer came from that stream.
    offered: usize,
}

impl Host {
    /// Drops the packets that were taken.
    pub fn saw(&mut self, step: &Step) {
        let taken = match step.event {
            Event::Poll(_) => step.outcome.count.min(self.offered),
            _ => 0,
        };
        self.waiting.drain(..taken);
        self.offered = 0;
    }

    pub fn poll(
        &mut self,
        now: &Figures,
        temper: &Temper,
        rng: &mut Rng,
        unshown: &[(u8, usize)],
    ) -> Event {
        let wants_wrapper = matches!(now.state, 0 | 3);
        if wants_wrapper && self.waiting.is_empty() {
            self.refill(now, temper, rng, unshown);
        }
        // After a glued wrapper the device may take the rest of the stream for data.
        let from_stream = wants_wrapper || rng.percent(50);
        let waiting = self.waiting.iter().filter(|_| from_stream);
        let mut packets: Vec<Vec<u8>> = waiting.take(2).cloned().collect();
        self.offered = packets.len();
        packets.resize_with(2, || data(now, rng));
        let out = [0, 1].map(|place| out_answer(&packets[place], temper, rng));
        Event::Poll(Offers {
            in_answer: in_answer(temper, rng),
            out: sometimes_above_packet_size(out, now, temper, rng),
        })
    }

    fn refill(&mut self, now: &Figures, temper: &Temper, rng: &mut Rng, unshown: &[(u8, usize)]) {
        let unread = now.unread();
        let mut stream = Vec::new();
        if now.state == 0 && unread > 0 && rng.percent(70) {
            // Remaining bytes would shift every later wrapper: fill them up to one wrapper, a bad one.
            stream.extend(rng.bytes(31 - unread % 31));
        } else {
            let glued = rng.percent(temper.glued);
            let mut first = wrapper(now, temper, rng, unshown);
            if glued && rng.percent(75) {
                // An answer so short that the bytes after the wrapper go out at once, or data that
                // comes before the wrapper's poll has ended.
                let flags = rng.pick(&[0x80, 0x00]);
                first[8..13].copy_from_slice(&[rng.between(1, 7) as u8, 0, 0, 0, flags]);
            }
            stream.extend(first);
            if glued {
                match rng.below(3) {
                    0 => stream.extend(wrapper(now, temper, rng, unshown)),
                    1 => {
                        let part = rng.between(1, 30);
                        stream.extend(&wrapper(now, temper, rng, unshown)[..part]);
                    }
                    _ => {
                        let count = rng.between(1, now.packet_size);
                        stream.extend(rng.bytes(count));
                    }
                }
            }
        }
        let ragged = rng.percent(temper.ragged);
        while !stream.is_empty() {
            let longest = now.packet_size.min(stream.len());
            let length = if ragged {
                rng.below(longest + 1)
            } else {
                longest
            };
            self.waiting.push_back(stream.drain(..length).collect());
        }
    }
}

fn in_answer(temper: &Temper, rng: &mut Rng) -> InAnswer {
    match rng.below(100) {
        chance if chance < temper.busy => InAnswer::Busy,
        chance if chance < temper.busy + temper.error => InAnswer::Error(error_number(rng)),
        _ => InAnswer::Accepts,
    }
}

fn out_answer(packet: &[u8], temper: &Temper, rng: &mut Rng) -> OutAnswer {
    match rng.below(100) {
        chance if chance < temper.busy => OutAnswer::Busy,
        chance if chance < temper.busy + temper.error => OutAnswer::Error(error_number(rng)),
        _ => OutAnswer::Packet(packet.to_vec()),
    }
}

fn sometimes_above_packet_size(
    mut out: [OutAnswer; 2],
    now: &Figures,
    temper: &Temper,
    rng: &mut Rng,
) -> [OutAnswer; 2] {
    if rng.percent(temper.above_packet_size) {
        let longer = rng.pick(&[now.packet_size + 1, 255]);
        out[rng.below(2)] = OutAnswer::Packet(rng.bytes(longer));
    }
    out
}

fn error_number(rng: &mut Rng) -> u8 {
    rng.between(2, 255) as u8
}

/// A packet of the data phase.
fn data(now: &Figures, rng: &mut Rng) -> Vec<u8> {
    let packet_size = now.packet_size;
    let expected = packet_size.min(now.left as usize);
    let any = rng.below(packet_size + 1);
    let length = rng.pick(&[packet_size, packet_size, expected, expected, any, 0]);
    rng.bytes(length)
}

fn wrapper(now: &Figures, temper: &Temper, rng: &mut Rng, unshown: &[(u8, usize)]) -> Vec<u8> {
    let (opcode, length) = match unshown {
        [_, ..] if rng.percent(90) => unshown[rng.below(unshown.len())],
        _ => (known_opcode(rng), rng.between(1, 16)),
    };
    let mut wrapper = Wrapper::new(rng.next() as u32, &rng.bytes(16));
    wrapper.block[0] = opcode;
    wrapper.block_length = length as u8;
    wrapper.length = data_length(now.packet_size, temper, rng);
    wrapper.flags = rng.pick(&[0x00, 0x80, 0x7F, 0xFF, 0x80, 0x00]);
    wrapper.lun = rng.pick(&[0, 0, 1, 15, 0xF3]);
    if rng.percent(temper.invalid) {
        match rng.below(3) {
            0 => wrapper.signature[rng.below(4)] ^= 1 << rng.below(8),
            1 => wrapper.block_length = 0,
            _ => wrapper.block_length = rng.pick(&[17, 18, 31, 32, 128, 255]),
        }
    }
    wrapper.bytes()
}

pub fn known_opcode(rng: &mut Rng) -> u8 {
    rng.pick(&[
        0x00, 0x03, 0x12, 0x1A, 0x23, 0x25, 0x28, 0x2A, 0x5A, 0x88, 0x8A, 0x9E,
    ])
}

fn data_length(packet_size: usize, temper: &Temper, rng: &mut Rng) -> u32 {
    if rng.percent(temper.without_data) {
        return 0;
    }
    let any = (rng.next() as u32).max(513);
    let large = rng.pick(&[4_096, 65_536, 122_880, u32::MAX, any]);
    let packet_size = packet_size as u32;
    rng.pick(&[
        1,
        12,
        13,
        packet_size - 1,
        packet_size,
        packet_size + 1,
        512,
        large,
    ])
}
