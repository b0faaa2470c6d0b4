//! The same work for both sides: the host sends a wrapper, blocks of 512 bytes go one way or the other, one at a time, the
//! firmware sets a status with the last of them, and polls go on until its 13 bytes are out.

use crate::cells::LARGEST_PACKET;
use crate::watch::Watch;

pub const BLOCK: usize = 512;
/// The length of the IO buffer.
pub const BUFFER: usize = 512;
const STATUS: usize = 13;
const WRAPPER: usize = 31;

/// A device, as host and firmware see it.
pub trait Side {
    /// One poll, with a packet from the host or without one, while IN would take a packet: the answer, and how much was sent.
    fn poll(&mut self, offered: Option<&[u8]>) -> (u8, usize);
    /// What was sent is at the front.
    fn packet(&self) -> &[u8; LARGEST_PACKET];
    fn write_data(&mut self, source: &[u8]) -> usize;
    fn read_data(&mut self, destination: &mut [u8]) -> usize;
    fn set_status(&mut self, processed: u32);
}

#[derive(Clone, Copy, PartialEq, Eq)]
pub enum Direction {
    /// A read-out.
    ToHost,
    FromHost,
}

impl Direction {
    pub fn name(self) -> &'static str {
        match self {
            Direction::ToHost => "to-host",
            Direction::FromHost => "from-host",
        }
    }
}

pub struct Story {
    pub direction: Direction,
    pub packet_size: usize,
    /// How many blocks a command moves; the last command moves what is left.
    pub command: u32,
    pub blocks: u32,
}

impl Story {
    pub fn run(&self, side: &mut impl Side, watch: &mut impl Watch) {
        let mut data: [u8; BLOCK] = std::array::from_fn(|at| (at * 7 + at / 256) as u8);
        let mut done = 0;
        while done < self.blocks {
            let blocks = self.command.min(self.blocks - done);
            self.host_sends(side, watch, &self.wrapper(done, blocks));
            for block in 1..=blocks {
                data[..4].copy_from_slice(&(done + block).to_le_bytes());
                let last = (block == blocks).then_some(blocks);
                match self.direction {
                    Direction::ToHost => self.block_to_host(side, watch, &data, last),
                    Direction::FromHost => self.block_from_host(side, watch, &data, last),
                }
            }
            done += blocks;
        }
    }

    /// `last` is the number of the command's blocks, with the last of them.
    fn block_to_host(
        &self,
        side: &mut impl Side,
        watch: &mut impl Watch,
        data: &[u8],
        last: Option<u32>,
    ) {
        let put = side.write_data(data);
        assert_eq!(put, BLOCK, "the buffer takes a whole block");
        let mut due = BLOCK;
        if let Some(blocks) = last {
            side.set_status(blocks * BLOCK as u32);
            due += STATUS;
        }
        host_takes(side, watch, due);
    }

    fn block_from_host(
        &self,
        side: &mut impl Side,
        watch: &mut impl Watch,
        data: &[u8],
        last: Option<u32>,
    ) {
        self.host_sends(side, watch, data);
        let mut destination = [0; BLOCK];
        let got = side.read_data(&mut destination);
        watch.read(&destination[..got]);
        if let Some(blocks) = last {
            side.set_status(blocks * BLOCK as u32);
            host_takes(side, watch, STATUS);
        }
    }

    /// In packets of P, one in each poll.
    fn host_sends(&self, side: &mut impl Side, watch: &mut impl Watch, bytes: &[u8]) {
        for packet in bytes.chunks(self.packet_size) {
            let (answer, sent) = side.poll(Some(packet));
            watch.polled(answer, &side.packet()[..sent]);
        }
    }

    /// READ (10) or WRITE (10); the Rust does not look at the rest of the command block.
    fn wrapper(&self, tag: u32, blocks: u32) -> [u8; WRAPPER] {
        let (flags, operation) = match self.direction {
            Direction::ToHost => (0x80, 0x28),
            Direction::FromHost => (0, 0x2A),
        };
        let mut bytes = [0; WRAPPER];
        bytes[..4].copy_from_slice(b"USBC");
        bytes[4..8].copy_from_slice(&tag.to_le_bytes());
        bytes[8..12].copy_from_slice(&(blocks * BLOCK as u32).to_le_bytes());
        bytes[12] = flags;
        bytes[14] = 10;
        bytes[15] = operation;
        bytes[22..24].copy_from_slice(&(blocks as u16).to_be_bytes());
        bytes
    }
}

/// Polls until this many bytes are out. While bytes are unread or a status is due, every poll sends something.
fn host_takes(side: &mut impl Side, watch: &mut impl Watch, count: usize) {
    let mut taken = 0;
    while taken < count {
        let (answer, sent) = side.poll(None);
        assert!(sent > 0, "a poll sent nothing");
        watch.polled(answer, &side.packet()[..sent]);
        taken += sent;
    }
}
