//! The exported calls, made directly: `ffi`'s functions are inlined, so that only the call itself remains.

use crate::cells::LARGEST_PACKET;
use crate::story::{BUFFER, Side};
use souklavanh::RECORD_LENGTH;
use souklavanh::ffi::{self, Turn};

pub struct Exported {
    record: [u8; RECORD_LENGTH],
    io: [u8; BUFFER],
    packet: [u8; LARGEST_PACKET],
}

impl Exported {
    pub fn new(packet_size: usize) -> Exported {
        let mut record = [0; RECORD_LENGTH];
        let answer = ffi::create(&mut record, packet_size as u32, 0, BUFFER as u32);
        assert_eq!(answer, 0, "no device");
        Exported {
            record,
            io: [0; BUFFER],
            packet: [0; LARGEST_PACKET],
        }
    }
}

impl Side for Exported {
    #[inline(always)]
    fn poll(&mut self, offered: Option<&[u8]>) -> (u8, usize) {
        let turn = Turn {
            one: offered.unwrap_or(&[]),
            two: &[],
            first: u8::from(offered.is_none()),
            second: 1,
            write: 0,
        };
        let word = ffi::poll(&mut self.record, &mut self.io, &mut self.packet, turn);
        (word.answer(), word.count() as usize)
    }

    fn packet(&self) -> &[u8; LARGEST_PACKET] {
        &self.packet
    }

    #[inline(always)]
    fn write_data(&mut self, source: &[u8]) -> usize {
        ffi::write_data(&mut self.record, &mut self.io, source).count() as usize
    }

    #[inline(always)]
    fn read_data(&mut self, destination: &mut [u8]) -> usize {
        ffi::read_data(&mut self.record, &self.io, destination).count() as usize
    }

    #[inline(always)]
    fn set_status(&mut self, processed: u32) {
        ffi::set_status(&mut self.record, &self.io, 0, processed);
    }
}
