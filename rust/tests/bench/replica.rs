//! Copies of a device, which tests may spoil.

use super::guarded::Guarded;
use super::layout::{self, number};
use super::rules::Rule;
use souklavanh::ffi::{self, COMMAND_NUMBERS, Turn};

const GUARD: usize = 16;
pub const PACKET_BUFFER: usize = 64;
/// Bytes that are written, and room for bytes that are read.
pub const ROOM: usize = 24;

/// A copy of a device, with everything else that can be lent to a call. Guards stand after each part, and it says how much of
/// record and IO buffer is lent.
#[derive(Clone, PartialEq)]
pub struct Replica {
    pub record: Vec<u8>,
    pub record_lent: usize,
    pub io: Vec<u8>,
    pub io_lent: usize,
    pub packet: Vec<u8>,
    pub destination: Vec<u8>,
    block: Vec<u8>,
    numbers: Vec<u64>,
    /// Offered packets and written bytes; their values occur nowhere else.
    pub source: Vec<u8>,
}

impl Replica {
    pub fn of(device: &Guarded, rule: Option<&Rule>) -> Replica {
        let fill = device.fill();
        let mut record = device.record.all().to_vec();
        if let Some(rule) = rule {
            rule.break_record(&mut record);
        }
        let (more_io, more_record) = rule.map_or((0, 0), |rule| (rule.more_io, rule.more_record));
        let io_lent = (number(&record, layout::LENGTH) as usize).saturating_add_signed(more_io);
        let mut io = device.io.all().to_vec();
        io.resize(io_lent.max(io.len()) + GUARD, fill);
        record.resize(layout::RECORD + GUARD, fill);
        Replica {
            record,
            record_lent: layout::RECORD.saturating_add_signed(more_record),
            io,
            io_lent,
            packet: vec![fill; PACKET_BUFFER + GUARD],
            destination: vec![fill; ROOM + GUARD],
            block: vec![fill; layout::BLOCK_BYTES + GUARD],
            numbers: vec![u64::from(fill); COMMAND_NUMBERS + 2],
            source: vec![!fill; PACKET_BUFFER + 1],
        }
    }

    pub fn poll(&mut self, packet: usize, one: usize, two: usize) -> u64 {
        let turn = Turn {
            one: &self.source[..one],
            two: &self.source[..two],
            first: 0,
            second: 0,
            write: 0,
        };
        let record = &mut self.record[..self.record_lent];
        let io = &mut self.io[..self.io_lent];
        ffi::poll(record, io, &mut self.packet[..packet], turn).0
    }

    pub fn set_status(&mut self, byte: u8) -> u64 {
        let record = &mut self.record[..self.record_lent];
        u64::from(ffi::set_status(record, &self.io[..self.io_lent], byte, 7))
    }

    pub fn read_data(&mut self) -> u64 {
        let record = &mut self.record[..self.record_lent];
        let destination = &mut self.destination[..ROOM];
        ffi::read_data(record, &self.io[..self.io_lent], destination).0
    }

    pub fn write_data(&mut self) -> u64 {
        let record = &mut self.record[..self.record_lent];
        ffi::write_data(record, &mut self.io[..self.io_lent], &self.source[..ROOM]).0
    }

    pub fn try_write_data_all(&mut self) -> u64 {
        let record = &mut self.record[..self.record_lent];
        ffi::try_write_data_all(record, &mut self.io[..self.io_lent], &self.source[..ROOM]).0
    }

    pub fn reset(&mut self) -> u64 {
        let record = &mut self.record[..self.record_lent];
        ffi::reset(record, &self.io[..self.io_lent]).0
    }

    pub fn control(&mut self, request_type: u8, request: u8) -> u64 {
        let record = &mut self.record[..self.record_lent];
        ffi::control(record, &self.io[..self.io_lent], request_type, request).0
    }

    pub fn command(&mut self, room: usize) -> u64 {
        let record = &self.record[..self.record_lent];
        ffi::command(record, &self.io[..self.io_lent], &mut self.block[..room]).0
    }

    pub fn command_step(&mut self, room: usize) -> u64 {
        let record = &self.record[..self.record_lent];
        ffi::command_step(record, &self.io[..self.io_lent], &mut self.numbers[..room]).0
    }

    pub fn command_step_told(&mut self, extended: u32, room: usize) -> u64 {
        let record = &self.record[..self.record_lent];
        let numbers = &mut self.numbers[..room];
        ffi::command_step_told(record, &self.io[..self.io_lent], extended, numbers).0
    }
}
