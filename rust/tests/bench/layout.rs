//! Where each field stands in a record. The safe wrapper has some of these places too; they are written down here a second time.

pub const RECORD: usize = 56;
pub const BLOCK_BYTES: usize = 16;

pub const PACKET: usize = 0;
pub const MAX_LUN: usize = 1;
pub const STATE: usize = 2;
pub const PRESENT: usize = 3;
pub const LENGTH: usize = 4;
pub const READ: usize = 8;
pub const WRITE: usize = 12;
pub const LEFT: usize = 16;
pub const RESIDUE: usize = 20;
pub const STATUS: usize = 24;
pub const DIRECTION: usize = 25;
pub const LUN: usize = 26;
pub const BLOCK_LENGTH: usize = 27;
pub const TAG: usize = 28;
pub const DECLARED: usize = 32;
pub const BLOCK: usize = 36;
pub const PUT_IN: usize = 52;

pub fn number(record: &[u8], at: usize) -> u32 {
    let bytes = [0, 1, 2, 3].map(|index| record[at + index]);
    u32::from_le_bytes(bytes)
}

/// The block, with its own length.
pub fn block(record: &[u8]) -> &[u8] {
    &record[BLOCK..BLOCK + usize::from(record[BLOCK_LENGTH])]
}

/// Residue and status byte. They keep their values while no status is present.
pub fn status_bytes(record: &[u8]) -> &[u8] {
    &record[RESIDUE..=STATUS]
}
