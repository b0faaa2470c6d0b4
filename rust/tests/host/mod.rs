//! What a host sends, and polls that let it through. `room.rs` and `put_in.rs` share it.

use souklavanh::{Device, Endpoints, Poll};

pub const PACKET_SIZES: [usize; 4] = [8, 16, 32, 64];
pub const IO: usize = 128;
/// Longer than the IO buffer.
pub const DATA: [u8; 2 * IO] = [0x41; 2 * IO];

pub fn wrapper(length: u32, to_host: bool) -> [u8; 31] {
    let mut bytes = [0; 31];
    bytes[..4].copy_from_slice(b"USBC");
    bytes[8..12].copy_from_slice(&length.to_le_bytes());
    bytes[12] = if to_host { 0x80 } else { 0 };
    bytes[14] = 6;
    bytes
}

pub fn poll(device: &mut Device, endpoints: Endpoints) -> Poll {
    device.poll(endpoints, &mut [0; 64])
}

/// In packets of this many bytes; each has to be taken.
pub fn feed(device: &mut Device, bytes: &[u8], piece: usize) {
    for packet in bytes.chunks(piece) {
        assert_eq!(poll(device, Endpoints::offering(packet)).taken, 1);
    }
}
