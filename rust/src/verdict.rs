//! The standard's verdict on a received message. The device follows its own rules, which are less strict.

use crate::ffi;

#[derive(Clone, Copy, PartialEq, Eq, Debug)]
#[repr(u8)]
pub enum Verdict {
    /// It does not have 31 bytes, or not the signature.
    Invalid = 0,
    /// A wrapper, but its LUN is above max LUN, its block length is not 1 to 16, or a reserved bit is set: one of bits 0 to 6
    /// of byte 12 or of bits 4 to 7 of byte 13. Some laptops set one; the device takes their commands all the same.
    ValidOnly = 1,
    Meaningful = 2,
}

/// What Bulk-Only Transport says of one received message.
///
/// ```
/// use souklavanh::{Verdict, verdict};
///
/// let mut message = [0; 31];
/// message[..4].copy_from_slice(b"USBC");
/// assert_eq!(verdict(&message, 0), Verdict::ValidOnly);
/// message[14] = 6;
/// assert_eq!(verdict(&message, 0), Verdict::Meaningful);
/// message[12] = 0x08;
/// assert_eq!(verdict(&message, 0), Verdict::ValidOnly);
/// assert_eq!(verdict(&message[..30], 0), Verdict::Invalid);
/// ```
pub fn verdict(message: &[u8], max_lun: u8) -> Verdict {
    match ffi::verdict(message, max_lun) {
        0 => Verdict::Invalid,
        1 => Verdict::ValidOnly,
        2 => Verdict::Meaningful,
        number => unreachable!("there is no verdict {number}"),
    }
}
