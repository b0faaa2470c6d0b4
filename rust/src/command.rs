//! Commands: the block that a wrapper brought, and what it says in SCSI.

use crate::answer::EmptyBlock;
use crate::ffi;

/// The command block of the last valid wrapper.
#[derive(Clone, Copy, PartialEq, Eq, Debug)]
pub struct Command {
    pub lun: u8,
    bytes: [u8; 16],
    length: u8,
}

impl Command {
    pub(crate) fn new(lun: u8, bytes: [u8; 16], length: u8) -> Command {
        Command { lun, bytes, length }
    }

    /// At most 16 bytes; no bytes if no valid wrapper came since the creation.
    pub fn block(&self) -> &[u8] {
        &self.bytes[..usize::from(self.length)]
    }
}

/// A decoded command that waits for its status.
#[derive(Clone, Copy, PartialEq, Eq, Debug)]
pub struct Offer {
    pub lun: u8,
    pub command: ScsiCommand,
}

/// A SCSI command, with the names of the crate usbd-storage. Addresses and lengths are wide enough for extended addressing.
#[derive(Clone, Copy, PartialEq, Eq, Debug)]
pub enum ScsiCommand {
    Unknown {
        cmd: u8,
    },
    Inquiry {
        evpd: bool,
        page_code: u8,
        alloc_len: u16,
    },
    TestUnitReady,
    RequestSense {
        desc: bool,
        alloc_len: u8,
    },
    ModeSense6 {
        dbd: bool,
        page_control: PageControl,
        page_code: u8,
        subpage_code: u8,
        alloc_len: u8,
    },
    ModeSense10 {
        dbd: bool,
        page_control: PageControl,
        page_code: u8,
        subpage_code: u8,
        alloc_len: u16,
    },
    ReadCapacity10,
    ReadCapacity16 {
        alloc_len: u32,
    },
    Read {
        lba: u64,
        len: u32,
    },
    Write {
        lba: u64,
        len: u32,
    },
    ReadFormatCapacities {
        alloc_len: u16,
    },
}

#[derive(Clone, Copy, PartialEq, Eq, Debug)]
#[repr(u8)]
pub enum PageControl {
    CurrentValues = 0,
    ChangeableValues = 1,
    DefaultValues = 2,
    SavedValues = 3,
}

impl PageControl {
    fn from_number(number: u64) -> PageControl {
        match number {
            0 => PageControl::CurrentValues,
            1 => PageControl::ChangeableValues,
            2 => PageControl::DefaultValues,
            3 => PageControl::SavedValues,
            _ => unreachable!("there is no page control {number}"),
        }
    }
}

impl ScsiCommand {
    /// From the six numbers: which command, then its fields.
    pub(crate) fn from_numbers([kind, a, b, c, d, e]: [u64; ffi::COMMAND_NUMBERS]) -> ScsiCommand {
        match kind {
            0 => ScsiCommand::Unknown { cmd: fit(a) },
            1 => ScsiCommand::Inquiry {
                evpd: a != 0,
                page_code: fit(b),
                alloc_len: fit(c),
            },
            2 => ScsiCommand::TestUnitReady,
            3 => ScsiCommand::RequestSense {
                desc: a != 0,
                alloc_len: fit(b),
            },
            4 => ScsiCommand::ModeSense6 {
                dbd: a != 0,
                page_control: PageControl::from_number(b),
                page_code: fit(c),
                subpage_code: fit(d),
                alloc_len: fit(e),
            },
            5 => ScsiCommand::ModeSense10 {
                dbd: a != 0,
                page_control: PageControl::from_number(b),
                page_code: fit(c),
                subpage_code: fit(d),
                alloc_len: fit(e),
            },
            6 => ScsiCommand::ReadCapacity10,
            7 => ScsiCommand::ReadCapacity16 { alloc_len: fit(a) },
            8 => ScsiCommand::Read {
                lba: a,
                len: fit(b),
            },
            9 => ScsiCommand::Write {
                lba: a,
                len: fit(b),
            },
            10 => ScsiCommand::ReadFormatCapacities { alloc_len: fit(a) },
            _ => unreachable!("there is no command {kind}"),
        }
    }
}

/// A field's number in the field's own width.
fn fit<T: TryFrom<u64>>(number: u64) -> T {
    match T::try_from(number) {
        Ok(field) => field,
        Err(_) => unreachable!("a field has no number {number}"),
    }
}

/// Decodes a command block. READ (16) and WRITE (16) count: this is [`decode_told`] with `true`.
///
/// ```
/// use souklavanh::{EmptyBlock, ScsiCommand, decode};
///
/// let read = [0x28, 0, 0, 0, 1, 0, 0, 0, 8];
/// assert_eq!(decode(&read), Ok(ScsiCommand::Read { lba: 256, len: 8 }));
/// assert_eq!(decode(&read[..8]), Ok(ScsiCommand::Unknown { cmd: 0x28 }));
/// let far = [0x88, 0, 0, 0, 0, 1, 0, 0, 0, 0, 0, 0, 0, 8];
/// assert_eq!(decode(&far), Ok(ScsiCommand::Read { lba: 1 << 32, len: 8 }));
/// assert_eq!(decode(&[]), Err(EmptyBlock));
/// ```
pub fn decode(block: &[u8]) -> Result<ScsiCommand, EmptyBlock> {
    let mut numbers = [0; ffi::COMMAND_NUMBERS];
    decoded(ffi::decode(block, &mut numbers), numbers)
}

/// The same, but you say whether extended addressing is on. With `false` READ (16) and WRITE (16) are unknown, as they are in
/// the default build of usbd-storage.
///
/// ```
/// use souklavanh::{ScsiCommand, decode_told};
///
/// let read = [0x88, 0, 0, 0, 0, 1, 0, 0, 0, 0, 0, 0, 0, 8, 0, 0];
/// assert_eq!(decode_told(&read, true), Ok(ScsiCommand::Read { lba: 1 << 32, len: 8 }));
/// assert_eq!(decode_told(&read, false), Ok(ScsiCommand::Unknown { cmd: 0x88 }));
/// ```
pub fn decode_told(block: &[u8], extended: bool) -> Result<ScsiCommand, EmptyBlock> {
    let mut numbers = [0; ffi::COMMAND_NUMBERS];
    let answer = ffi::decode_told(block, u32::from(extended), &mut numbers);
    decoded(answer, numbers)
}

fn decoded(answer: u32, numbers: [u64; ffi::COMMAND_NUMBERS]) -> Result<ScsiCommand, EmptyBlock> {
    match answer {
        0 => Ok(ScsiCommand::from_numbers(numbers)),
        13 => Err(EmptyBlock),
        _ => unreachable!("decoding has no answer {answer}"),
    }
}
