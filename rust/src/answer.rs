//! What a call answers if it was not done. The numbers are those of the archive.

use crate::endpoints::EndpointError;
use core::fmt;

/// Why a call on a device was not done, or was only done in part.
///
/// ```
/// use souklavanh::{Device, Error};
///
/// let mut buffer = [0; 64];
/// let mut device = Device::new(64, 0, &mut buffer).unwrap();
/// assert_eq!(device.write_data(b"no command yet"), Err(Error::InvalidState));
/// assert_eq!(Error::InvalidState.number(), 3);
/// ```
#[derive(Clone, Copy, PartialEq, Eq, Debug)]
pub enum Error {
    /// The IO buffer has no room for a packet, or not for all bytes of `try_write_data_all`. [`Device::poll`] and
    /// [`Device::try_write_data_all`] say what to do then.
    ///
    /// [`Device::poll`]: crate::Device::poll
    /// [`Device::try_write_data_all`]: crate::Device::try_write_data_all
    IoBufferOverflow {
        /// How many bytes of room are missing: at least 1, and from a poll at most the packet size. 2^32 - 1 also stands for
        /// more, which only a source of 4 GiB or more can lack.
        missing: usize,
    },
    /// Nothing can be read or written in this state. Nothing has changed.
    InvalidState,
    /// The host wants more than the firmware has put in. What the poll did before stays.
    FullPacketExpected,
    /// An endpoint was busy. What the poll did before stays.
    WouldBlock,
    /// An endpoint failed. What the poll did before stays.
    Endpoint(EndpointError),
    /// The bytes are not a good record, or the buffer is not the one of this record. Nothing has changed. Only
    /// [`Device::new`](crate::Device::new) helps.
    Broken,
    /// An offered packet is longer than the packet size, or the packet buffer is shorter. Nothing has changed.
    PacketSize,
    /// No status can be set in this state. Nothing has changed.
    StatusRefused,
    /// The command block is empty: no valid wrapper came since the creation.
    EmptyBlock,
}

impl Error {
    pub fn number(self) -> u8 {
        match self {
            Error::IoBufferOverflow { .. } => 1,
            Error::InvalidState => 3,
            Error::FullPacketExpected => 4,
            Error::WouldBlock => 6,
            Error::Endpoint(_) => 7,
            Error::Broken => 10,
            Error::PacketSize => 11,
            Error::StatusRefused => 12,
            Error::EmptyBlock => 13,
        }
    }

    /// With what goes with some numbers: an endpoint's error with 7, and the room that is missing with 1.
    pub(crate) fn from_number(number: u32, carried: u8, missing: u32) -> Result<(), Error> {
        Err(match number {
            0 => return Ok(()),
            1 => Error::IoBufferOverflow {
                missing: missing as usize,
            },
            3 => Error::InvalidState,
            4 => Error::FullPacketExpected,
            6 => Error::WouldBlock,
            7 => Error::Endpoint(
                EndpointError::new(carried).expect("only an endpoint's error is carried"),
            ),
            10 => Error::Broken,
            11 => Error::PacketSize,
            12 => Error::StatusRefused,
            13 => Error::EmptyBlock,
            _ => unreachable!("a device call has no answer {number}"),
        })
    }
}

impl fmt::Display for Error {
    fn fmt(&self, to: &mut fmt::Formatter) -> fmt::Result {
        match self {
            Error::IoBufferOverflow { missing } => {
                write!(
                    to,
                    "the IO buffer has too little room; bytes missing: {missing}"
                )
            }
            Error::InvalidState => to.write_str("not in this state"),
            Error::FullPacketExpected => to.write_str("a full packet is expected"),
            Error::WouldBlock => to.write_str("the endpoint is busy"),
            Error::Endpoint(error) => write!(to, "the endpoint failed with {}", error.number()),
            Error::Broken => to.write_str("the device record is broken"),
            Error::PacketSize => to.write_str("a packet does not fit the packet size"),
            Error::StatusRefused => to.write_str("no status can be set in this state"),
            Error::EmptyBlock => to.write_str("the command block is empty"),
        }
    }
}

impl core::error::Error for Error {}

/// Why there is no device. The reasons are tested in this order.
#[derive(Clone, Copy, PartialEq, Eq, Debug)]
pub enum CreateError {
    /// Max LUN is above 15.
    InvalidMaxLun,
    /// The buffer is shorter than 31 bytes, or shorter than a packet.
    BufferTooSmall,
    /// The packet size is not 8, 16, 32 or 64.
    PacketSize,
    /// The buffer is longer than 65,536 bytes.
    BufferTooLarge,
}

impl CreateError {
    pub fn number(self) -> u8 {
        match self {
            CreateError::InvalidMaxLun => 2,
            CreateError::BufferTooSmall => 5,
            CreateError::PacketSize => 8,
            CreateError::BufferTooLarge => 9,
        }
    }

    pub(crate) fn from_number(number: u32) -> Result<(), CreateError> {
        Err(match number {
            0 => return Ok(()),
            2 => CreateError::InvalidMaxLun,
            5 => CreateError::BufferTooSmall,
            8 => CreateError::PacketSize,
            9 => CreateError::BufferTooLarge,
            _ => unreachable!("a creation has no answer {number}"),
        })
    }
}

impl fmt::Display for CreateError {
    fn fmt(&self, to: &mut fmt::Formatter) -> fmt::Result {
        to.write_str(match self {
            CreateError::InvalidMaxLun => "max LUN is above 15",
            CreateError::BufferTooSmall => "the buffer is below 31 bytes or below a packet",
            CreateError::PacketSize => "the packet size is none of 8, 16, 32 and 64",
            CreateError::BufferTooLarge => "the buffer is above 65,536 bytes",
        })
    }
}

impl core::error::Error for CreateError {}

/// An empty command block cannot be decoded.
#[derive(Clone, Copy, PartialEq, Eq, Debug)]
pub struct EmptyBlock;

impl fmt::Display for EmptyBlock {
    fn fmt(&self, to: &mut fmt::Formatter) -> fmt::Result {
        to.write_str("the command block is empty")
    }
}

impl core::error::Error for EmptyBlock {}
