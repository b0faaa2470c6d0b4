//! A USB mass-storage Bulk-Only socket over an archive. Every call of the archive is proved against its contract.
//!
//! A [`Device`] holds its record of 56 bytes and borrows the IO buffer. It knows no USB stack. The firmware tells each
//! [`Device::poll`] what its endpoints would answer ([`Endpoints`]), and does what the [`Poll`] reports: it takes that many
//! OUT packets off the endpoint, sends the bytes at the front of the packet buffer, and stalls or unstalls both endpoints.
//!
//! ```
//! use souklavanh::{CommandStatus, Device, Endpoints, ScsiCommand, State};
//!
//! let mut buffer = [0; 512];
//! let mut device = Device::new(64, 0, &mut buffer).unwrap();
//! let mut packet = [0; 64];
//!
//! // The host asks whether the unit is ready: a wrapper with tag 1, no data and six bytes of command block, all 0.
//! let mut wrapper = [0; 31];
//! wrapper[..4].copy_from_slice(b"USBC");
//! wrapper[4] = 1;
//! wrapper[14] = 6;
//! let poll = device.poll(Endpoints::offering(&wrapper), &mut packet);
//! assert_eq!((poll.result, poll.taken), (Ok(()), 1));
//! assert_eq!(device.state(), Some(State::DataTransferToHostStatusAwait));
//!
//! // The firmware looks at the command and answers it.
//! let offer = device.command_step().unwrap().unwrap();
//! assert_eq!((offer.lun, offer.command), (0, ScsiCommand::TestUnitReady));
//! device.set_status(CommandStatus::Passed, 0).unwrap();
//!
//! // The next poll sends the status.
//! let poll = device.poll(Endpoints::silent(), &mut packet);
//! assert_eq!(&packet[..poll.sent], b"USBS\x01\0\0\0\0\0\0\0\0");
//! ```
//!
//! # Large cards
//!
//! A host that addresses more than 2 TiB, and some that do not, send READ (16) and WRITE (16). [`Device::command_step`] and
//! [`decode`] count both. The crate usbd-storage counts them only with its feature `extended_addressing`; who wants what its
//! default build does calls [`Device::command_step_told`] and [`decode_told`] with `false`.
//!
//! # A bus reset
//!
//! After a bus reset, or if the plug was pulled, the firmware starts afresh, in this order:
//!
//! 1. It empties both endpoints. A packet that was handed to IN and is not yet fetched must not go out after the reset: the host
//!    would take it for the answer to its next command, and every status would come one command late. An OUT packet that came
//!    before the reset must not be offered after it. Not every peripheral does this by itself, and the firmware may hand over
//!    one more packet before it sees the reset. A packet that comes after the reset is the host's next command and stays.
//! 2. It calls [`Device::renew`] and unstalls both endpoints, as that call reports.
//! 3. It forgets the command that it was working on.
//!
//! | call | is for |
//! |---|---|
//! | [`Device::new`] | power-up, and a record that is broken |
//! | [`Device::renew`] | a bus reset, or a plug that was pulled: a new device over the same buffer |
//! | [`Device::reset`] | what the Rust crate usbd-storage does at a reset: unread bytes stay. Not for a bus reset |
//!
//! # The build
//!
//! The build links the archive that the variable `SOUKLAVANH_ARCHIVE` names; `tools/archive` makes one for this machine, and
//! `tools/archive cortex-m3` one for a microcontroller. The package has no dependencies and does not use `std`. The archive
//! itself needs `memset`, on a microcontroller also `memcpy` and `memmove`; on Arm by the names of its run-time ABI, such as
//! `__aeabi_memcpy`.

#![no_std]

mod answer;
mod command;
mod device;
mod endpoints;
pub mod ffi;
mod state;
mod verdict;

pub use answer::{CreateError, EmptyBlock, Error};
pub use command::{Command, Offer, PageControl, ScsiCommand, decode, decode_told};
pub use device::{Control, Device, RECORD_LENGTH};
pub use endpoints::{EndpointError, Endpoints, In, Out, Poll, Stalls};
pub use state::{CommandStatus, State};
pub use verdict::{Verdict, verdict};
