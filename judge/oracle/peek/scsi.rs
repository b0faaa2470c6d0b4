//! Shows what is private in scsi.rs. The build appends this module after the unchanged text.

use super::{Scsi, ScsiCommand, parse_cb};
use crate::transport::Transport;

impl<T: Transport> Scsi<T> {
    pub fn peek_transport(&self) -> &T {
        &self.transport
    }

    /// For the calls that a firmware makes on the transport, and for a poll whose answer is needed:
    /// `UsbClass::poll` drops the answer.
    pub fn peek_transport_mut(&mut self) -> &mut T {
        &mut self.transport
    }
}

/// The decoder alone, for a block of any length.
pub fn peek_parse_cb(block: &[u8]) -> ScsiCommand {
    parse_cb(block)
}
