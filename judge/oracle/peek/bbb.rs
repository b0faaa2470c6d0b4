//! Shows what is private in bbb.rs. The build appends this module after the unchanged text.

use super::{BulkOnly, CSW_LEN, DataDirection, State};
use crate::transport::CommandStatus;
use core::borrow::BorrowMut;
use usb_device::bus::UsbBus;

/// `buffer` is private to the crate; through this name the buffer is driven alone.
pub use crate::buffer::Buffer;

/// All of the record except the bytes of the IO buffer.
#[derive(Clone, Copy, PartialEq, Eq, Debug)]
pub struct Figures {
    pub state: u8,
    pub left: u32,
    pub read_mark: usize,
    pub write_mark: usize,
    pub buffer_length: usize,
    pub packet_size: usize,
    pub tag: u32,
    pub length: u32,
    pub direction: &'static str,
    pub lun: u8,
    pub block_length: usize,
    pub block: [u8; 16],
    /// Status byte and residue.
    pub status: Option<(u8, u32)>,
}

impl Figures {
    pub fn unread(&self) -> usize {
        self.write_mark - self.read_mark
    }

    pub fn room_after_moving(&self) -> usize {
        self.buffer_length - self.unread()
    }
}

impl<Bus: UsbBus, Buf: BorrowMut<[u8]>> BulkOnly<'_, Bus, Buf> {
    pub fn peek_figures(&self) -> Figures {
        let (read_mark, write_mark) = self.buf.peek_marks();
        Figures {
            state: number_of(self.state),
            left: self.left_to_transfer,
            read_mark,
            write_mark,
            buffer_length: self.buf.peek_bytes().len(),
            packet_size: self.packet_size(),
            tag: self.cbw.tag,
            length: self.cbw.data_transfer_len,
            direction: match self.cbw.direction {
                DataDirection::Out => "out",
                DataDirection::In => "in",
                DataDirection::NotExpected => "none",
            },
            lun: self.cbw.lun,
            block_length: self.cbw.block_len,
            block: self.cbw.block,
            status: self
                .cs
                .as_ref()
                .map(|status| (status.status as u8, status.data_residue)),
        }
    }

    pub fn peek_io(&self) -> &[u8] {
        self.buf.peek_bytes()
    }

    pub fn peek_missing(&self, wanted: usize) -> usize {
        self.buf.peek_missing(wanted)
    }

    /// The status for a wrapper of this tag and length, which is put in place as if it had been read:
    /// over the wire a status comes only after `length` bytes of data.
    pub fn peek_csw(
        &mut self,
        tag: u32,
        length: u32,
        status: CommandStatus,
        figure: u32,
    ) -> [u8; CSW_LEN] {
        self.cbw.tag = tag;
        self.cbw.data_transfer_len = length;
        self.state = State::DataTransferNoData;
        self.set_status(status, figure);
        self.build_csw()
            .expect("LOUD: a status was set and none is built")
    }
}

/// Document 01's numbers, which are not in the order of the enum.
fn number_of(state: State) -> u8 {
    match state {
        State::CommandTransfer => 0,
        State::CommandTransferInvalid => 1,
        State::DataTransferNoData => 2,
        State::StatusTransfer => 3,
        State::DataTransferToHost => 4,
        State::DataTransferToHostStatusAwait => 5,
        State::DataTransferToHostEnding => 6,
        State::DataTransferFromHost => 7,
        State::DataTransferFromHostEnding => 8,
    }
}
