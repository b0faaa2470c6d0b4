//! Endpoints that are a few cells, for the Rust of docs/src. Nothing here needs `std`, so a microcontroller has the same.

use core::cell::{Cell, UnsafeCell};
use usb_device::bus::{UsbBus, UsbBusAllocator};
use usb_device::{Result, UsbError};

pub const LARGEST_PACKET: usize = 64;

/// One packet from the host, and the last one to it.
pub struct Cells {
    offered: Cell<Option<*const [u8]>>,
    packet: UnsafeCell<[u8; LARGEST_PACKET]>,
    sent: Cell<usize>,
    stalled: Cell<bool>,
}

pub fn allocator() -> UsbBusAllocator<Cells> {
    UsbBusAllocator::new(Cells {
        offered: Cell::new(None),
        packet: UnsafeCell::new([0; LARGEST_PACKET]),
        sent: Cell::new(0),
        stalled: Cell::new(false),
    })
}

impl Cells {
    /// Before a poll: what the host offers, which the caller holds until the poll is over. Nothing is sent yet.
    #[inline(always)]
    pub fn offer(&self, packet: Option<*const [u8]>) {
        self.offered.set(packet);
        self.sent.set(0);
    }

    /// After a poll: how many bytes it sent. They stand at the front of `packet`.
    #[inline(always)]
    pub fn sent(&self) -> usize {
        self.sent.get()
    }

    /// Only polls write there.
    #[inline(always)]
    pub fn packet(&self) -> *const [u8; LARGEST_PACKET] {
        self.packet.get()
    }
}

impl UsbBus for Cells {
    #[inline(always)]
    fn read(&self, room: &mut [u8]) -> Result<usize> {
        let packet = self.offered.take().ok_or(UsbError::WouldBlock)?;
        // SAFETY: the caller of `offer` holds it until the poll is over.
        let packet = unsafe { &*packet };
        room[..packet.len()].copy_from_slice(packet);
        Ok(packet.len())
    }

    #[inline(always)]
    fn write(&self, packet: &[u8]) -> Result<usize> {
        // SAFETY: the cell is read only between polls, and only one thread has it.
        let to = unsafe { &mut *self.packet.get() };
        to[..packet.len()].copy_from_slice(packet);
        self.sent.set(packet.len());
        Ok(packet.len())
    }

    #[inline(always)]
    fn set_stalled(&self, _endpoint: &'static str, stalled: bool) {
        self.stalled.set(stalled);
    }
}
