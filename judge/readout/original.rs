//! The Rust of docs/src over endpoints that are a few cells. Its calls are made through functions that are not inlined, like
//! the functions of a library.

use crate::cells::{Cells, LARGEST_PACKET};
use crate::story::{BUFFER, Side};
use usb_device::bus::UsbBusAllocator;
use usbd_storage::transport::bbb::{BulkOnly, BulkOnlyError};
use usbd_storage::transport::{CommandStatus, Transport, TransportError};

type Device<'a> = BulkOnly<'a, Cells, [u8; BUFFER]>;
type Polled = core::result::Result<(), TransportError<BulkOnlyError>>;

pub struct Original<'a> {
    device: Device<'a>,
    bus: &'a Cells,
}

impl<'a> Original<'a> {
    pub fn new(allocator: &'a UsbBusAllocator<Cells>, packet_size: usize) -> Original<'a> {
        let device = BulkOnly::new(allocator, packet_size as u16, 0, [0; BUFFER]);
        Original {
            device: device.unwrap_or_else(|_| panic!("no device")),
            bus: allocator.bus(),
        }
    }
}

impl Side for Original<'_> {
    #[inline(always)]
    fn poll(&mut self, offered: Option<&[u8]>) -> (u8, usize) {
        self.bus.offer(offered.map(|packet| packet as *const [u8]));
        let polled = poll(&mut self.device);
        (number(polled), self.bus.sent())
    }

    fn packet(&self) -> &[u8; LARGEST_PACKET] {
        // SAFETY: no poll runs, so nobody writes.
        unsafe { &*self.bus.packet() }
    }

    #[inline(always)]
    fn write_data(&mut self, source: &[u8]) -> usize {
        write_data(&mut self.device, source)
    }

    #[inline(always)]
    fn read_data(&mut self, destination: &mut [u8]) -> usize {
        read_data(&mut self.device, destination)
    }

    #[inline(always)]
    fn set_status(&mut self, processed: u32) {
        set_status(&mut self.device, processed);
    }
}

#[inline(never)]
fn poll(device: &mut Device) -> Polled {
    device.poll()
}

/// The answer's number, for the three answers that occur here; any other would make the sums of the two sides differ.
#[inline(always)]
fn number(polled: Polled) -> u8 {
    match polled {
        Ok(()) => 0,
        Err(TransportError::Error(_)) => 4,
        Err(TransportError::Usb(_)) => 6,
    }
}

#[inline(never)]
fn write_data(device: &mut Device, source: &[u8]) -> usize {
    device.write_data(source).unwrap_or(0)
}

#[inline(never)]
fn read_data(device: &mut Device, destination: &mut [u8]) -> usize {
    device.read_data(destination).unwrap_or(0)
}

#[inline(never)]
fn set_status(device: &mut Device, processed: u32) {
    device.set_status(CommandStatus::Passed, processed);
}
