//! The Rust of docs/src behind the C functions that side.h declares, over endpoints that are a few cells.
//! Here each function is itself the call out of the loop, so nothing in it has to stay a call.
#![no_std]

#[path = "../cells.rs"]
mod cells;

use cells::Cells;
use core::mem::MaybeUninit;
use core::ptr;
use core::slice;
use usb_device::UsbError;
use usb_device::bus::UsbBusAllocator;
use usbd_storage::transport::bbb::{BulkOnly, BulkOnlyError};
use usbd_storage::transport::{CommandStatus, Transport, TransportError};

/// The length of the IO buffer: `SIDE_IO` of side.h.
const BUFFER: usize = 512;

pub struct Original {
    device: BulkOnly<'static, Cells, [u8; BUFFER]>,
    bus: &'static Cells,
}

static mut ALLOCATOR: MaybeUninit<UsbBusAllocator<Cells>> = MaybeUninit::uninit();
static mut ORIGINAL: MaybeUninit<Original> = MaybeUninit::uninit();

/// # Safety
/// What an earlier call gave is used no more.
#[unsafe(no_mangle)]
pub unsafe extern "C" fn original_create(packet_size: u16) -> Option<&'static mut Original> {
    // SAFETY: there is only one thread, and no reference into either place is left.
    let (allocator, original) = unsafe { (&mut *&raw mut ALLOCATOR, &mut *&raw mut ORIGINAL) };
    let allocator: &'static UsbBusAllocator<Cells> = allocator.write(cells::allocator());
    let device = BulkOnly::new(allocator, packet_size, 0, [0; BUFFER]).ok()?;
    Some(original.write(Original {
        device,
        bus: allocator.bus(),
    }))
}

/// The answer's number in the lowest byte, for the three answers that occur here, and how much was sent in the upper half.
///
/// # Safety
/// Where `first` is 0, `one` is `length` bytes until the call is over.
#[unsafe(no_mangle)]
pub unsafe extern "C" fn original_poll(
    original: &mut Original,
    one: *const u8,
    length: usize,
    first: u8,
) -> u64 {
    let offered = (first == 0).then(|| ptr::slice_from_raw_parts(one, length));
    original.bus.offer(offered);
    let answer = match original.device.poll() {
        Ok(()) => 0,
        Err(TransportError::Error(BulkOnlyError::FullPacketExpected)) => 4,
        Err(TransportError::Usb(UsbError::WouldBlock)) => 6,
        Err(_) => 255,
    };
    answer | (original.bus.sent() as u64) << 32
}

#[unsafe(no_mangle)]
pub extern "C" fn original_packet(original: &Original) -> *const u8 {
    original.bus.packet().cast()
}

/// # Safety
/// `source` is `length` bytes.
#[unsafe(no_mangle)]
pub unsafe extern "C" fn original_write_data(
    original: &mut Original,
    source: *const u8,
    length: usize,
) -> usize {
    // SAFETY: see above.
    let source = unsafe { slice::from_raw_parts(source, length) };
    original.device.write_data(source).unwrap_or(0)
}

/// # Safety
/// `destination` is `length` bytes, which nobody else uses.
#[unsafe(no_mangle)]
pub unsafe extern "C" fn original_read_data(
    original: &mut Original,
    destination: *mut u8,
    length: usize,
) -> usize {
    // SAFETY: see above.
    let destination = unsafe { slice::from_raw_parts_mut(destination, length) };
    original.device.read_data(destination).unwrap_or(0)
}

#[unsafe(no_mangle)]
pub extern "C" fn original_set_status(original: &mut Original, processed: u32) {
    original.device.set_status(CommandStatus::Passed, processed);
}

unsafe extern "C" {
    safe fn abort() -> !;
}

#[panic_handler]
fn panic(_: &core::panic::PanicInfo) -> ! {
    abort()
}
