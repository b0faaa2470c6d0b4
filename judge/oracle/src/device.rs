//! The Rust device, driven by one bench event at a time.
//!
//! Rules of document 01 that the Rust lacks are tested here before the Rust is called, each under a
//! comment `Rule N`. Everything else is the Rust's own answer.

use crate::benchfile::{Event, Offers, OutAnswer};
use crate::endpoints::{ScriptedBus, Seen};
use crate::panics;
use crate::putin::PutIn;
use usb_device::UsbError;
use usb_device::bus::UsbBusAllocator;
use usb_device::class::{ControlIn, UsbClass};
use usb_device::control::Request;
use usbd_storage::subclass::scsi::{Scsi, ScsiCommand};
use usbd_storage::transport::bbb::peek::Figures;
use usbd_storage::transport::bbb::{BulkOnly, BulkOnlyError};
use usbd_storage::transport::{CommandStatus, Transport, TransportError};

const LARGEST_BUFFER: u32 = 65_536;

pub struct Device<'a> {
    bus: &'a ScriptedBus,
    scsi: Scsi<BulkOnly<'a, ScriptedBus, Vec<u8>>>,
    packet_size: usize,
    put_in: PutIn,
}

/// What one event showed, in the terms of a `bench` line.
pub struct Outcome {
    pub answer: u8,
    /// The endpoint's error number; only with answer 7.
    pub carried: Option<u8>,
    pub count: usize,
    pub stalls: &'static str,
    pub bytes: Vec<u8>,
    /// Bytes of room that were missing; 0 with every answer but 1.
    pub missing: usize,
    /// What a command step decoded, in this build: the Rust is not told.
    pub command: Option<ScsiCommand>,
}

impl Outcome {
    pub fn answered(answer: u8) -> Outcome {
        Outcome {
            answer,
            carried: None,
            count: 0,
            stalls: "-",
            bytes: Vec::new(),
            missing: 0,
            command: None,
        }
    }
}

fn number_of(error: BulkOnlyError) -> u8 {
    match error {
        BulkOnlyError::IoBufferOverflow => 1,
        BulkOnlyError::InvalidMaxLun => 2,
        BulkOnlyError::InvalidState => 3,
        BulkOnlyError::FullPacketExpected => 4,
        BulkOnlyError::BufferTooSmall => 5,
    }
}

pub fn command_status(byte: u8) -> Option<CommandStatus> {
    match byte {
        0 => Some(CommandStatus::Passed),
        1 => Some(CommandStatus::Failed),
        2 => Some(CommandStatus::PhaseError),
        _ => None,
    }
}

impl<'a> Device<'a> {
    /// The device, or the answer that refuses it. 2 and 5 are the Rust's; 8 and 9 come after them,
    /// in the order of document 01.
    pub fn create(
        allocator: &'a UsbBusAllocator<ScriptedBus>,
        packet_size: u16,
        max_lun: u8,
        buffer: u32,
    ) -> Result<Device<'a>, u8> {
        // A longer buffer is refused in any case, so it need not be allocated.
        let allocated = buffer.min(LARGEST_BUFFER + 1) as usize;
        let scsi =
            Scsi::new(allocator, packet_size, max_lun, vec![0; allocated]).map_err(number_of)?;
        // Rule 8: a packet size outside the domain.
        if !matches!(packet_size, 8 | 16 | 32 | 64) {
            return Err(8);
        }
        // Rule 9: a buffer above 65,536.
        if buffer > LARGEST_BUFFER {
            return Err(9);
        }
        Ok(Device {
            bus: allocator.bus(),
            scsi,
            packet_size: usize::from(packet_size),
            put_in: PutIn::default(),
        })
    }

    pub fn figures(&self) -> Figures {
        self.scsi.peek_transport().peek_figures()
    }

    pub fn io(&self) -> &[u8] {
        self.scsi.peek_transport().peek_io()
    }

    /// The bytes that the firmware has put in since the wrapper.
    pub fn put_in(&self) -> u32 {
        self.put_in.0
    }

    pub fn apply(&mut self, event: &Event) -> Outcome {
        let before = self.figures();
        let outcome = self.run(event);
        self.put_in = self.put_in.after(event, &before, &outcome, &self.figures());
        outcome
    }

    fn run(&mut self, event: &Event) -> Outcome {
        match event {
            Event::Create { .. } => unreachable!("the file's rules let no second creation through"),
            Event::Poll(offers) => self.poll(offers),
            Event::Status { status, figure } => self.set_status(*status, *figure),
            Event::WriteData(source) => self.write_data(source),
            Event::TryWriteDataAll(source) => self.try_write_data_all(source),
            Event::ReadData { room } => self.read_data(usize::from(*room)),
            Event::Reset => self.reset(),
            Event::Control {
                bm_request_type,
                request,
            } => self.control(*bm_request_type, *request),
            Event::Command { .. } => self.command(),
        }
    }

    fn transport(&mut self) -> &mut BulkOnly<'a, ScriptedBus, Vec<u8>> {
        self.scsi.peek_transport_mut()
    }

    /// A call has failed that wants room for this many bytes, all or none of them: 0 for a call that takes what there is.
    fn failed(&self, wanted: usize, error: TransportError<BulkOnlyError>) -> Outcome {
        let (answer, carried) = match error {
            TransportError::Usb(UsbError::WouldBlock) => (6, None),
            TransportError::Usb(UsbError::Endpoint(number)) => (7, Some(number)),
            TransportError::Error(error) => (number_of(error), None),
        };
        let missing = match answer {
            1 => self.scsi.peek_transport().peek_missing(wanted),
            _ => 0,
        };
        Outcome {
            carried,
            missing,
            ..Outcome::answered(answer)
        }
    }

    fn poll(&mut self, offers: &Offers) -> Outcome {
        // Rule 11: an offered packet above P, asked for or not (ruling 6).
        let too_long = |out: &OutAnswer| match out {
            OutAnswer::Packet(packet) => packet.len() > self.packet_size,
            OutAnswer::Busy | OutAnswer::Error(_) => false,
        };
        if offers.out.iter().any(too_long) {
            return Outcome::answered(11);
        }
        self.bus.begin_poll(self.packet_size, offers.clone());
        let result = self.transport().poll();
        let seen = self.bus.finish();
        Outcome {
            count: seen.packets_taken,
            stalls: seen.stalls,
            bytes: seen.bytes_sent,
            // A packet read wants P, however short the packet is: OUT has not been asked yet.
            ..result.map_or_else(
                |error| self.failed(self.packet_size, error),
                |()| Outcome::answered(0),
            )
        }
    }

    fn set_status(&mut self, status: u8, figure: u32) -> Outcome {
        let status =
            command_status(status).expect("the file's rules let no other status byte through");
        let before = self.figures();
        self.bus.begin_call();
        // Rule 12: here the Rust panics.
        let accepted = panics::catch(panics::SET_STATUS, || {
            self.transport().set_status(status, figure)
        });
        self.expect_no_stalls();
        if accepted.is_some() {
            return Outcome::answered(0);
        }
        assert_eq!(before, self.figures(), "LOUD: 12 left something changed");
        Outcome::answered(12)
    }

    fn write_data(&mut self, source: &[u8]) -> Outcome {
        self.bus.begin_call();
        let result = self.transport().write_data(source);
        self.expect_no_stalls();
        let done = |count| Outcome {
            count,
            ..Outcome::answered(0)
        };
        result.map_or_else(|error| self.failed(0, error), done)
    }

    fn try_write_data_all(&mut self, source: &[u8]) -> Outcome {
        self.bus.begin_call();
        let result = self.transport().try_write_data_all(source);
        self.expect_no_stalls();
        let done = |()| Outcome {
            count: source.len(),
            ..Outcome::answered(0)
        };
        result.map_or_else(|error| self.failed(source.len(), error), done)
    }

    fn read_data(&mut self, room: usize) -> Outcome {
        let mut destination = vec![0; room];
        self.bus.begin_call();
        let result = self.transport().read_data(&mut destination);
        self.expect_no_stalls();
        let done = |count| {
            destination.truncate(count);
            Outcome {
                count,
                bytes: destination,
                ..Outcome::answered(0)
            }
        };
        result.map_or_else(|error| self.failed(0, error), done)
    }

    fn reset(&mut self) -> Outcome {
        self.bus.begin_call();
        self.scsi.reset();
        Outcome {
            stalls: self.finish_call().stalls,
            ..Outcome::answered(0)
        }
    }

    fn control(&mut self, bm_request_type: u8, request: u8) -> Outcome {
        let mut answer = Vec::new();
        self.bus.begin_call();
        // `usb_device` calls `control_in` only for requests from device to host (bit 7); the Rust
        // has no `control_out`. The Rust itself tests type and recipient.
        if bm_request_type & 0x80 != 0 {
            let request = Request::new(bm_request_type, request);
            self.scsi.control_in(ControlIn::new(request, &mut answer));
        }
        Outcome {
            stalls: self.finish_call().stalls,
            bytes: answer,
            ..Outcome::answered(0)
        }
    }

    /// Offer and decode. The callback's error keeps the Rust from polling after it: that poll is a
    /// separate event (ruling 14).
    fn command(&mut self) -> Outcome {
        let shown = self.scsi.peek_transport().get_command().map(|command| {
            let mut bytes = vec![command.lun];
            bytes.extend_from_slice(command.bytes);
            bytes
        });
        let before = self.figures();
        let mut offered = None;
        self.bus.begin_call();
        // Rule 13: here the Rust panics because of an empty block.
        let result = panics::catch(panics::EMPTY_BLOCK, || {
            self.scsi.poll_command(|command| {
                offered = Some((command.lun, command.kind));
                Err(TransportError::Error(BulkOnlyError::InvalidState))
            })
        });
        self.expect_no_stalls();
        assert_eq!(
            before,
            self.figures(),
            "LOUD: a command step changed something"
        );
        match (result, offered) {
            (None, _) => Outcome::answered(13),
            (Some(result), None) => {
                assert!(result.is_ok(), "LOUD: a poll without an offered command");
                Outcome::answered(0)
            }
            (Some(_), Some((lun, kind))) => {
                let bytes = shown.expect("LOUD: offered without being shown");
                assert_eq!(bytes[0], lun, "LOUD: offered for another LUN than shown");
                Outcome {
                    bytes,
                    command: Some(kind),
                    ..Outcome::answered(0)
                }
            }
        }
    }

    fn finish_call(&mut self) -> Seen {
        self.bus.finish()
    }

    fn expect_no_stalls(&mut self) {
        assert_eq!(self.finish_call().stalls, "-", "LOUD: a stall by a call");
    }
}
