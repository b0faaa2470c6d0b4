//! The lines of document 01's `bench`.

use crate::benchfile::{self, Event};
use crate::device::{Device, Outcome};
use crate::endpoints::ScriptedBus;
use crate::show;
use std::fmt::Write;
use usb_device::bus::UsbBusAllocator;
use usbd_storage::transport::bbb::peek::Figures;

/// What comes after each line.
#[derive(Clone, Copy, PartialEq, Eq)]
pub enum Detail {
    Lines,
    /// Everything that a line hides, too.
    Show,
}

/// One event with the record before and after it; none before the creation, and none after a refused one.
pub struct Step<'a> {
    pub event: &'a Event,
    pub before: Option<Figures>,
    pub outcome: &'a Outcome,
    pub after: Option<Figures>,
    /// The bytes that the firmware has put in since the wrapper, which the Rust does not count.
    pub put_in: u32,
    pub io: &'a [u8],
}

/// A file being run, event by event.
pub struct Run<'a> {
    allocator: &'a UsbBusAllocator<ScriptedBus>,
    device: Option<Device<'a>>,
    /// Number of events so far; the next line's index.
    index: usize,
    detail: Detail,
    pub text: String,
}

pub fn allocator() -> UsbBusAllocator<ScriptedBus> {
    UsbBusAllocator::new(ScriptedBus::default())
}

impl<'a> Run<'a> {
    pub fn new(allocator: &'a UsbBusAllocator<ScriptedBus>, detail: Detail) -> Self {
        Run {
            allocator,
            device: None,
            index: 0,
            detail,
            text: String::new(),
        }
    }

    pub fn device(&self) -> Option<&Device<'a>> {
        self.device.as_ref()
    }

    /// Runs one event, adds its line, and lets `watch` see it. False if the run ends: a refused
    /// creation.
    pub fn step(&mut self, event: &Event, watch: &mut dyn FnMut(Step)) -> bool {
        let before = self.device.as_ref().map(Device::figures);
        let outcome = match event {
            Event::Create {
                packet_size,
                max_lun,
                buffer,
            } => match Device::create(self.allocator, *packet_size, *max_lun, *buffer) {
                Ok(device) => {
                    self.device = Some(device);
                    Outcome::answered(0)
                }
                Err(answer) => Outcome::answered(answer),
            },
            _ => self
                .device
                .as_mut()
                .expect("the file's rules put the creation first")
                .apply(event),
        };
        let step = Step {
            event,
            before,
            outcome: &outcome,
            after: self.device.as_ref().map(Device::figures),
            put_in: self.device.as_ref().map_or(0, Device::put_in),
            io: self.device.as_ref().map_or(&[], |device| device.io()),
        };
        line(&mut self.text, self.index, &step);
        if self.detail == Detail::Show {
            show::step(&mut self.text, &step);
        }
        self.index += 1;
        watch(step);
        self.device.is_some()
    }
}

/// The whole output for a file.
pub fn of_file(file: &[u8], detail: Detail, watch: &mut dyn FnMut(Step)) -> String {
    let Ok(events) = benchfile::parse(file) else {
        // Rule 14.
        return "14\n".to_string();
    };
    let allocator = allocator();
    let mut run = Run::new(&allocator, detail);
    for event in &events {
        if !run.step(event, watch) {
            break;
        }
    }
    run.text
}

fn line(text: &mut String, index: usize, step: &Step) {
    let Outcome {
        answer,
        count,
        stalls,
        bytes,
        missing,
        ..
    } = step.outcome;
    let (state, left, unread) = step
        .after
        .map_or((0, 0, 0), |after| (after.state, after.left, after.unread()));
    write!(
        text,
        "{index} {answer} {state} {left} {unread} {count} {stalls} "
    )
    .expect("a string");
    hex_or_dash(text, bytes);
    writeln!(text, " {missing}").expect("a string");
}

pub fn hex_or_dash(text: &mut String, bytes: &[u8]) {
    if bytes.is_empty() {
        text.push('-');
    }
    hex(text, bytes);
}

pub fn hex(text: &mut String, bytes: &[u8]) {
    const DIGITS: &[u8; 16] = b"0123456789abcdef";
    for byte in bytes {
        text.push(char::from(DIGITS[usize::from(byte >> 4)]));
        text.push(char::from(DIGITS[usize::from(byte & 15)]));
    }
}

pub fn from_hex(digits: &str) -> Vec<u8> {
    assert!(
        digits.len().is_multiple_of(2) && digits.bytes().all(|digit| digit.is_ascii_hexdigit()),
        "not a line of hex bytes: {digits}"
    );
    (0..digits.len())
        .step_by(2)
        .map(|at| u8::from_str_radix(&digits[at..at + 2], 16).expect("two hex digits"))
        .collect()
}
