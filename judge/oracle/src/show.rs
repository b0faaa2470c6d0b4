//! `--show`: everything that a line hides, in separate lines after it. Each is indented by two spaces
//! and starts with one fixed word.

use crate::benchfile::{Event, InAnswer, OutAnswer};
use crate::decode;
use crate::lines::{Step, hex, hex_or_dash};
use std::fmt::Write;
use usbd_storage::transport::bbb::peek::Figures;

/// A longer buffer is shown only up to its write mark.
const SHOWN_WHOLE: usize = 512;

/// In place of a command, where the step is told another thing than what this build does.
const OTHER_BUILD: &str = "other-build";

pub fn step(text: &mut String, step: &Step) {
    text.push_str("  event ");
    event(text, step.event);
    if let Some(number) = step.outcome.carried {
        write!(text, "\n  carried {number}").expect("a string");
    }
    if let Some(command) = &step.outcome.command {
        let words = if step.event.is_extended() == decode::is_extended() {
            decode::text(command)
        } else {
            OTHER_BUILD.to_string()
        };
        write!(text, "\n  command {words}").expect("a string");
    }
    match &step.after {
        Some(figures) => record(text, figures, step.put_in, step.io),
        None => text.push_str("\n  no device"),
    }
    text.push('\n');
}

pub fn event(text: &mut String, event: &Event) {
    match event {
        Event::Create {
            packet_size,
            max_lun,
            buffer,
        } => write!(
            text,
            "create packet {packet_size} maxlun {max_lun} buffer {buffer}"
        ),
        Event::Poll(offers) => {
            match offers.in_answer {
                InAnswer::Accepts => text.push_str("poll in accepts"),
                InAnswer::Busy => text.push_str("poll in busy"),
                InAnswer::Error(number) => {
                    write!(text, "poll in error {number}").expect("a string")
                }
            }
            for out in &offers.out {
                match out {
                    OutAnswer::Packet(packet) => {
                        write!(text, " out packet {} ", packet.len()).expect("a string");
                        hex_or_dash(text, packet);
                    }
                    OutAnswer::Busy => text.push_str(" out busy"),
                    OutAnswer::Error(number) => {
                        write!(text, " out error {number}").expect("a string");
                    }
                }
            }
            Ok(())
        }
        Event::Status { status, figure } => write!(text, "status {status} figure {figure}"),
        Event::WriteData(source) => write!(text, "write_data {}", source.len()),
        Event::TryWriteDataAll(source) => write!(text, "try_write_data_all {}", source.len()),
        Event::ReadData { room } => write!(text, "read_data room {room}"),
        Event::Reset => write!(text, "reset"),
        Event::Control {
            bm_request_type,
            request,
        } => write!(text, "control {bm_request_type:02x} {request:02x}"),
        Event::Command { told: None } => write!(text, "command"),
        Event::Command { told: Some(told) } => write!(text, "command told {}", u8::from(*told)),
    }
    .expect("a string");
}

fn record(text: &mut String, figures: &Figures, put_in: u32, io: &[u8]) {
    let Figures {
        read_mark,
        write_mark,
        status,
        ..
    } = figures;
    write!(text, "\n  marks read {read_mark} write {write_mark}").expect("a string");
    write!(text, "\n  put-in {put_in}").expect("a string");
    text.push_str("\n  wrapper ");
    wrapper(text, figures);
    match status {
        Some((status, residue)) => write!(text, "\n  status {status} residue {residue}"),
        None => write!(text, "\n  status none"),
    }
    .expect("a string");
    let shown = if io.len() <= SHOWN_WHOLE {
        io
    } else {
        &io[..*write_mark]
    };
    write!(text, "\n  buffer {} ", io.len()).expect("a string");
    hex_or_dash(text, shown);
}

pub fn wrapper(text: &mut String, figures: &Figures) {
    let Figures {
        tag,
        length,
        direction,
        lun,
        block_length,
        block,
        ..
    } = figures;
    write!(
        text,
        "tag {tag} length {length} direction {direction} lun {lun} block {block_length} "
    )
    .expect("a string");
    hex(text, block);
}
