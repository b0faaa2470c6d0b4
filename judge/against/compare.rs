//! One file through the archive and through the Rust, event by event.

use crate::bench::layout::{self, number};
use crate::bench::play::{Seen, Tally, play};
use crate::bench::{Checked, require};
use crate::words;
use oracle::benchfile::Event;
use oracle::decode;
use oracle::lines::{self, Detail, Run, Step};
use souklavanh::Device;
use usbd_storage::transport::bbb::peek::Figures;

/// Returns the lines, which are the same from both.
pub fn file(events: &[Event], tally: &mut Tally) -> Checked<String> {
    let allocator = lines::allocator();
    let mut rust = Run::new(&allocator, Detail::Lines);
    let text = play(events, tally, &mut |seen| {
        let mut same = Ok(());
        rust.step(seen.event, &mut |step| same = compare(&seen, &step));
        same
    })?;
    require(
        text == rust.text,
        "the lines are not the Rust's, though all events are the same",
    )?;
    Ok(text)
}

/// The last line of a run without a difference.
pub fn summary(tally: &Tally) -> String {
    let build = if decode::is_extended() {
        "with"
    } else {
        "without"
    };
    format!(
        "{} files, {} events, 0 different from the Rust {build} extended addressing; {} calls refused as they have to be",
        tally.files, tally.events, tally.probes
    )
}

fn compare(ours: &Seen, rust: &Step) -> Checked {
    same("answer", &ours.outcome.answer, &rust.outcome.answer)?;
    same("carried", &ours.outcome.carried, &rust.outcome.carried)?;
    same("count", &ours.outcome.count, &rust.outcome.count)?;
    same("stalls", &ours.outcome.stalls, &rust.outcome.stalls)?;
    same("bytes", &ours.outcome.bytes, &rust.outcome.bytes)?;
    same("missing", &ours.outcome.missing, &rust.outcome.missing)?;
    same(
        "command",
        &decoded(ours)?,
        &rust.outcome.command.as_ref().map(decode::text),
    )?;
    match (ours.device, &rust.after) {
        (Some(device), Some(figures)) => {
            same("record", &figures_of(device.record()), figures)?;
            same("put in", &device.put_in(), &rust.put_in)?;
            compare_shown(device, figures)?;
        }
        (None, None) => {}
        _ => return Err("one side has a device and the other has none".to_string()),
    }
    require(
        ours.device.map_or(&[][..], Device::io) == rust.io,
        "the IO buffers differ",
    )
}

fn same<T: PartialEq + std::fmt::Debug>(what: &str, ours: &T, rust: &T) -> Checked {
    if ours == rust {
        return Ok(());
    }
    Err(format!("{what}: ours {ours:?}, the Rust's {rust:?}"))
}

/// What a command step decodes, told as the Rust was built. What the file tells it was decoded too; if that is the same, the command
/// has to be the same.
fn decoded(ours: &Seen) -> Checked<Option<String>> {
    let (Event::Command { .. }, Some(device)) = (ours.event, ours.device) else {
        return Ok(None);
    };
    let extended = decode::is_extended();
    let offer = device.command_step_told(extended).ok().flatten();
    let command = offer.map(|offer| offer.command);
    require(
        ours.event.is_extended() != extended || ours.outcome.command == command,
        "the same step decodes another command",
    )?;
    Ok(command.as_ref().map(words::of))
}

/// A command is shown in every state but 0, and is the one of the Rust's wrapper.
fn compare_shown(device: &Device, rust: &Figures) -> Checked {
    let shown = device
        .command()
        .map_err(|error| format!("showing the command: {error}"))?
        .map(|command| (command.lun, command.block().to_vec()));
    let due = (rust.state != 0).then(|| (rust.lun, rust.block[..rust.block_length].to_vec()));
    same("command shown", &shown, &due)
}

/// The record in the Rust's terms. Max LUN is not one of its figures; it is tested after every call that max LUN stays.
fn figures_of(record: &[u8]) -> Figures {
    Figures {
        state: record[layout::STATE],
        left: number(record, layout::LEFT),
        read_mark: number(record, layout::READ) as usize,
        write_mark: number(record, layout::WRITE) as usize,
        buffer_length: number(record, layout::LENGTH) as usize,
        packet_size: usize::from(record[layout::PACKET]),
        tag: number(record, layout::TAG),
        length: number(record, layout::DECLARED),
        direction: ["none", "in", "out"][usize::from(record[layout::DIRECTION])],
        lun: record[layout::LUN],
        block_length: usize::from(record[layout::BLOCK_LENGTH]),
        block: record[layout::BLOCK..][..layout::BLOCK_BYTES]
            .try_into()
            .expect("a block has 16 bytes"),
        status: (record[layout::PRESENT] == 1)
            .then(|| (record[layout::STATUS], number(record, layout::RESIDUE))),
    }
}
