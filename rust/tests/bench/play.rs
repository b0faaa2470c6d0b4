//! A bench file's events in turn.

use super::guarded::{self, Guarded};
use super::layout::{self, number};
use super::outcome::Outcome;
use super::{Checked, probes, require, wrapped};
use crate::benchfile::Event;
use souklavanh::{Device, State};

/// Events from one round of probes to the next.
const PROBE_EVERY: usize = 397;

/// No device can have more; a longer buffer is refused and need not be allocated for that.
const LONGEST_BUFFER: u32 = 65_536;

/// What has been played so far.
#[derive(Default)]
pub struct Tally {
    pub files: usize,
    pub events: usize,
    /// Calls that were refused, as they must be.
    pub probes: usize,
}

/// An event that was played, and the device after it; none after a refused creation.
pub struct Seen<'s> {
    pub event: &'s Event,
    pub outcome: &'s Outcome,
    pub device: Option<&'s Device<'s>>,
}

/// Plays the events of a good file and gives its lines. `watch` sees each event.
pub fn play(
    events: &[Event],
    tally: &mut Tally,
    watch: &mut dyn FnMut(Seen) -> Checked,
) -> Checked<String> {
    tally.files += 1;
    let mut telling = Telling {
        index: 0,
        text: String::new(),
        watch,
    };
    play_all(events, tally, &mut telling)
        .map_err(|what| format!("event {}: {what}", telling.index))?;
    Ok(telling.text)
}

/// The event that is being played, the lines so far, and the function that sees the events.
struct Telling<'t> {
    index: usize,
    text: String,
    watch: &'t mut dyn FnMut(Seen) -> Checked,
}

impl Telling<'_> {
    fn tell(&mut self, event: &Event, outcome: &Outcome, device: Option<&Device>) -> Checked {
        let (state, left, unread) = device.map_or((0, 0, 0), |device| {
            let state = device.state().map_or(u8::MAX, State::number);
            (state, device.left(), device.unread())
        });
        self.text += &outcome.line(self.index, state, left, unread);
        (self.watch)(Seen {
            event,
            outcome,
            device,
        })
    }
}

fn play_all(events: &[Event], tally: &mut Tally, telling: &mut Telling) -> Checked {
    let Some((creation, calls)) = events.split_first() else {
        return Ok(());
    };
    tally.events += 1;
    let mut io = Vec::new();
    let (answer, devices) = create(creation, &mut io)?;
    let Some((mut device, mut guarded)) = devices else {
        return telling.tell(creation, &Outcome::answered(answer), None);
    };
    require_same(&device, &guarded)?;
    telling.tell(creation, &Outcome::answered(answer), Some(&device))?;
    for event in calls {
        telling.index += 1;
        tally.events += 1;
        let outcome = step(&mut device, &mut guarded, event)?;
        telling.tell(event, &outcome, Some(&device))?;
        if tally.events.is_multiple_of(PROBE_EVERY) {
            tally.probes += probes::refusals(&guarded)?;
        }
    }
    Ok(())
}

/// Both devices, with a buffer that is made for the safe wrapper's device, or the answer that refuses them.
fn create<'a>(
    creation: &Event,
    io: &'a mut Vec<u8>,
) -> Checked<(u8, Option<(Device<'a>, Guarded)>)> {
    let Event::Create {
        packet_size,
        max_lun,
        buffer,
    } = *creation
    else {
        unreachable!("the file's rules put the creation first");
    };
    io.resize(buffer.min(LONGEST_BUFFER + 1) as usize, 0);
    let wrapped = Device::new(u32::from(packet_size), max_lun, io);
    let (answer, guarded) = guarded::create(packet_size, max_lun, buffer)?;
    match (wrapped, guarded) {
        (Ok(device), Some(guarded)) => Ok((answer, Some((device, guarded)))),
        (Err(error), None) if error.number() == answer => Ok((answer, None)),
        _ => Err("the wrapper and the raw call do not agree over the creation".to_string()),
    }
}

/// One event by both devices.
fn step(device: &mut Device, guarded: &mut Guarded, event: &Event) -> Checked<Outcome> {
    let raw = guarded.apply(event)?;
    let outcome = wrapped::apply(device, guarded.packet_size(), event)?;
    // The numbers of a command from the raw call are tested where that call is made.
    let seen = Outcome {
        command: None,
        ..outcome.clone()
    };
    require(
        raw == seen,
        &format!("by the raw call {raw:?}, by the wrapper {seen:?}"),
    )?;
    require_same(device, guarded)?;
    Ok(outcome)
}

/// Both devices are the same in all bytes, and the safe wrapper says of its record what stands there.
fn require_same(device: &Device, guarded: &Guarded) -> Checked {
    let record = guarded.record.all();
    require(
        device.record() == record,
        "the wrapper's record is not the raw one",
    )?;
    require(
        device.io() == guarded.io.all(),
        "the wrapper's IO buffer is not the raw one",
    )?;
    require(
        device.state().map(State::number) == Some(record[layout::STATE])
            && device.left() == number(record, layout::LEFT)
            && device.unread() == number(record, layout::WRITE) - number(record, layout::READ)
            && device.put_in() == number(record, layout::PUT_IN),
        "state, left, unread or what was put in are not the record's",
    )
}
