//! The firmware of a random file: calls that fit the state and calls that do not. What a command step is told is not chosen here.

use crate::benchfile::Event;
use crate::host::Host;
use crate::lines::Step;
use crate::rng::Rng;
use crate::temper::Temper;
use usbd_storage::transport::bbb::peek::Figures;

/// Chooses a file's next event. Polls come with what the host offers.
pub struct Firmware {
    temper: Temper,
    /// A wrapper has just been parsed: the firmware will probably look at the command.
    fresh: bool,
    /// Polls in a row that found no room for a packet; only the end of the file helps then.
    full: usize,
}

impl Firmware {
    pub fn new(temper: Temper) -> Firmware {
        Firmware {
            temper,
            fresh: false,
            full: 0,
        }
    }

    pub fn saw(&mut self, step: &Step) {
        let (Some(before), Some(after)) = (step.before, step.after) else {
            return;
        };
        self.fresh = matches!(before.state, 0 | 3) && !matches!(after.state, 0 | 3);
        self.full = match (after.state, step.outcome.answer) {
            (0 | 7, 1) => self.full + 1,
            _ => 0,
        };
    }

    pub fn next_event(
        &mut self,
        now: &Figures,
        host: &mut Host,
        rng: &mut Rng,
        unshown: &[(u8, usize)],
    ) -> Option<Event> {
        if self.full > 2 && now.state == 0 {
            return None;
        }
        if self.fresh && rng.percent(85) {
            return Some(Event::Command { told: None });
        }
        // The two endings last only a few polls.
        let stray_chance = match now.state {
            6 | 8 => 2 * self.temper.stray,
            _ => self.temper.stray,
        };
        if rng.percent(stray_chance) {
            return Some(stray(rng, 2 * now.packet_size));
        }
        Some(match now.state {
            1 if rng.percent(50) => again(rng),
            // All data is through: with a status set now, the next poll goes on to send it.
            4 | 7 if now.left == 0 && now.status.is_none() && rng.percent(50) => {
                status(rng, figure_for(now))
            }
            4 if rng.percent(50) => self.during_in(now, rng),
            5 if now.status.is_none() && rng.percent(70) => status(rng, figure_for(now)),
            5 if rng.percent(10) => status(rng, figure_for(now)),
            7 if rng.percent(35) => self.during_out(now, rng),
            // There is more data than the file has room for: do not wait for its end.
            6 | 8 if now.left as usize > 20 * now.packet_size && rng.percent(30) => again(rng),
            _ => host.poll(now, &self.temper, rng, unshown),
        })
    }

    fn during_in(&self, now: &Figures, rng: &mut Rng) -> Event {
        if rng.percent(self.temper.early_status) {
            return status(rng, figure_for(now));
        }
        let cap = if rng.percent(2) { 20_000 } else { 1_500 };
        let room = now.room_after_moving();
        let left = now.left as usize;
        let behind_mark = now.buffer_length - now.write_mark;
        let few = rng.between(1, 8);
        let count = rng.pick(&[
            0,
            few,
            now.packet_size,
            left,
            left + 1,
            left + few,
            left.saturating_sub(1),
            room,
            room + 1,
            behind_mark + 1,
            behind_mark,
        ]);
        let count = if count > cap { rng.below(40) } else { count };
        let source = rng.bytes(count);
        if rng.percent(60) {
            Event::WriteData(source)
        } else {
            Event::TryWriteDataAll(source)
        }
    }

    fn during_out(&self, now: &Figures, rng: &mut Rng) -> Event {
        if rng.percent(self.temper.early_status) {
            return status(rng, figure_for(now));
        }
        let unread = now.unread();
        let room = rng.pick(&[0, 1, unread / 2, unread, unread, unread + 1, 600]);
        Event::ReadData { room: room as u16 }
    }
}

/// Any event but a poll and a creation, whatever the state.
pub fn stray(rng: &mut Rng, longest: usize) -> Event {
    match rng.below(14) {
        0 => Event::Reset,
        1 => control(0xA1, 0xFF),
        2 | 3 => control(0xA1, 0xFE),
        4 => control(0x21, 0xFF),
        5 => control(0xA1, rng.byte()),
        6 => control(rng.byte(), rng.pick(&[0xFE, 0xFF, 0])),
        7 | 8 => Event::Command { told: None },
        9 => status(rng, |rng| rng.next() as u32),
        10 => Event::WriteData(some_bytes(rng, longest)),
        11 => Event::TryWriteDataAll(some_bytes(rng, longest)),
        _ => Event::ReadData {
            room: rng.below(longest + 1) as u16,
        },
    }
}

fn some_bytes(rng: &mut Rng, longest: usize) -> Vec<u8> {
    let count = rng.below(longest + 1);
    rng.bytes(count)
}

fn control(bm_request_type: u8, request: u8) -> Event {
    Event::Control {
        bm_request_type,
        request,
    }
}

fn status(rng: &mut Rng, figure: impl Fn(&mut Rng) -> u32) -> Event {
    Event::Status {
        status: rng.below(3) as u8,
        figure: figure(rng),
    }
}

/// Back to waiting for a wrapper.
fn again(rng: &mut Rng) -> Event {
    if rng.percent(50) {
        Event::Reset
    } else {
        control(0xA1, 0xFF)
    }
}

/// Numbers around L, since the residue is L less the figure.
fn figure_for(now: &Figures) -> impl Fn(&mut Rng) -> u32 {
    let length = now.length;
    move |rng| match rng.below(5) {
        0 => 0,
        1 => length,
        2 => length.saturating_add(1),
        3 => length.saturating_sub(1),
        _ => rng.next() as u32,
    }
}
