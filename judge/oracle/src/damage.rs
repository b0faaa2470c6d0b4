//! Bench files that break one rule each. All of them are answered by `14` alone.

use crate::benchfile::{Event, LONGEST, encode, encode_raw, event_bytes, trailer};

type Raw = (u8, Vec<u8>);

/// Makes the damaged file from good events: a creation and at least one more.
pub type Damage = fn(&[Event]) -> Vec<u8>;

/// Name of the broken rule, and the damage.
pub const RULES: &[(&str, Damage)] = &[
    ("empty file", |_| Vec::new()),
    ("shorter than a trailer", |_| trailer(0, 0)[1..].to_vec()),
    ("wrong magic", |events| changed_at_end(events, 1, 1)),
    ("magic of another edition", |events| {
        changed_at_end(events, 1, 3)
    }),
    ("count too high", |events| changed_at_end(events, 12, 1)),
    ("count too low", |events| changed_at_end(events, 12, 255)),
    ("count too high by 65536", |events| {
        changed_at_end(events, 10, 1)
    }),
    ("count too high by 16777216", |events| {
        changed_at_end(events, 9, 1)
    }),
    ("last offset too high", |events| {
        changed_at_end(events, 8, 1)
    }),
    ("last offset too high by 65536", |events| {
        changed_at_end(events, 6, 1)
    }),
    ("last offset too high by 16777216", |events| {
        changed_at_end(events, 5, 1)
    }),
    ("last offset too low", |events| {
        changed_at_end(events, 8, 255)
    }),
    ("last offset of the event before", offset_of_event_before),
    ("no events but an offset", |_| trailer(0, 1)),
    ("no events but a count", |_| trailer(1, 0)),
    ("kind byte alone before the trailer", |events| {
        with_tail(events, &[6])
    }),
    ("half a length before the trailer", |events| {
        with_tail(events, &[6, 0])
    }),
    ("event runs over the trailer", |events| {
        with_tail(events, &[3, 1, 0])
    }),
    ("event takes the trailer in", event_takes_trailer_in),
    ("byte behind the trailer", |events| {
        [encode(events), vec![0]].concat()
    }),
    ("trailer missing", |events| {
        let file = encode(events);
        file[..file.len() - 12].to_vec()
    }),
    ("unknown kind 9", |events| with_event(events, 9, &[])),
    ("unknown kind 255", |events| with_event(events, 255, &[])),
    ("first event no creation", |events| encode(&events[1..])),
    ("second creation", |events| {
        with_event(events, 0, &events[0].payload())
    }),
    ("creation of 6 bytes", |events| {
        with_creation(events, |payload| payload.truncate(6))
    }),
    ("creation of 8 bytes", |events| {
        with_creation(events, |payload| payload.push(0))
    }),
    ("poll of 4 bytes", |events| {
        with_event(events, 1, &[0, 1, 1, 0])
    }),
    ("poll shorter than its packets", |events| {
        with_event(events, 1, &[0, 0, 1, 2, 0, 7])
    }),
    ("poll longer than its packets", |events| {
        with_event(events, 1, &[0, 0, 1, 1, 0, 7, 7])
    }),
    ("length with the first OUT busy", |events| {
        with_event(events, 1, &[0, 1, 1, 1, 0, 7])
    }),
    ("length with the second OUT busy", |events| {
        with_event(events, 1, &[0, 1, 1, 0, 1, 7])
    }),
    ("length with an OUT error", |events| {
        with_event(events, 1, &[0, 2, 1, 1, 0, 7])
    }),
    ("length with a second OUT error", |events| {
        with_event(events, 1, &[0, 1, 2, 0, 1, 7])
    }),
    ("status of 4 bytes", |events| with_event(events, 2, &[0; 4])),
    ("status of 6 bytes", |events| with_event(events, 2, &[0; 6])),
    ("status byte 3", |events| {
        with_event(events, 2, &[3, 0, 0, 0, 0])
    }),
    ("status byte 4", |events| {
        with_event(events, 2, &[4, 0, 0, 0, 0])
    }),
    ("status byte 128", |events| {
        with_event(events, 2, &[128, 0, 0, 0, 0])
    }),
    ("status byte 255", |events| {
        with_event(events, 2, &[255, 0, 0, 0, 0])
    }),
    ("read_data of 1 byte", |events| with_event(events, 5, &[0])),
    ("read_data of 3 bytes", |events| {
        with_event(events, 5, &[0; 3])
    }),
    ("reset of 1 byte", |events| with_event(events, 6, &[0])),
    ("control of 1 byte", |events| with_event(events, 7, &[0xA1])),
    ("control of 3 bytes", |events| {
        with_event(events, 7, &[0xA1, 0xFE, 0])
    }),
    ("command step of 2 bytes", |events| {
        with_event(events, 8, &[0; 2])
    }),
    ("command step that carries 2", |events| {
        with_event(events, 8, &[2])
    }),
    ("command step that carries 255", |events| {
        with_event(events, 8, &[255])
    }),
    ("bad event behind a refused creation", |_| {
        encode_raw(&[(0, vec![24, 0, 0, 64, 0, 0, 0]), (2, vec![3, 0, 0, 0, 0])])
    }),
    ("one byte above 65536", |events| {
        filled_to(events, LONGEST + 1)
    }),
];

fn raw(events: &[Event]) -> Vec<Raw> {
    let raw = events.iter().map(|event| (event.kind(), event.payload()));
    raw.collect()
}

/// The byte `back` bytes before the file's end, raised by `by` (255 lowers it by 1).
fn changed_at_end(events: &[Event], back: usize, by: u8) -> Vec<u8> {
    let mut file = encode(events);
    let at = file.len() - back;
    file[at] = file[at].wrapping_add(by);
    file
}

fn offset_of_event_before(events: &[Event]) -> Vec<u8> {
    let good = encode(events);
    let before = encode(&events[..events.len() - 1]);
    let last = before[before.len() - 8..before.len() - 4].try_into();
    let last = u32::from_le_bytes(last.expect("four bytes"));
    let mut file = good[..good.len() - 12].to_vec();
    file.extend(trailer(events.len() as u32, last));
    file
}

/// Bytes between the last event and the trailer, which counts them as an event.
fn with_tail(events: &[Event], tail: &[u8]) -> Vec<u8> {
    let good = encode(events);
    let end = good.len() - 12;
    let mut file = good[..end].to_vec();
    file.extend(tail);
    file.extend(trailer(events.len() as u32 + 1, end as u32));
    file
}

/// A last event that is whole only if the trailer counts as its bytes.
fn event_takes_trailer_in(events: &[Event]) -> Vec<u8> {
    let whole = event_bytes(3, &[0; 12]);
    with_tail(events, &whole[..3])
}

fn with_event(events: &[Event], kind: u8, payload: &[u8]) -> Vec<u8> {
    let mut raw = raw(events);
    raw.push((kind, payload.to_vec()));
    encode_raw(&raw)
}

fn with_creation(events: &[Event], change: fn(&mut Vec<u8>)) -> Vec<u8> {
    let mut raw = raw(events);
    change(&mut raw[0].1);
    encode_raw(&raw)
}

/// A file of that many bytes: the events and then one `write_data` that fills it.
pub fn filled_to(events: &[Event], bytes: usize) -> Vec<u8> {
    let missing = bytes - encode(events).len() - 3;
    with_event(events, 3, &vec![0; missing])
}
