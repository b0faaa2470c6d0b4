//! Document 01's bench file: reading it under all of its rules, and writing one.
//!
//! The Rust knows nothing of this file. Rule 14 is tested here, before the Rust runs.

/// A file has at most this many bytes, trailer included.
pub const LONGEST: usize = 65_536;
const TRAILER: usize = 12;
const MAGIC: &[u8; 4] = b"BOT1";

/// What an OUT endpoint offers, or why it offers nothing. `Error` carries 2 to 255.
#[derive(Clone, PartialEq, Eq, Debug)]
pub enum OutAnswer {
    Packet(Vec<u8>),
    Busy,
    Error(u8),
}

#[derive(Clone, Copy, PartialEq, Eq, Debug)]
pub enum InAnswer {
    Accepts,
    Busy,
    Error(u8),
}

#[derive(Clone, PartialEq, Eq, Debug)]
pub struct Offers {
    pub in_answer: InAnswer,
    pub out: [OutAnswer; 2],
}

#[derive(Clone, PartialEq, Eq, Debug)]
pub enum Event {
    Create {
        packet_size: u16,
        max_lun: u8,
        buffer: u32,
    },
    Poll(Offers),
    Status {
        status: u8,
        figure: u32,
    },
    WriteData(Vec<u8>),
    TryWriteDataAll(Vec<u8>),
    ReadData {
        room: u16,
    },
    Reset,
    Control {
        bm_request_type: u8,
        request: u8,
    },
    /// A step of one byte is told whether extended addressing is on; one without bytes is not told, and that means off.
    Command {
        told: Option<bool>,
    },
}

impl Event {
    pub fn kind(&self) -> u8 {
        match self {
            Event::Create { .. } => 0,
            Event::Poll(_) => 1,
            Event::Status { .. } => 2,
            Event::WriteData(_) => 3,
            Event::TryWriteDataAll(_) => 4,
            Event::ReadData { .. } => 5,
            Event::Reset => 6,
            Event::Control { .. } => 7,
            Event::Command { .. } => 8,
        }
    }

    pub fn payload(&self) -> Vec<u8> {
        match self {
            Event::Create {
                packet_size,
                max_lun,
                buffer,
            } => [
                &packet_size.to_le_bytes()[..],
                &[*max_lun],
                &buffer.to_le_bytes(),
            ]
            .concat(),
            Event::Poll(offers) => poll_payload(offers),
            Event::Status { status, figure } => [&[*status][..], &figure.to_le_bytes()].concat(),
            Event::WriteData(source) | Event::TryWriteDataAll(source) => source.clone(),
            Event::ReadData { room } => room.to_le_bytes().to_vec(),
            Event::Reset => Vec::new(),
            Event::Control {
                bm_request_type,
                request,
            } => vec![*bm_request_type, *request],
            Event::Command { told } => told.iter().map(|extended| u8::from(*extended)).collect(),
        }
    }

    /// Whether it is a command step with extended addressing on.
    pub fn is_extended(&self) -> bool {
        matches!(self, Event::Command { told: Some(true) })
    }
}

fn poll_payload(offers: &Offers) -> Vec<u8> {
    let answer = |out: &OutAnswer| match out {
        OutAnswer::Packet(_) => 0,
        OutAnswer::Busy => 1,
        OutAnswer::Error(number) => *number,
    };
    let packet = |out: &OutAnswer| match out {
        OutAnswer::Packet(packet) => packet.clone(),
        OutAnswer::Busy | OutAnswer::Error(_) => Vec::new(),
    };
    let [first, second] = &offers.out;
    let packets = [packet(first), packet(second)];
    let length =
        |packet: &Vec<u8>| u8::try_from(packet.len()).expect("a packet length is one byte");
    let mut payload = vec![
        match offers.in_answer {
            InAnswer::Accepts => 0,
            InAnswer::Busy => 1,
            InAnswer::Error(number) => number,
        },
        answer(first),
        answer(second),
        length(&packets[0]),
        length(&packets[1]),
    ];
    payload.extend(packets.concat());
    payload
}

/// An event's bytes: kind, length, payload.
pub fn event_bytes(kind: u8, payload: &[u8]) -> Vec<u8> {
    let length = u16::try_from(payload.len()).expect("an event's length is two bytes");
    let mut bytes = vec![kind];
    bytes.extend(length.to_le_bytes());
    bytes.extend(payload);
    bytes
}

pub fn trailer(count: u32, last: u32) -> Vec<u8> {
    [&count.to_le_bytes()[..], &last.to_le_bytes(), MAGIC].concat()
}

pub fn encode(events: &[Event]) -> Vec<u8> {
    let raw: Vec<(u8, Vec<u8>)> = events
        .iter()
        .map(|event| (event.kind(), event.payload()))
        .collect();
    encode_raw(&raw)
}

/// Writes events that break a rule too: only the trailer is sure to be right.
pub fn encode_raw(events: &[(u8, Vec<u8>)]) -> Vec<u8> {
    let mut bytes = Vec::new();
    let mut last = 0;
    for (kind, payload) in events {
        last = bytes.len();
        bytes.extend(event_bytes(*kind, payload));
    }
    bytes.extend(trailer(events.len() as u32, last as u32));
    bytes
}

/// The file breaks a rule: answer 14.
#[derive(PartialEq, Eq, Debug)]
pub struct Refused;

/// Judges the whole file before anything runs (ruling 13).
pub fn parse(file: &[u8]) -> Result<Vec<Event>, Refused> {
    if file.len() > LONGEST || file.len() < TRAILER {
        return Err(Refused);
    }
    let end = file.len() - TRAILER;
    let count = u32_at(file, end);
    let last = u32_at(file, end + 4);
    if &file[end + 8..] != MAGIC {
        return Err(Refused);
    }

    let mut events = Vec::new();
    let mut offset = 0;
    let mut offset_of_last = 0;
    while offset < end {
        if offset + 3 > end {
            return Err(Refused);
        }
        let kind = file[offset];
        let length = usize::from(u16_at(file, offset + 1));
        let payload = offset + 3;
        if payload + length > end {
            return Err(Refused);
        }
        let event = event(kind, &file[payload..payload + length])?;
        // Create comes first and only first.
        if events.is_empty() != matches!(event, Event::Create { .. }) {
            return Err(Refused);
        }
        events.push(event);
        offset_of_last = offset;
        offset = payload + length;
    }

    if events.len() != count as usize || offset_of_last != last as usize {
        return Err(Refused);
    }
    Ok(events)
}

fn event(kind: u8, payload: &[u8]) -> Result<Event, Refused> {
    match (kind, payload.len()) {
        (0, 7) => Ok(Event::Create {
            packet_size: u16_at(payload, 0),
            max_lun: payload[2],
            buffer: u32_at(payload, 3),
        }),
        (1, 5..) => poll(payload),
        (2, 5) if payload[0] <= 2 => Ok(Event::Status {
            status: payload[0],
            figure: u32_at(payload, 1),
        }),
        (3, _) => Ok(Event::WriteData(payload.to_vec())),
        (4, _) => Ok(Event::TryWriteDataAll(payload.to_vec())),
        (5, 2) => Ok(Event::ReadData {
            room: u16_at(payload, 0),
        }),
        (6, 0) => Ok(Event::Reset),
        (7, 2) => Ok(Event::Control {
            bm_request_type: payload[0],
            request: payload[1],
        }),
        (8, 0) => Ok(Event::Command { told: None }),
        (8, 1) if payload[0] <= 1 => Ok(Event::Command {
            told: Some(payload[0] == 1),
        }),
        _ => Err(Refused),
    }
}

fn poll(payload: &[u8]) -> Result<Event, Refused> {
    let (first, second) = (usize::from(payload[3]), usize::from(payload[4]));
    if payload.len() != 5 + first + second {
        return Err(Refused);
    }
    Ok(Event::Poll(Offers {
        in_answer: match payload[0] {
            0 => InAnswer::Accepts,
            1 => InAnswer::Busy,
            number => InAnswer::Error(number),
        },
        out: [
            out_answer(payload[1], &payload[5..5 + first])?,
            out_answer(payload[2], &payload[5 + first..])?,
        ],
    }))
}

/// A length is 0 unless its answer is 0.
fn out_answer(answer: u8, packet: &[u8]) -> Result<OutAnswer, Refused> {
    match (answer, packet.len()) {
        (0, _) => Ok(OutAnswer::Packet(packet.to_vec())),
        (1, 0) => Ok(OutAnswer::Busy),
        (number, 0) => Ok(OutAnswer::Error(number)),
        _ => Err(Refused),
    }
}

fn u16_at(bytes: &[u8], at: usize) -> u16 {
    u16::from_le_bytes([bytes[at], bytes[at + 1]])
}

fn u32_at(bytes: &[u8], at: usize) -> u32 {
    u32::from_le_bytes([bytes[at], bytes[at + 1], bytes[at + 2], bytes[at + 3]])
}
