//! What one event of a bench file reaches, in the names of the list.

use crate::benchfile::{Event, InAnswer, Offers, OutAnswer};
use crate::chains;
use crate::coverage::{Key, Section};
use crate::lines::Step;
use crate::reachable::{
    BUFFERS, PACKET_SIZES, TOLD_LENGTH, TOLD_OPCODES, creation, pair, told, triple,
};
use crate::show;
use usbd_storage::transport::bbb::peek::Figures;

/// What a refused file reaches.
pub fn by_damage(rule: &str) -> Vec<Key> {
    vec![
        (Section::Damage, rule.to_string()),
        (Section::Answer, "14".to_string()),
        (Section::Triple, triple(None, None, 14)),
    ]
}

/// What one event reaches.
pub fn by_step(step: &Step) -> Vec<Key> {
    let answer = step.outcome.answer;
    let state = step.before.map(|before| before.state);
    let mut keys = vec![
        (
            Section::Triple,
            triple(state, Some(step.event.kind()), answer),
        ),
        (Section::Answer, answer.to_string()),
    ];
    if let Event::Create {
        packet_size,
        max_lun: 0..=15,
        buffer,
    } = step.event
    {
        let packet_size = usize::from(*packet_size);
        if PACKET_SIZES.contains(&packet_size) && BUFFERS.contains(buffer) {
            keys.push((Section::Creation, creation(packet_size, *buffer)));
        }
    }
    if let (Some(before), Some(after)) = (step.before, step.after) {
        keys_of_device_event(&mut keys, step, &before, &after);
    }
    keys
}

fn keys_of_device_event(keys: &mut Vec<Key>, step: &Step, before: &Figures, after: &Figures) {
    let state = before.state;
    match step.event {
        Event::Poll(offers) => match step.outcome.answer {
            11 => keys_of_long_packets(keys, offers, before),
            _ => keys_of_poll(keys, step, offers, before, after),
        },
        Event::WriteData(source) if state == 4 => {
            let amount = source.len().min(before.left as usize);
            keys_of_write(keys, "write_data", source.len(), amount, before);
        }
        Event::TryWriteDataAll(source) if state == 4 => {
            keys_of_write(
                keys,
                "try_write_data_all",
                source.len(),
                source.len(),
                before,
            );
        }
        Event::ReadData { room } if state == 7 => {
            let amount = match usize::from(*room) {
                0 => "room 0",
                room if room < before.unread() => "room below unread",
                room if room == before.unread() => "room of unread",
                _ => "room above unread",
            };
            keys.push((Section::Call, format!("read_data {amount}")));
        }
        Event::Status { status, figure } if step.outcome.answer == 0 => {
            keys.push((Section::Call, format!("status {status}")));
            let figure = match figure.cmp(&before.length) {
                std::cmp::Ordering::Less => "below",
                std::cmp::Ordering::Equal => "at",
                std::cmp::Ordering::Greater => "above",
            };
            keys.push((Section::Call, format!("figure {figure} L")));
            if before.status.is_some() {
                keys.push((Section::Call, format!("status again in state {state}")));
            }
        }
        Event::Control {
            bm_request_type,
            request,
        } => {
            let request = match (bm_request_type, request) {
                (0xA1, 0xFF) => "a1 ff",
                (0xA1, 0xFE) => "a1 fe",
                (0xA1, _) => "a1 other",
                (0x21, 0xFF) => "21 ff",
                _ => "other type",
            };
            keys.push((Section::Control, format!("{request} in state {state}")));
        }
        Event::Command { .. } => {
            let mut name = String::new();
            show::event(&mut name, step.event);
            keys.push((Section::Told, format!("{name} in state {state}")));
            if let [_, block @ ..] = &step.outcome.bytes[..] {
                keys.push((Section::Pair, pair(block[0], block.len())));
                if TOLD_OPCODES.contains(&block[0]) && block.len() >= TOLD_LENGTH {
                    keys.push((Section::Told, told(&name, block[0])));
                }
            }
        }
        _ => {}
    }
}

fn keys_of_long_packets(keys: &mut Vec<Key>, offers: &Offers, before: &Figures) {
    for (place, out) in ["first", "second"].into_iter().zip(&offers.out) {
        if matches!(out, OutAnswer::Packet(packet) if packet.len() > before.packet_size) {
            let state = before.state;
            keys.push((Section::Packet, format!("state {state} {place} above P")));
        }
    }
}

fn keys_of_write(keys: &mut Vec<Key>, call: &str, source: usize, amount: usize, before: &Figures) {
    let left = before.left as usize;
    let mut add = |what: &str| keys.push((Section::Call, format!("{call} {what}")));
    add(match source {
        0 => "0",
        _ if source < left => "below left",
        _ if source == left => "exactly left",
        _ => "above left",
    });
    if amount > before.room_after_moving() {
        add("above room");
    } else if amount > before.buffer_length - before.write_mark {
        add("moves");
    }
}

fn keys_of_poll(
    keys: &mut Vec<Key>,
    step: &Step,
    offers: &Offers,
    before: &Figures,
    after: &Figures,
) {
    let chain = chains::of_poll(before.state, after.state, step.outcome.stalls);
    keys.push((Section::Chain, chain.to_string()));
    keys.push((
        Section::ChainAnswer,
        format!("{chain} answer {}", step.outcome.answer),
    ));

    let size = |packet: &[u8]| match packet.len() {
        0 => "empty",
        length if length == before.packet_size => "full",
        _ => "short",
    };
    let [first, second] = &offers.out;
    if let (OutAnswer::Packet(first), 1..) = (first, step.outcome.count) {
        let asked = format!("state {} {}", before.state, size(first));
        keys.push((Section::Packet, asked));
    }
    if let (OutAnswer::Packet(second), 2) = (second, step.outcome.count) {
        keys.push((Section::Packet, format!("second {}", size(second))));
    }

    if let (OutAnswer::Packet(first), true) = (first, chains::parses(chain)) {
        keys_of_wrapper(keys, step, first, before, after);
    }
    keys_of_sent(keys, step, offers, chain, before, after);
}

fn keys_of_wrapper(
    keys: &mut Vec<Key>,
    step: &Step,
    packet: &[u8],
    before: &Figures,
    after: &Figures,
) {
    let packet_size = before.packet_size;
    // 3 is left with nothing unread.
    let unread = before.unread();
    let mut way = |what: &str| keys.push((Section::Wrapper, format!("P {packet_size} {what}")));
    if after.state == 1 {
        // Nothing has touched the buffer since the parsing.
        let wrapper = &step.io[after.read_mark - 31..after.read_mark];
        if !wrapper.starts_with(b"USBC") {
            way("wrong signature");
        } else if wrapper[14] == 0 {
            way("wrong block length 0");
        } else {
            way("wrong block length above 16");
        }
        return;
    }
    if unread == 0 {
        way("in one packet");
    } else if unread < 31 {
        way("in pieces");
    }
    if unread < 31 && unread + packet.len() > 31 {
        way("with bytes behind it");
        let behind = &packet[31 - unread..];
        if behind.starts_with(b"USBC") || b"USBC".starts_with(behind) {
            way("glued to a second one");
        }
    }
    let length = match after.length as usize {
        0 => "0",
        1 => "1",
        12 => "12",
        13 => "13",
        512 => "512",
        length if length == packet_size - 1 => "P-1",
        length if length == packet_size => "P",
        length if length == packet_size + 1 => "P+1",
        513.. => "large",
        _ => return,
    };
    let name = match after.direction {
        "none" => format!("P {packet_size} L 0"),
        direction => format!("P {packet_size} L {length} {direction}"),
    };
    keys.push((Section::Length, name));
}

fn keys_of_sent(
    keys: &mut Vec<Key>,
    step: &Step,
    offers: &Offers,
    chain: &str,
    before: &Figures,
    after: &Figures,
) {
    let sent = step.outcome.bytes.len();
    let left = before.left as usize;
    let wanted = left.min(before.packet_size);
    let filled = wanted.saturating_sub(before.unread());
    let name = match chain {
        "4" if sent > left => "state 4 more than left",
        "4" if sent == before.packet_size => "state 4 full packet",
        "4" if sent > 0 && sent == left => "state 4 short packet of all that is left",
        "4" if sent > 0 => "state 4 early short packet",
        "4-6" | "6" if filled > 0 && offers.in_answer != InAnswer::Accepts => {
            assert_eq!(after.unread(), wanted, "LOUD: a fill that did not stay");
            "state 6 filled and not taken"
        }
        "4-6" | "6" if sent > 0 && filled == 0 => "state 6 without filling",
        "4-6" | "6" if sent > 0 && filled < sent => "state 6 filled in part",
        "4-6" | "6" if sent > 0 => "state 6 filled whole",
        _ => return,
    };
    keys.push((Section::Sent, name.to_string()));
}
