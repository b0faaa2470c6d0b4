//! The whole list of what bench files can reach.
//!
//! It is written down from document 01 and the rulings, not collected from runs. A run that reaches
//! something outside the list panics: either the list or our reading of 01 is wrong.

use crate::chains;
use crate::coverage::{Key, Section};
use crate::damage;

/// The device is never in state 2 between two events.
const RESTING: [u8; 8] = [0, 1, 3, 4, 5, 6, 7, 8];
pub const PACKET_SIZES: [usize; 4] = [8, 16, 32, 64];
pub const BUFFERS: [u32; 7] = [31, 32, 63, 64, 65, 512, 65_536];
/// Blocks of these opcodes depend on what a step is told, if they have this length at least.
pub const TOLD_OPCODES: [u8; 2] = [0x88, 0x8A];
pub const TOLD_LENGTH: usize = 14;
const LENGTHS: [&str; 8] = ["1", "12", "13", "P-1", "P", "P+1", "512", "large"];
const KINDS: [&str; 9] = [
    "create",
    "poll",
    "status",
    "write_data",
    "try_write_data_all",
    "read_data",
    "reset",
    "control",
    "command",
];

pub fn all() -> Vec<Key> {
    let mut keys = Vec::new();
    let mut add = |section, name: String| keys.push((section, name));
    for (state, kind, answers) in triples() {
        for answer in answers {
            add(Section::Triple, triple(state, kind, answer));
        }
    }
    for answer in (0..=14).filter(|answer| *answer != 10) {
        add(Section::Answer, answer.to_string());
    }
    for (chain, answers) in chains::ALL {
        add(Section::Chain, chain.to_string());
        for answer in *answers {
            add(Section::ChainAnswer, format!("{chain} answer {answer}"));
        }
    }
    for packet_size in PACKET_SIZES {
        for buffer in BUFFERS {
            add(Section::Creation, creation(packet_size, buffer));
        }
        add(Section::Length, format!("P {packet_size} L 0"));
        for length in LENGTHS {
            for direction in ["in", "out"] {
                add(
                    Section::Length,
                    format!("P {packet_size} L {length} {direction}"),
                );
            }
        }
        for way in ["in pieces", "with bytes behind it", "glued to a second one"] {
            add(Section::Wrapper, format!("P {packet_size} {way}"));
        }
        for fault in ["signature", "block length 0", "block length above 16"] {
            add(Section::Wrapper, format!("P {packet_size} wrong {fault}"));
        }
    }
    for packet_size in [32, 64] {
        add(Section::Wrapper, format!("P {packet_size} in one packet"));
    }
    for asked in ["state 0", "state 3", "state 7", "state 8", "second"] {
        for size in ["empty", "short", "full"] {
            add(Section::Packet, format!("{asked} {size}"));
        }
    }
    for state in RESTING {
        for place in ["first", "second"] {
            add(Section::Packet, format!("state {state} {place} above P"));
        }
        for request in ["a1 ff", "a1 fe", "21 ff", "a1 other", "other type"] {
            add(Section::Control, format!("{request} in state {state}"));
        }
    }
    for sent in [
        "state 4 full packet",
        "state 4 short packet of all that is left",
        "state 4 early short packet",
        "state 4 more than left",
        "state 6 without filling",
        "state 6 filled in part",
        "state 6 filled whole",
        "state 6 filled and not taken",
    ] {
        add(Section::Sent, sent.to_string());
    }
    for call in ["write_data", "try_write_data_all"] {
        for amount in [
            "0",
            "below left",
            "exactly left",
            "above left",
            "above room",
            "moves",
        ] {
            add(Section::Call, format!("{call} {amount}"));
        }
    }
    for amount in [
        "room 0",
        "room below unread",
        "room of unread",
        "room above unread",
    ] {
        add(Section::Call, format!("read_data {amount}"));
    }
    for state in [4, 5, 7] {
        add(Section::Call, format!("status again in state {state}"));
    }
    for status in 0..=2 {
        add(Section::Call, format!("status {status}"));
    }
    for figure in ["below", "at", "above"] {
        add(Section::Call, format!("figure {figure} L"));
    }
    for (rule, _) in damage::RULES {
        add(Section::Damage, rule.to_string());
    }
    for step in ["command", "command told 0", "command told 1"] {
        for state in RESTING {
            add(Section::Told, format!("{step} in state {state}"));
        }
        for opcode in TOLD_OPCODES {
            add(Section::Told, told(step, opcode));
        }
    }
    for opcode in 0..=255 {
        for length in 1..=16 {
            add(Section::Pair, pair(opcode, length));
        }
    }
    keys
}

/// Every answer that an event can have in a state, by the table of answers of document 01 and the
/// chains of the rulings. A creation has `None` as its state, and a refused file also as its kind.
fn triples() -> Vec<(Option<u8>, Option<u8>, Vec<u8>)> {
    let mut triples = vec![(None, None, vec![14]), (None, Some(0), vec![0, 2, 5, 8, 9])];
    for state in RESTING {
        let polls = match state {
            1 => vec![0, 11],
            // Both reach 4 and 7 after a wrapper; 1 after 3 comes from the second packet.
            0 | 3 => vec![0, 1, 4, 6, 7, 11],
            4 => vec![0, 4, 6, 7, 11],
            5 | 6 => vec![0, 6, 7, 11],
            7 => vec![0, 1, 6, 7, 11],
            // 8 empties the buffer first, so there is always room.
            8 => vec![0, 6, 7, 11],
            _ => unreachable!("a state that does not rest"),
        };
        let of_state = [
            polls,
            vec![if matches!(state, 4 | 5 | 7) { 0 } else { 12 }],
            vec![if state == 4 { 0 } else { 3 }],
            if state == 4 { vec![0, 1] } else { vec![3] },
            vec![if state == 7 { 0 } else { 3 }],
            vec![0],
            vec![0],
            if state == 1 { vec![0, 13] } else { vec![0] },
        ];
        for (kind, answers) in (1..).zip(of_state) {
            triples.push((Some(state), Some(kind), answers));
        }
    }
    triples
}

pub fn triple(state: Option<u8>, kind: Option<u8>, answer: u8) -> String {
    let state = state.map_or("no device".to_string(), |state| format!("state {state}"));
    let kind = kind.map_or("file", |kind| KINDS[usize::from(kind)]);
    format!("{state} {kind} answer {answer}")
}

pub fn creation(packet_size: usize, buffer: u32) -> String {
    format!("P {packet_size} buffer {buffer}")
}

/// `step` as `--show` names it.
pub fn told(step: &str, opcode: u8) -> String {
    format!("{step} of a whole {opcode:02x}")
}

pub fn pair(opcode: u8, length: usize) -> String {
    format!("opcode {opcode:02x} length {length}")
}
