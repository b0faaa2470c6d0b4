//! `judge/oracle/codec-inputs`: lines for `--decode`, `--parse`, `--status` and the verdict, the same for the same seed.

use crate::host::known_opcode;
use crate::lines::hex;
use crate::rng::Rng;
use crate::wrapper::Wrapper;
use std::fmt::Write;
use std::{fs, io};

/// Block lengths that no wrapper carries.
const LONG: [usize; 8] = [17, 18, 24, 31, 32, 64, 255, 256];

const EDGES: [u32; 8] = [0, 1, 255, 256, 65_535, 65_536, 1 << 31, u32::MAX];

const STATUSES: usize = 110_000;
/// One in this many statuses has any byte, each value in turn; the others have one of the three good ones.
const ANY_BYTE_EVERY: usize = 10;

/// Messages for the verdict, each with its reserved bits clear and then with some set.
const TWINS: usize = 60_000;
/// The reserved bits, and obsolete bit 6 of the flags, which counts as one: byte and bit.
const RESERVED: [(usize, u8); 11] = [
    (12, 0),
    (12, 1),
    (12, 2),
    (12, 3),
    (12, 4),
    (12, 5),
    (12, 6),
    (13, 4),
    (13, 5),
    (13, 6),
    (13, 7),
];

pub fn write(seed: u64, folder: &str) -> io::Result<()> {
    let mut rng = Rng::new(seed);
    let blocks = hex_lines(&blocks(&mut rng));
    let messages = hex_lines(&messages(&mut rng));
    let statuses = statuses(&mut rng);
    let verdicts = verdicts(&mut rng);
    fs::create_dir_all(folder)?;
    fs::write(format!("{folder}/blocks.txt"), blocks)?;
    fs::write(format!("{folder}/messages.txt"), messages)?;
    fs::write(format!("{folder}/statuses.txt"), statuses)?;
    fs::write(format!("{folder}/verdicts.txt"), verdicts)
}

fn blocks(rng: &mut Rng) -> Vec<Vec<u8>> {
    let mut blocks = Vec::new();
    for opcode in 0..=255 {
        blocks.push(Vec::new());
        for length in 1..=16 {
            blocks.extend((0..30).map(|fill| block(rng, opcode, length, fill)));
        }
        for length in LONG {
            blocks.extend((0..4).map(|fill| block(rng, opcode, length, fill)));
        }
    }
    // Most opcodes are unknown, so the known ones come once more.
    for fill in 0..20_000 {
        let opcode = known_opcode(rng);
        let length = rng.between(4, 16);
        blocks.push(block(rng, opcode, length, fill));
    }
    blocks
}

/// After the opcode the first two fills are all 00 and all FF.
fn block(rng: &mut Rng, opcode: u8, length: usize, fill: usize) -> Vec<u8> {
    let mut block = vec![opcode];
    block.resize_with(length, || {
        let any = rng.byte();
        let one_bit = 1 << rng.below(8);
        match fill {
            0 => 0,
            1 => 0xFF,
            _ => rng.pick(&[any, one_bit, 0, 0xFF]),
        }
    });
    block
}

fn messages(rng: &mut Rng) -> Vec<Vec<u8>> {
    let mut messages = Vec::new();
    // Flags, LUN and block length: every value, without data and with data.
    for at in 12..15 {
        for value in 0..=255 {
            for index in 0..40 {
                let mut wrapper = wrapper(rng);
                wrapper.length = [0, wrapper.length.max(1)][index % 2];
                let mut message = wrapper.bytes();
                message[at] = value;
                messages.push(message);
            }
        }
    }
    // The signature: every wrong value of each byte, so each of its bits is also flipped alone.
    for at in 0..4 {
        for change in 1..=255 {
            for _ in 0..4 {
                let mut message = wrapper(rng).bytes();
                message[at] ^= change;
                messages.push(message);
            }
        }
    }
    for tag in EDGES {
        for length in EDGES {
            for _ in 0..100 {
                let mut wrapper = wrapper(rng);
                wrapper.tag = tag;
                wrapper.length = length;
                messages.push(wrapper.bytes());
            }
        }
    }
    messages.extend((0..40_000).map(|_| wrapper(rng).bytes()));
    messages.extend((0..10_000).map(|_| [&b"USBC"[..], &rng.bytes(27)].concat()));
    messages.extend((0..10_000).map(|_| rng.bytes(31)));
    messages
}

/// A valid message, with any bits in the places that do not count.
fn wrapper(rng: &mut Rng) -> Wrapper {
    Wrapper {
        length: number(rng),
        flags: rng.byte(),
        lun: rng.byte(),
        block_length: rng.between(1, 16) as u8,
        ..Wrapper::new(number(rng), &rng.bytes(16))
    }
}

fn statuses(rng: &mut Rng) -> String {
    let mut text = String::new();
    for index in 0..STATUSES {
        let tag = number(rng);
        let length = number(rng);
        let any = number(rng);
        let below = length.wrapping_sub(1);
        let above = length.wrapping_add(1);
        let figure = rng.pick(&[any, any, length, below, above, 0, u32::MAX]);
        let byte = match index % ANY_BYTE_EVERY {
            0 => index / ANY_BYTE_EVERY % 256,
            _ => rng.below(3),
        };
        writeln!(text, "{tag} {length} {figure} {byte}").expect("a string");
    }
    text
}

/// Max LUN and message. Each message stands twice, first with all reserved bits clear and then with some of them set. Most are
/// meaningful but for those bits.
fn verdicts(rng: &mut Rng) -> String {
    let mut text = String::new();
    for index in 0..TWINS {
        let (max_lun, mut message) = judged(rng);
        judged_line(&mut text, max_lun, &message);
        set_reserved(rng, index, &mut message);
        judged_line(&mut text, max_lun, &message);
    }
    text
}

fn judged(rng: &mut Rng) -> (u8, Vec<u8>) {
    let lun = rng.below(16) as u8;
    let mut message = Wrapper {
        flags: rng.pick(&[0, 0x80]),
        lun,
        ..wrapper(rng)
    }
    .bytes();
    let any = rng.byte();
    let max_lun = rng.pick(&[lun, lun.wrapping_sub(1), 15, 16, 255, any]);
    match rng.below(16) {
        0 => message[14] = rng.byte(),
        1 => message[rng.below(4)] ^= 1 << rng.below(8),
        _ => {}
    }
    (max_lun, message)
}

/// One bit alone, each in turn; in every second message others beside it.
fn set_reserved(rng: &mut Rng, index: usize, message: &mut [u8]) {
    let alone = RESERVED[index / 2 % RESERVED.len()];
    for (byte, bit) in RESERVED {
        if (byte, bit) == alone || index % 2 == 1 && rng.percent(50) {
            message[byte] |= 1 << bit;
        }
    }
}

fn judged_line(text: &mut String, max_lun: u8, message: &[u8]) {
    write!(text, "{max_lun} ").expect("a string");
    hex(text, message);
    text.push('\n');
}

fn number(rng: &mut Rng) -> u32 {
    let any = rng.next() as u32;
    let one_bit = 1 << rng.below(32);
    let edge = rng.pick(&EDGES);
    rng.pick(&[any, any, one_bit, edge])
}

fn hex_lines(all: &[Vec<u8>]) -> String {
    let mut text = String::new();
    for bytes in all {
        hex(&mut text, bytes);
        text.push('\n');
    }
    text
}
