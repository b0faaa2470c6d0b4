//! "Broken means": each rule as values that are set in a whole record, if possible without breaking another rule.

use super::layout::{
    BLOCK_LENGTH, DIRECTION, LENGTH, LUN, MAX_LUN, PACKET, PRESENT, READ, STATE, STATUS, WRITE,
};

pub struct Rule {
    pub name: &'static str,
    /// Field and value; a field of four bytes is set as a whole.
    pub set: &'static [(usize, u32)],
    /// How many more bytes are lent than the record then says: of the IO buffer, and of the record itself.
    pub more_io: isize,
    pub more_record: isize,
}

impl Rule {
    pub fn break_record(&self, record: &mut [u8]) {
        for (at, value) in self.set {
            let bytes = value.to_le_bytes();
            let width = if matches!(*at, LENGTH | READ | WRITE) {
                4
            } else {
                1
            };
            record[*at..*at + width].copy_from_slice(&bytes[..width]);
        }
    }
}

const fn set(name: &'static str, set: &'static [(usize, u32)]) -> Rule {
    Rule {
        name,
        set,
        more_io: 0,
        more_record: 0,
    }
}

const fn lent(name: &'static str, more_io: isize, more_record: isize) -> Rule {
    Rule {
        name,
        set: &[],
        more_io,
        more_record,
    }
}

const EMPTY: [(usize, u32); 2] = [(READ, 0), (WRITE, 0)];

pub static RULES: &[Rule] = &[
    lent("one byte less is lent", -1, 0),
    lent("one byte more is lent", 1, 0),
    lent("the record is one byte short", 0, -1),
    lent("the record is one byte long", 0, 1),
    lent("the record ends before the last field", 0, -4),
    lent("the record has no bytes", 0, -56),
    set("max LUN 16", &[(MAX_LUN, 16)]),
    set("max LUN 255", &[(MAX_LUN, 255)]),
    set(
        "buffer 30",
        &[(PACKET, 8), (LENGTH, 30), EMPTY[0], EMPTY[1]],
    ),
    set("buffer 0", &[(PACKET, 8), (LENGTH, 0), EMPTY[0], EMPTY[1]]),
    set(
        "buffer 63 and P 64",
        &[(PACKET, 64), (LENGTH, 63), EMPTY[0], EMPTY[1]],
    ),
    set(
        "buffer 31 and P 32",
        &[(PACKET, 32), (LENGTH, 31), EMPTY[0], EMPTY[1]],
    ),
    set("P 0", &[(PACKET, 0)]),
    set("P 4", &[(PACKET, 4)]),
    set("P 24", &[(PACKET, 24)]),
    set("P 128", &[(PACKET, 128), (LENGTH, 512), EMPTY[0], EMPTY[1]]),
    set("P 255", &[(PACKET, 255), (LENGTH, 512), EMPTY[0], EMPTY[1]]),
    set("buffer 65,537", &[(LENGTH, 65_537)]),
    set("read mark 1, write mark 0", &[(READ, 1), (WRITE, 0)]),
    set("read mark 2^32 - 1", &[(READ, u32::MAX)]),
    set(
        "buffer 31 and write mark 32",
        &[(PACKET, 8), (LENGTH, 31), (READ, 0), (WRITE, 32)],
    ),
    set("write mark 2^32 - 1", &[(WRITE, u32::MAX)]),
    set("block length 17", &[(BLOCK_LENGTH, 17)]),
    set("block length 255", &[(BLOCK_LENGTH, 255)]),
    set("LUN 16", &[(LUN, 16)]),
    set("LUN 255", &[(LUN, 255)]),
    set("state 9, no status", &[(STATE, 9), (PRESENT, 0)]),
    set("state 9 and a status", &[(STATE, 9), (PRESENT, 1)]),
    set("state 255", &[(STATE, 255)]),
    set("flag 2 in state 5", &[(STATE, 5), (PRESENT, 2)]),
    set("flag 255 in state 5", &[(STATE, 5), (PRESENT, 255)]),
    set("flag 2 in state 0", &[(STATE, 0), (PRESENT, 2)]),
    set("flag 2 in state 3", &[(STATE, 3), (PRESENT, 2)]),
    set(
        "status byte 3 in state 5",
        &[(STATE, 5), (PRESENT, 1), (STATUS, 3)],
    ),
    set(
        "status byte 255 in state 3",
        &[(STATE, 3), (PRESENT, 1), (STATUS, 255)],
    ),
    set(
        "status byte 3 and no status",
        &[(STATE, 5), (PRESENT, 0), (STATUS, 3)],
    ),
    set(
        "status byte 255 and no status",
        &[(STATE, 0), (PRESENT, 0), (STATUS, 255)],
    ),
    set("direction 3", &[(DIRECTION, 3)]),
    set("direction 255", &[(DIRECTION, 255)]),
    set(
        "status 0 in state 0",
        &[(STATE, 0), (PRESENT, 1), (STATUS, 0)],
    ),
    set(
        "status 2 in state 0",
        &[(STATE, 0), (PRESENT, 1), (STATUS, 2)],
    ),
    set(
        "status 0 in state 1",
        &[(STATE, 1), (PRESENT, 1), (STATUS, 0)],
    ),
    set(
        "status 2 in state 1",
        &[(STATE, 1), (PRESENT, 1), (STATUS, 2)],
    ),
    set("no status in state 3", &[(STATE, 3), (PRESENT, 0)]),
    set("no status in state 6", &[(STATE, 6), (PRESENT, 0)]),
    set("no status in state 8", &[(STATE, 8), (PRESENT, 0)]),
];
