//! Bench files made by hand: every case of document 01 that a bench file can show, every chain,
//! every answer, every known difference from BOT in its smallest form, what demand 3 would be
//! without each of its premises, how much room is missing, and what the firmware has put in.

use crate::benchfile::{InAnswer, LONGEST, OutAnswer};
use crate::damage;
use crate::script::{Script, create, nothing};
use crate::wrapper::Wrapper;

/// A file and what it shows. `rule` names the rule that a damaged file breaks.
pub struct Case {
    pub name: String,
    pub file: Vec<u8>,
    pub rule: Option<&'static str>,
}

/// What these reach counts for the picking of random files (`vectors.rs`).
pub fn all() -> Vec<Case> {
    // Its number makes it the first in the folder.
    let mut cases = vec![good_file(named("000-listing", listing()))];
    for group in [
        creations(),
        files(),
        wrappers(),
        to_host(),
        from_host(),
        statuses(),
        endpoints(),
        chains(),
        sweeps(),
        lengths(),
        commands(),
        tellings(),
        controls(),
        differences(),
        premises(),
    ] {
        cases.extend(group.into_iter().map(good_file));
    }
    cases.extend(damaged());
    cases
}

/// These came after the random files had been picked. If they counted for the picking, others would be picked now, and old files
/// would be gone.
pub fn added() -> Vec<Case> {
    let added = [missing(), put_in()].into_iter().flatten();
    added.map(good_file).collect()
}

type Named = (String, Script);

fn good_file((name, script): Named) -> Case {
    Case {
        name,
        file: script.file(),
        rule: None,
    }
}

fn named(name: &str, script: Script) -> Named {
    (name.to_string(), script)
}

/// Test unit ready: no data.
fn ready(tag: u32) -> Wrapper {
    Wrapper::new(tag, &[0; 6])
}

/// READ(10) of a block.
fn reading(length: u32) -> Wrapper {
    Wrapper::new(7, &[0x28, 0, 0, 0, 0, 0, 0, 0, 1, 0]).with_data_in(length)
}

/// WRITE(10) of a block.
fn writing(length: u32) -> Wrapper {
    Wrapper::new(9, &[0x2A, 0, 0, 0, 0, 0, 0, 0, 1, 0]).with_data_out(length)
}

/// 1, 2, 3, ...
fn counted(count: usize) -> Vec<u8> {
    (1..=count).map(|number| number as u8).collect()
}

fn bad_signature() -> Wrapper {
    Wrapper {
        signature: *b"USBS",
        ..ready(2)
    }
}

/// A wrapper with more bytes behind it.
fn glued(wrapper: Wrapper, behind: &[u8]) -> Vec<u8> {
    [&wrapper.bytes()[..], behind].concat()
}

/// The host wants 10 bytes at P 8. Four are put in, and the status is set.
fn four_of_ten() -> Script {
    create(8, 0, 64)
        .wrapper(reading(10))
        .write(&counted(4))
        .status(0, 4)
}

/// After a wrapper without data, a status was set and has been sent: state 3, nothing unread.
fn finished(packet_size: u16, buffer: u32) -> Script {
    create(packet_size, 0, buffer)
        .wrapper(ready(1))
        .status(0, 0)
        .polls(13_usize.div_ceil(usize::from(packet_size)))
}

/// Three polls that are not served at P 8, whichever endpoint is asked: busy, failing, above P.
fn unserved(script: Script) -> Script {
    script
        .in_answers(InAnswer::Busy)
        .offers(InAnswer::Error(9), OutAnswer::Error(9), OutAnswer::Busy)
        .packet(&[0x55; 9])
}

fn listing() -> Script {
    create(64, 0, 64)
        .wrapper(ready(1))
        .status(0, 0)
        .poll()
        .poll()
}

fn creations() -> Vec<Named> {
    vec![
        named(
            "create-max-lun-15-which-a1-fe-answers",
            create(8, 15, 31).control(0xA1, 0xFE),
        ),
        named("create-max-lun-16-buffer-0-gives-2", create(8, 16, 0)),
        named("create-buffer-30-gives-5", create(8, 0, 30)),
        named("create-buffer-31-p-8", create(8, 0, 31)),
        named("create-buffer-63-p-64-gives-5", create(64, 0, 63)),
        named("create-p-24-gives-8", create(24, 0, 64)),
        named("create-p-24-buffer-23-gives-5", create(24, 0, 23)),
        named("create-p-24-buffer-65537-gives-8", create(24, 0, 65_537)),
        named("create-p-0-gives-8", create(0, 0, 31)),
        named("create-buffer-65537-gives-9", create(64, 0, 65_537)),
        named(
            "create-largest-buffer-number-gives-9",
            create(8, 0, u32::MAX),
        ),
        named("create-buffer-65536", create(64, 0, 65_536).poll()),
        named(
            "create-refused-ends-the-run",
            create(8, 16, 64).poll().reset().command(),
        ),
    ]
}

fn files() -> Vec<Named> {
    vec![
        named("file-of-no-events-prints-nothing", nothing()),
        named("file-of-65536-bytes", create(8, 0, 31).filled_to(LONGEST)),
    ]
}

fn wrappers() -> Vec<Named> {
    let with_block_length = |block_length| Wrapper {
        block_length,
        ..ready(1)
    };
    let device = || create(64, 0, 64);
    vec![
        named(
            "wrapper-block-lengths-0-and-17-are-invalid-in-pieces",
            create(8, 0, 32)
                .wrapper(with_block_length(0))
                .reset()
                .wrapper(with_block_length(17)),
        ),
        named(
            "wrapper-block-lengths-0-and-17-are-invalid",
            device()
                .wrapper(with_block_length(0))
                .reset()
                .wrapper(with_block_length(17)),
        ),
        named(
            "wrapper-block-length-1-is-valid",
            device().wrapper(with_block_length(1)).command(),
        ),
        named(
            "wrapper-block-length-16-is-valid",
            device().wrapper(with_block_length(16)).command(),
        ),
        named(
            "wrapper-lun-f3-is-3",
            device()
                .wrapper(Wrapper {
                    lun: 0xF3,
                    ..ready(1)
                })
                .command(),
        ),
        named(
            "wrapper-flags-do-not-count-without-data",
            device().wrapper(Wrapper {
                flags: 0x80,
                ..ready(1)
            }),
        ),
        named(
            "wrapper-flag-bits-0-to-6-do-not-count",
            device().wrapper(Wrapper {
                flags: 0x7F,
                ..reading(64)
            }),
        ),
        named(
            "wrapper-invalid-keeps-the-one-before",
            finished(64, 64)
                .packet(&glued(bad_signature(), &[9, 9]))
                .command(),
        ),
        named(
            "wrapper-in-pieces-with-an-empty-packet",
            create(64, 0, 94)
                .packet(&ready(1).bytes()[..10])
                .packet(&[])
                .packet(&ready(1).bytes()[10..30])
                .packet(&ready(1).bytes()[30..]),
        ),
        named(
            "wrapper-behind-31-unread-bytes-needs-a-packet",
            create(64, 0, 128)
                .packet(&glued(bad_signature(), &ready(3).bytes()))
                .reset()
                .poll()
                .packet(&[]),
        ),
        named(
            "wrapper-full-buffer-gives-1-though-out-is-busy",
            create(64, 0, 64).packet(&[0x55]).poll().packet(&[]),
        ),
        named(
            "wrapper-glued-behind-is-lost-with-the-status",
            create(64, 0, 64)
                .packet(&glued(ready(1), &ready(2).bytes()))
                .status(0, 0)
                .poll()
                .poll(),
        ),
    ]
}

fn to_host() -> Vec<Named> {
    vec![
        named(
            "to-host-l-64-p-64-gives-4-and-stays-in-state-4",
            create(64, 0, 64).wrapper(reading(64)).poll(),
        ),
        named(
            "to-host-l-16-mib-gives-4",
            create(64, 0, 64).wrapper(reading(1 << 24)).poll(),
        ),
        named(
            "to-host-l-63-p-64-sends-nothing",
            create(64, 0, 64).wrapper(reading(63)),
        ),
        named(
            "to-host-p-64-r-130-takes-4-polls",
            create(64, 0, 64)
                .wrapper(reading(130))
                .status(1, 0)
                .polls(4),
        ),
        named(
            "to-host-p-8-r-0-takes-2-polls",
            create(8, 0, 64).wrapper(ready(1)).status(0, 0).polls(2),
        ),
        named(
            "to-host-p-8-l-10-four-bytes-then-status",
            four_of_ten().polls(4),
        ),
        named(
            "to-host-is-not-filled-again-behind-a-busy-poll",
            four_of_ten()
                .in_answers(InAnswer::Busy)
                .in_answers(InAnswer::Error(9))
                .polls(4),
        ),
        named(
            "to-host-unserved-polls-do-not-count",
            (0..4).fold(four_of_ten(), |script, _| unserved(script).poll()),
        ),
        named(
            "to-host-bytes-put-in-behind-the-status-go-out",
            create(8, 0, 64)
                .wrapper(reading(10))
                .status(0, 4)
                .write(&counted(4))
                .polls(4),
        ),
        named(
            "to-host-write-data-stops-at-left",
            create(8, 0, 64).wrapper(reading(10)).write(&counted(12)),
        ),
        named(
            "to-host-write-data-takes-what-fits",
            create(8, 0, 32).wrapper(reading(100)).write(&counted(40)),
        ),
        named(
            "to-host-write-data-moves-unread-bytes",
            create(8, 0, 32)
                .wrapper(reading(100))
                .write(&counted(32))
                .poll()
                .write(&counted(8)),
        ),
        named(
            "to-host-write-all-is-not-limited-by-left",
            create(8, 0, 64)
                .wrapper(reading(10))
                .write_all(&counted(12))
                .polls(3),
        ),
        named(
            "to-host-write-all-refused-keeps-the-unread-bytes",
            create(8, 0, 32)
                .wrapper(reading(100))
                .write(&counted(30))
                .poll()
                .write_all(&counted(11))
                .write_all(&counted(10))
                .polls(4),
        ),
        named(
            "to-host-left-below-p-sends-a-full-packet-past-left",
            create(8, 0, 64)
                .wrapper(reading(7))
                .write_all(&counted(9))
                .poll()
                .poll(),
        ),
        named(
            "to-host-bytes-behind-the-wrapper-are-sent",
            create(64, 0, 64).packet(&glued(reading(2), &[0xAB, 0xCD])),
        ),
    ]
}

fn from_host() -> Vec<Named> {
    let device = || create(8, 0, 32).wrapper(writing(20));
    let two = |first: &[u8], second: &[u8]| {
        (
            OutAnswer::Packet(first.to_vec()),
            OutAnswer::Packet(second.to_vec()),
        )
    };
    let (wrapper, data) = two(&writing(4).bytes(), &counted(4));
    vec![
        named(
            "from-host-second-packet-of-the-wrappers-poll",
            create(32, 0, 64)
                .offers(InAnswer::Accepts, wrapper, data)
                .read(4)
                .poll(),
        ),
        named(
            "from-host-read-data-with-room-0-small-and-large",
            device()
                .packet(&counted(8))
                .read(0)
                .read(3)
                .read(600)
                .read(1),
        ),
        named(
            "from-host-empty-packet-counts-as-taken",
            device().packet(&[]),
        ),
        named(
            "from-host-more-than-left-stops-at-0",
            create(8, 0, 64)
                .wrapper(writing(3))
                .packet(&counted(8))
                .poll(),
        ),
        named(
            "from-host-no-room-gives-1-until-read",
            create(8, 0, 39)
                .wrapper(writing(64))
                .packet(&counted(8))
                .packet(&counted(8))
                .packet(&counted(8))
                .packet(&counted(8))
                .packet(&counted(8))
                .read(1)
                .packet(&counted(8)),
        ),
        named(
            "from-host-status-drops-what-still-comes",
            device()
                .packet(&counted(8))
                .status(1, 8)
                .packet(&counted(8))
                .packet(&counted(4))
                .polls(3),
        ),
        named(
            "from-host-unserved-polls-do-not-count",
            [
                OutAnswer::Packet(counted(8)),
                OutAnswer::Packet(counted(4)),
                OutAnswer::Busy,
                OutAnswer::Busy,
            ]
            .into_iter()
            .fold(
                device().packet(&counted(8)).status(1, 8),
                |script, first| unserved(script).out_answers(first),
            ),
        ),
        named(
            "from-host-bytes-behind-the-wrapper-do-not-count-for-left",
            create(64, 0, 128)
                .packet(&glued(writing(4), &counted(4)))
                .read(4),
        ),
    ]
}

fn statuses() -> Vec<Named> {
    let residues = [500, 600, 512].into_iter();
    let residues = residues.fold(create(64, 0, 512), |script, figure| {
        script
            .wrapper(reading(512))
            .write_all(&[0x11; 512])
            .polls(8)
            .status(0, figure)
            .poll()
    });
    vec![
        named("status-l-512-figures-500-600-and-512", residues),
        named(
            "status-set-again-replaces-the-first",
            create(64, 0, 64)
                .wrapper(reading(5))
                .status(2, 0)
                .status(1, 3)
                .poll()
                .poll(),
        ),
    ]
}

fn endpoints() -> Vec<Named> {
    vec![
        named(
            "endpoint-out-busy-and-failing-in-state-0",
            create(8, 0, 64)
                .poll()
                .out_answers(OutAnswer::Error(2))
                .out_answers(OutAnswer::Error(255)),
        ),
        named(
            "endpoint-second-out-fails",
            create(32, 0, 64).offers(
                InAnswer::Accepts,
                OutAnswer::Packet(writing(4).bytes()),
                OutAnswer::Error(3),
            ),
        ),
        named(
            "endpoint-in-busy-and-failing-behind-3-0-4",
            [InAnswer::Busy, InAnswer::Error(4)].into_iter().fold(
                create(64, 0, 64),
                |script, in_answer| {
                    let glued = glued(reading(2), &[1, 2]);
                    script
                        .wrapper(ready(1))
                        .status(0, 0)
                        .poll()
                        .offers(in_answer, OutAnswer::Packet(glued), OutAnswer::Busy)
                        .poll()
                        .status(0, 2)
                        .poll()
                },
            ),
        ),
        named(
            "endpoint-in-busy-and-failing-in-state-4",
            create(8, 0, 64)
                .wrapper(reading(8))
                .write(&counted(8))
                .in_answers(InAnswer::Busy)
                .in_answers(InAnswer::Error(2))
                .poll(),
        ),
        named(
            "endpoint-in-busy-and-failing-in-state-3",
            create(8, 0, 64)
                .wrapper(ready(1))
                .status(0, 0)
                .poll()
                .in_answers(InAnswer::Busy)
                .in_answers(InAnswer::Error(200))
                .poll(),
        ),
    ]
}

/// All chains that start in a state, one after the other.
fn chains() -> Vec<Named> {
    let to_host = |device: Script| device.wrapper(reading(8)).write(&counted(8));
    let from_host = |device: Script| device.wrapper(writing(8)).packet(&counted(8));
    let done = |device: Script| device.wrapper(ready(1)).status(0, 0).poll();
    vec![
        named(
            "chains-from-0-are-0-and-0-1-and-0-4-and-0-7-and-0-2-5",
            create(32, 0, 64)
                .poll()
                .packet(&[])
                .wrapper(bad_signature())
                .reset()
                .wrapper(reading(5))
                .reset()
                .wrapper(writing(5))
                .reset()
                .wrapper(ready(1)),
        ),
        named(
            "chains-from-1-are-1",
            create(64, 0, 64).wrapper(bad_signature()).polls(2),
        ),
        named(
            "chains-from-3-are-3",
            create(8, 0, 64).wrapper(ready(1)).status(0, 0).polls(2),
        ),
        named(
            "chains-from-3-are-3-0-and-what-follows-0",
            done(create(64, 0, 64))
                .poll()
                .wrapper(ready(1))
                .status(0, 0)
                .poll()
                .packet(&[])
                .wrapper(ready(1))
                .status(1, 0)
                .poll()
                .wrapper(ready(2))
                .status(0, 0)
                .poll()
                .wrapper(reading(5))
                .status(0, 0)
                .polls(2)
                .wrapper(writing(5))
                .packet(&counted(5))
                .status(0, 5)
                .poll()
                .wrapper(bad_signature()),
        ),
        named(
            "chains-from-4-are-4-and-4-5-and-4-6-and-4-5-3",
            to_host(create(8, 0, 64))
                .polls(2)
                .reset()
                .wrapper(reading(8))
                .status(0, 0)
                .poll()
                .reset()
                .wrapper(reading(8))
                .write(&counted(8))
                .poll()
                .status(0, 8)
                .poll(),
        ),
        named(
            "chains-from-5-are-5-and-5-3",
            create(64, 0, 64)
                .wrapper(ready(1))
                .poll()
                .status(0, 0)
                .poll(),
        ),
        named(
            "chains-from-6-are-6-and-6-3",
            create(8, 0, 64).wrapper(reading(16)).status(0, 0).polls(3),
        ),
        named(
            "chains-from-7-are-7-and-7-5-and-7-8-and-7-5-3",
            from_host(from_host(create(8, 0, 64)).poll().status(0, 8).polls(2))
                .status(0, 8)
                .polls(2)
                .wrapper(writing(8))
                .status(0, 0)
                .poll(),
        ),
        named(
            "chains-from-8-are-8-and-8-3",
            create(8, 0, 64)
                .wrapper(writing(16))
                .status(0, 0)
                .packet(&counted(8))
                .packet(&counted(8))
                .poll(),
        ),
    ]
}

/// From state 0 to another one.
type Enter = fn(Script) -> Script;

/// The states that a poll can end in, each with a P and a buffer, and the way there.
const STATES: [(u8, u16, u32, Enter); 8] = [
    (0, 8, 512, |device| device),
    (1, 16, 32, |device| device.wrapper(bad_signature())),
    (3, 16, 63, |device| {
        device.wrapper(ready(1)).status(0, 0).poll()
    }),
    (4, 16, 64, |device| device.wrapper(reading(40))),
    (5, 16, 512, |device| device.wrapper(ready(1))),
    (6, 32, 32, |device| {
        device.wrapper(reading(80)).status(1, 0).poll()
    }),
    (7, 32, 63, |device| device.wrapper(writing(40))),
    (8, 8, 63, |device| {
        device.wrapper(writing(40)).status(1, 0).poll()
    }),
];

/// In each state: every call, every kind of control request and packets above P; then the class
/// reset, and back again for the bus reset.
fn sweeps() -> Vec<Named> {
    let sweep = |(state, packet_size, buffer, enter): (u8, u16, u32, Enter)| {
        let long = || OutAnswer::Packet(vec![0x55; usize::from(packet_size) + 1]);
        let script = enter(create(packet_size, 3, buffer))
            .command()
            .read(1)
            .write(&[])
            .write_all(&[])
            .write_all(&vec![7; buffer as usize + 1])
            .control(0xA1, 0xFE)
            .control(0x21, 0xFF)
            .control(0xA1, 0x00)
            .control(0xC1, 0xFE)
            .control(0xA0, 0xFF)
            .offers(InAnswer::Accepts, long(), OutAnswer::Busy)
            .offers(InAnswer::Accepts, OutAnswer::Busy, long())
            .control(0xA1, 0xFF);
        let script = enter(script).reset();
        // The status comes last: if it is accepted, it changes what follows.
        let script = enter(script).status(2, 1).status(1, 2).command();
        (format!("state-{state}-every-call"), script)
    };
    STATES.into_iter().map(sweep).collect()
}

/// Each P with L of 0, 1, 12, 13, around P, 512 and large, to and from the host.
fn lengths() -> Vec<Named> {
    let of = |packet_size: u16| {
        let size = u32::from(packet_size);
        let lengths = [1, 12, 13, size - 1, size, size + 1, 512, u32::MAX];
        let script = create(packet_size, 0, 65).wrapper(ready(1)).reset();
        let script = lengths.into_iter().fold(script, |script, length| {
            script
                .wrapper(reading(length))
                .reset()
                .wrapper(writing(length))
                .reset()
        });
        (format!("lengths-at-p-{packet_size}"), script)
    };
    [8, 16, 32, 64].into_iter().map(of).collect()
}

fn commands() -> Vec<Named> {
    let shown = |blocks: &[&[u8]]| {
        let blocks = blocks.iter();
        blocks.fold(create(64, 0, 64), |script, block| {
            script.wrapper(Wrapper::new(1, block)).command().reset()
        })
    };
    let sixteen = |opcode| {
        let mut block = counted(16);
        block[0] = opcode;
        block
    };
    vec![
        named(
            "command-cases-12-and-28-and-1a",
            shown(&[
                &[0x12, 1, 0x80, 0, 0xFF],
                &[0x12, 1, 0x80, 0],
                &[0x28, 0, 0, 0, 1, 0, 0, 0, 8],
                &[0x1A, 8, 0xBF, 0, 0xC0],
            ]),
        ),
        named(
            "command-12-of-four-bytes-is-unknown",
            shown(&[&[0x12, 1, 0x80, 0]]),
        ),
        named(
            "command-blocks-as-linux-sends-them",
            shown(&[
                &[0x12, 0, 0, 0, 36, 0],
                &[0; 6],
                &[0x25, 0, 0, 0, 0, 0, 0, 0, 0, 0],
                &[0x28, 0, 0, 0, 0, 0, 0, 0, 1, 0],
                &[0x1A, 0, 0x3F, 0, 0xC0, 0],
                &[0x1E, 0, 0, 0, 1, 0],
                &[0x03, 0, 0, 0, 96, 0],
                &[0x2A, 0, 0, 0, 0, 0, 0, 0, 120, 0],
            ]),
        ),
        named(
            "command-88-and-8a-count-only-extended",
            shown(&[&sixteen(0x88), &sixteen(0x8A)]),
        ),
        named(
            "command-none-once-a-status-is-set",
            create(64, 0, 64).wrapper(ready(1)).status(0, 0).command(),
        ),
        named(
            "command-all-opcodes-at-their-shortest-lengths",
            shortest_lengths(),
        ),
    ]
}

/// A step of each form.
fn steps(script: Script) -> Script {
    script.command().command_told(false).command_told(true)
}

/// Command steps that carry a byte, and beside them those that do not.
fn tellings() -> Vec<Named> {
    // 88 and 8A count with extended addressing, if they have 14 bytes.
    let shown = |step: fn(Script) -> Script| {
        let blocks = [0x88, 0x8A].into_iter().flat_map(|opcode| {
            [16, 14, 13].map(|length| {
                let mut block = counted(length);
                block[0] = opcode;
                block
            })
        });
        blocks.fold(create(64, 0, 64), |script, block| {
            step(script.wrapper(Wrapper::new(1, &block))).reset()
        })
    };
    let everywhere = STATES.iter().fold(create(16, 0, 64), |script, state| {
        let (.., enter) = state;
        steps(enter(script)).reset()
    });
    vec![
        named(
            "step-of-one-byte-0-is-good",
            create(64, 0, 64)
                .wrapper(ready(1))
                .status(0, 0)
                .poll()
                .command_told(false),
        ),
        named("step-of-88-and-8a-without-a-byte", shown(Script::command)),
        named(
            "step-of-88-and-8a-carries-0",
            shown(|script| script.command_told(false)),
        ),
        named(
            "step-of-88-and-8a-carries-1",
            shown(|script| script.command_told(true)),
        ),
        named(
            "step-of-every-form-where-nothing-is-offered",
            steps(steps(create(64, 0, 64)).wrapper(ready(1)).status(0, 0)),
        ),
        named(
            "step-of-every-form-gives-13-for-an-empty-block",
            steps(create(64, 0, 64).wrapper(bad_signature())),
        ),
        named("step-of-every-form-in-every-state", everywhere),
    ]
}

/// Each opcode of document 01's table, one byte too short and just long enough.
fn shortest_lengths() -> Script {
    const TABLE: [(u8, usize); 12] = [
        (0x00, 1),
        (0x03, 5),
        (0x12, 5),
        (0x1A, 5),
        (0x23, 9),
        (0x25, 1),
        (0x28, 9),
        (0x2A, 9),
        (0x5A, 9),
        (0x88, 14),
        (0x8A, 14),
        (0x9E, 14),
    ];
    let mut script = create(32, 0, 64);
    for (opcode, shortest) in TABLE {
        for length in [shortest - 1, shortest]
            .into_iter()
            .filter(|length| *length > 0)
        {
            let mut block = counted(length);
            block[0] = opcode;
            script = script
                .wrapper(Wrapper::new(1, &block))
                .command()
                .status(0, 0)
                .poll();
        }
    }
    script
}

fn controls() -> Vec<Named> {
    let device = || create(8, 5, 64).wrapper(reading(16)).write(&counted(4));
    vec![
        named(
            "control-a1-ff-enters-state-0-and-keeps-unread-bytes",
            device().control(0xA1, 0xFF).read(4),
        ),
        named(
            "reset-clears-status-and-left",
            device().status(1, 0).reset().command().poll(),
        ),
    ]
}

/// Where the Rust, and so the port, differs from BOT or from what a laptop expects: the smallest
/// file that shows it.
fn differences() -> Vec<Named> {
    let wrapper = ready(1).bytes();
    let longest_block = {
        let mut block = counted(16);
        block[..2].copy_from_slice(&[0x9E, 0x11]);
        block
    };
    vec![
        named(
            "diff-glues-short-packets",
            create(64, 0, 65)
                .packet(&wrapper[..1])
                .packet(&wrapper[1..]),
        ),
        named(
            "diff-accepts-longer-messages",
            create(64, 0, 64).packet(&glued(ready(1), &[0])),
        ),
        named(
            "diff-reset-keeps-unread-bytes",
            create(8, 0, 31).packet(&[0]).reset(),
        ),
        named(
            "diff-reset-clears-stalls",
            create(64, 0, 64)
                .wrapper(bad_signature())
                .control(0xA1, 0xFF),
        ),
        named(
            "diff-ignores-max-lun",
            create(64, 0, 64)
                .wrapper(Wrapper { lun: 1, ..ready(1) })
                .command(),
        ),
        named(
            "diff-a-reserved-bit-counts-as-block-length",
            create(64, 0, 64).wrapper(Wrapper {
                block_length: 0x26,
                ..ready(1)
            }),
        ),
        named(
            "diff-over-long-write-sends-more-than-l",
            create(64, 0, 64)
                .wrapper(reading(1))
                .write_all(&[1, 2])
                .poll(),
        ),
        named(
            "diff-early-short-packet-ends-a-read",
            create(64, 0, 64).wrapper(reading(2)).write(&[1]).poll(),
        ),
        named(
            "diff-state-1-shows-an-empty-block",
            create(64, 0, 64).wrapper(bad_signature()).command(),
        ),
        named(
            "diff-state-1-shows-an-old-block",
            create(64, 0, 64)
                .wrapper(ready(1))
                .reset()
                .wrapper(bad_signature())
                .command(),
        ),
        named(
            "diff-9e-ignores-its-service-action",
            create(64, 0, 64)
                .wrapper(Wrapper::new(1, &longest_block))
                .command(),
        ),
        named(
            "diff-ff-is-taken-device-to-host",
            create(8, 0, 31).control(0xA1, 0xFF),
        ),
        named(
            "diff-21-ff-is-not-taken",
            create(8, 0, 31).control(0x21, 0xFF),
        ),
        named(
            "diff-reset-within-a-read-answers-1-for-ever",
            create(64, 0, 64)
                .wrapper(reading(1))
                .write(&[1])
                .reset()
                .wrapper(ready(2)),
        ),
        named(
            "diff-reset-within-a-read-makes-wrappers-invalid",
            create(64, 0, 65)
                .wrapper(reading(1))
                .write(&[1])
                .reset()
                .wrapper(ready(2)),
        ),
        named(
            "diff-buffer-31-p-8-gives-1-behind-24-bytes",
            create(8, 0, 31).wrapper(ready(1)),
        ),
        named(
            "diff-buffer-31-p-16-gives-1-behind-16-bytes",
            create(16, 0, 31).wrapper(ready(1)),
        ),
        named(
            "diff-filler-goes-out-as-inquiry-data-with-a-residue",
            create(64, 0, 64)
                .wrapper(Wrapper::new(1, &[0x12, 0, 0, 0, 36, 0]).with_data_in(36))
                .status(0, 0)
                .polls(2),
        ),
        named(
            "diff-status-2-costs-a-bus-reset",
            create(64, 0, 64).wrapper(ready(1)).status(2, 0).poll(),
        ),
        named(
            "diff-a-figure-of-l-makes-filler-count-as-data",
            create(64, 0, 64).wrapper(reading(1)).status(0, 1).polls(2),
        ),
        named(
            "diff-21-ff-does-not-leave-state-1",
            create(64, 0, 64)
                .wrapper(bad_signature())
                .control(0x21, 0xFF)
                .poll(),
        ),
        named(
            "diff-host-data-not-read-in-time-is-lost",
            create(64, 0, 64)
                .wrapper(writing(1))
                .packet(&[1])
                .poll()
                .read(1),
        ),
        named(
            "diff-a-read-declared-from-host-is-offered",
            create(64, 0, 64)
                .wrapper(Wrapper {
                    flags: 0,
                    ..reading(1)
                })
                .command()
                .write(&[1]),
        ),
        named(
            "diff-reset-within-a-read-takes-wrappers-one-late",
            create(64, 0, 95)
                .wrapper(reading(31))
                .write(&counted(31))
                .reset()
                .wrapper(ready(2))
                .reset()
                .wrapper(ready(3))
                .status(0, 0)
                .poll(),
        ),
        named(
            "diff-decoding-leaves-fields-out",
            create(64, 0, 64)
                .wrapper(Wrapper::new(1, &[0x28, 0xFF, 0, 0, 0, 0, 0xFF, 0, 1, 0xFF]))
                .command(),
        ),
    ]
}

/// Demand 3 without one of its premises: the smallest file in which its conclusion is false. The
/// comments name the premise as crates/readout/specs/Demand.antt does. P is 8, and 32 where a second
/// message would come in pieces too. For no-status there is `status-set-again-replaces-the-first`.
fn premises() -> Vec<Named> {
    let waiting = || create(8, 0, 64);
    let interrupted = |reset: fn(Script) -> Script| {
        reset(create(32, 0, 64).wrapper(ready(1)))
            .wrapper(ready(2))
            .status(0, 0)
            .poll()
    };
    vec![
        // waits: in state 1 nothing is read, so there is no message and no status either.
        named(
            "premise-wrapper-behind-an-invalid-one-is-not-taken",
            create(32, 0, 64)
                .wrapper(bad_signature())
                .wrapper(ready(1))
                .status(0, 0)
                .poll(),
        ),
        // waits: in state 7 the message is data.
        named(
            "premise-wrapper-sent-as-data-is-no-command",
            create(32, 0, 64)
                .wrapper(writing(31))
                .wrapper(ready(1))
                .status(0, 31)
                .poll(),
        ),
        // nothing: what is glued is invalid, and no status is accepted.
        named(
            "premise-byte-before-the-wrapper-makes-it-invalid",
            waiting()
                .packet(&[0])
                .wrapper(ready(1))
                .status(0, 0)
                .polls(2),
        ),
        // nothing: what is glued is valid, and the end of the second wrapper is unread after it.
        named(
            "premise-broken-off-wrapper-takes-16-bytes-of-the-next",
            create(32, 0, 64)
                .packet(&reading(1).bytes()[..15])
                .wrapper(Wrapper::new(2, &counted(16)))
                .status(0, 0),
        ),
        // unfinished: the wrapper was whole two events earlier, and a reset came in between.
        named(
            "premise-data-kept-by-a-reset-is-parsed-as-a-wrapper",
            create(32, 0, 64)
                .offers(
                    InAnswer::Accepts,
                    OutAnswer::Packet(writing(32).bytes()),
                    OutAnswer::Packet(glued(reading(1), &[0xAB])),
                )
                .reset()
                .packet(&[])
                .status(0, 0),
        ),
        // valid: 32 bytes.
        named(
            "premise-byte-behind-the-wrapper-goes-out-as-data",
            glued(reading(1), &[0xAB])
                .chunks(8)
                .fold(waiting(), |script, packet| script.packet(packet))
                .status(0, 0),
        ),
        // valid: 31 bytes that are no wrapper; no status is accepted.
        named(
            "premise-wrong-signature-takes-no-status",
            waiting().wrapper(bad_signature()).status(0, 0).polls(2),
        ),
        named(
            "premise-wrong-block-length-takes-no-status",
            waiting()
                .wrapper(Wrapper {
                    block_length: 0,
                    ..ready(1)
                })
                .status(0, 0)
                .polls(2),
        ),
        // no-reset, and with it same-command, before the status.
        named(
            "premise-reset-before-the-status-gives-it-the-next-tag",
            interrupted(Script::reset),
        ),
        named(
            "premise-a1-ff-before-the-status-gives-it-the-next-tag",
            interrupted(|script| script.control(0xA1, 0xFF)),
        ),
        // same-command: it is the status of the next command.
        named(
            "premise-status-of-the-next-command-is-another",
            create(32, 0, 64)
                .wrapper(ready(1))
                .status(0, 0)
                .poll()
                .wrapper(ready(2))
                .status(1, 0),
        ),
        // no-reset after the status. An empty packet makes a poll in state 0 a served one.
        named(
            "premise-reset-behind-the-status-drops-it",
            waiting()
                .wrapper(ready(1))
                .status(0, 0)
                .reset()
                .packet(&[])
                .packet(&[]),
        ),
        named(
            "premise-a1-ff-within-the-status-leaves-5-bytes-unread",
            waiting()
                .wrapper(ready(1))
                .status(0, 0)
                .poll()
                .control(0xA1, 0xFF)
                .packet(&[]),
        ),
        // full: fewer bytes than P and than what is left.
        named(
            "premise-short-host-packet-takes-one-poll-more",
            waiting()
                .wrapper(writing(2))
                .status(0, 0)
                .packet(&[1])
                .packet(&[2])
                .polls(2),
        ),
        named(
            "premise-empty-host-packet-takes-one-poll-more",
            waiting()
                .wrapper(writing(1))
                .status(0, 0)
                .packet(&[])
                .packet(&[1])
                .polls(2),
        ),
        // few: P + 1 bytes put in, and less than P left.
        named(
            "premise-write-all-above-l-loses-a-byte",
            waiting()
                .wrapper(reading(1))
                .write_all(&counted(9))
                .status(0, 1)
                .polls(2),
        ),
        named(
            "premise-two-writes-above-l-lose-a-byte",
            waiting()
                .wrapper(reading(5))
                .write(&counted(5))
                .write(&counted(9)[5..])
                .status(0, 5)
                .polls(2),
        ),
    ]
}

/// How much room is missing with answer 1. Calls and polls that lack a single byte are in files above.
fn missing() -> Vec<Named> {
    let glued = OutAnswer::Packet(glued(writing(100), &counted(33)));
    let one_byte = OutAnswer::Packet(vec![0x55]);
    // At P 64: P is wanted whatever OUT would answer. 11 and 3 come before any room is wanted.
    let whatever_out_answers = |script: Script| {
        script
            .packet(&counted(11))
            .packet(&[])
            .poll()
            .out_answers(OutAnswer::Error(9))
            .packet(&counted(64))
            .packet(&counted(65))
            .write_all(&counted(65))
    };
    let full = (0..4).fold(create(8, 0, 32).wrapper(writing(64)), |script, _| {
        script.packet(&counted(8))
    });
    vec![
        named(
            "missing-33-behind-the-wrapper-in-0-7",
            create(64, 0, 64).out_answers(glued.clone()),
        ),
        named(
            "missing-33-behind-the-wrapper-in-3-0-7",
            finished(64, 64).offers(InAnswer::Accepts, glued, one_byte),
        ),
        named(
            "missing-20-in-state-0-whatever-out-answers",
            whatever_out_answers(create(64, 0, 64).packet(&ready(1).bytes()[..20])),
        ),
        named(
            "missing-40-in-state-7-whatever-out-answers",
            whatever_out_answers(create(64, 0, 64).wrapper(writing(100)).packet(&counted(40))),
        ),
        named(
            "missing-all-64-in-state-0-behind-a-reset",
            create(64, 0, 64)
                .wrapper(reading(64))
                .write(&counted(64))
                .reset()
                .wrapper(ready(2)),
        ),
        named(
            "missing-8-down-to-1-in-state-7-as-bytes-are-read",
            (0..8).fold(full.packet(&counted(8)), |script, _| {
                script.read(1).packet(&counted(8))
            }),
        ),
        named(
            "missing-8-in-write-all-until-8-are-sent",
            create(8, 0, 32)
                .wrapper(reading(100))
                .write(&counted(24))
                .write_all(&counted(16))
                .poll()
                .write_all(&counted(16)),
        ),
        named(
            "missing-10000-in-write-all-above-the-buffer",
            create(8, 0, 32)
                .wrapper(reading(100))
                .write_all(&[7; 10_032])
                .write(&counted(32))
                .write_all(&[7; 10_032])
                .write_all(&[]),
        ),
    ]
}

/// The status of a command whose five bytes are sent.
fn closed(script: Script) -> Script {
    script.status(0, 5).poll()
}

/// What the firmware has put in since the wrapper. No line shows the count: `--show` does.
fn put_in() -> Vec<Named> {
    // Both resets; 3 to 0 with OUT busy and failing; 3 through 0 to 4, to 1, and to 7 where room is missing.
    const INTO_0: [fn(Script) -> Script; 7] = [
        Script::reset,
        |script| script.control(0xA1, 0xFF),
        |script| closed(script).poll(),
        |script| closed(script).out_answers(OutAnswer::Error(9)),
        |script| closed(script).wrapper(reading(1)).reset(),
        |script| closed(script).wrapper(bad_signature()).reset(),
        |script| closed(script).packet(&glued(writing(100), &counted(33))),
    ];
    vec![
        named(
            "put-in-70-for-l-2-leaves-6-unread",
            create(64, 0, 128)
                .wrapper(reading(2))
                .write_all(&counted(70))
                .polls(2)
                .status(0, 2)
                .polls(2),
        ),
        named(
            "put-in-passes-l-with-the-second-write-data",
            create(8, 0, 64)
                .wrapper(reading(10))
                .write(&counted(10))
                .write(&counted(4))
                .polls(2),
        ),
        named(
            "put-in-40-though-calls-between-are-refused",
            create(8, 0, 32)
                .wrapper(reading(30))
                .write_all(&counted(20))
                .write_all(&counted(13))
                .write_all(&counted(12))
                .write(&counted(1))
                .poll()
                .write(&counted(20))
                .write_all(&counted(1))
                .polls(4)
                .write_all(&counted(1)),
        ),
        named(
            "put-in-behind-the-status-counts-while-4-lasts",
            four_of_ten()
                .write(&counted(4))
                .write_all(&counted(3))
                .poll()
                .write_all(&counted(1))
                .polls(3),
        ),
        named(
            "put-in-62-behind-2-bytes-that-came-with-the-wrapper",
            create(64, 0, 128)
                .packet(&glued(reading(64), &[0xAB, 0xCD]))
                .write_all(&counted(62))
                .poll(),
        ),
        named(
            "put-in-5-for-l-4-behind-a-wrapper-kept-by-a-reset",
            create(64, 0, 128)
                .wrapper(writing(64))
                .packet(&glued(reading(4), &[0xAB]))
                .reset()
                .packet(&[])
                .write_all(&counted(5))
                .poll(),
        ),
        named(
            "put-in-is-0-again-by-every-way-into-state-0",
            INTO_0
                .into_iter()
                .fold(create(64, 0, 64), |script, into_0| {
                    into_0(script.wrapper(reading(5)).write(&counted(5)).poll())
                }),
        ),
    ]
}

fn damaged() -> Vec<Case> {
    let good = create(64, 0, 64).wrapper(ready(1)).status(0, 0).poll();
    let case = |(rule, damage): &(&'static str, damage::Damage)| Case {
        name: format!("damaged-{}", rule.to_lowercase().replace(' ', "-")),
        file: damage(&good.events),
        rule: Some(rule),
    };
    damage::RULES.iter().map(case).collect()
}
