//! Calls that no bench file can make: creations, decoders and verdicts by the raw calls, with room of a wrong length, and a
//! command step that is told another number than 0 or 1. `bench/probes.rs` has the other refusals of a device.

use souklavanh::ffi::{self, COMMAND_NUMBERS};
use souklavanh::{
    CreateError, Device, EmptyBlock, EndpointError, Endpoints, Error, RECORD_LENGTH, State,
    Verdict, decode, decode_told, verdict,
};

const FILL: u8 = 0x5A;

#[test]
fn a_creation_is_refused_in_the_order_of_the_rules() {
    // Packet size, max LUN, buffer; each case breaks a rule and all rules after it, as far as that is possible.
    let cases = [
        ((24, 16, 0), 2),
        ((24, 255, 65_537), 2),
        ((24, 15, 30), 5),
        ((64, 0, 63), 5),
        ((24, 0, 65_537), 8),
        ((0, 0, 31), 8),
        ((264, 0, 65_536), 8),
        ((u32::MAX, 0, u32::MAX), 8),
        ((64, 0, 65_537), 9),
        ((8, 15, u32::MAX), 9),
    ];
    for ((packet_size, max_lun, size), due) in cases {
        for length in [0, RECORD_LENGTH - 1, RECORD_LENGTH, RECORD_LENGTH + 1] {
            let mut record = vec![FILL; length];
            let answer = ffi::create(&mut record, packet_size, max_lun, size);
            assert_eq!(answer, due, "P {packet_size}, {max_lun}, {size}");
            assert!(record.iter().all(|byte| *byte == FILL));
        }
    }
}

#[test]
fn a_record_of_another_length_is_refused_last() {
    for length in [0, 1, RECORD_LENGTH - 1, RECORD_LENGTH + 1, 104] {
        let mut record = vec![FILL; length];
        assert_eq!(ffi::create(&mut record, 8, 15, 31), 10);
        assert!(record.iter().all(|byte| *byte == FILL));
    }
}

#[test]
fn a_new_record_has_no_byte_of_what_was_there() {
    let mut records = [[0; RECORD_LENGTH], [0xFF; RECORD_LENGTH]];
    for record in &mut records {
        assert_eq!(ffi::create(record, 64, 3, 512), 0);
    }
    assert_eq!(records[0], records[1]);
    let mut buffer = [0; 512];
    let device = Device::new(64, 3, &mut buffer).unwrap();
    assert_eq!(device.record(), &records[0]);
    assert_eq!(device.state(), Some(State::CommandTransfer));
    assert_eq!((device.left(), device.unread()), (0, 0));
}

#[test]
fn the_wrapper_refuses_a_creation_by_name() {
    let mut buffer = vec![0; 65_537];
    let mut refused = |packet_size, max_lun, size| {
        Device::new(packet_size, max_lun, &mut buffer[..size]).map(|_| ())
    };
    assert_eq!(refused(64, 16, 512), Err(CreateError::InvalidMaxLun));
    assert_eq!(refused(8, 0, 30), Err(CreateError::BufferTooSmall));
    assert_eq!(refused(24, 0, 512), Err(CreateError::PacketSize));
    assert_eq!(refused(64, 0, 65_537), Err(CreateError::BufferTooLarge));
    assert_eq!(refused(8, 15, 31), Ok(()));
    assert_eq!(refused(64, 0, 65_536), Ok(()));
}

#[test]
fn bytes_that_are_no_record_are_broken_and_have_no_state() {
    let mut buffer = [0; 64];
    let mut device = Device::from_bytes([0xFF; RECORD_LENGTH], &mut buffer);
    assert_eq!(device.state(), None);
    assert_eq!(device.unread(), 0);
    assert_eq!(device.reset(), Err(Error::Broken));
    assert_eq!(device.record(), &[0xFF; RECORD_LENGTH]);
}

#[test]
fn decoders_refuse_an_empty_block_and_wrong_room() {
    let mut numbers = [u64::MAX; COMMAND_NUMBERS + 1];
    for room in [0, COMMAND_NUMBERS - 1, COMMAND_NUMBERS + 1] {
        assert_eq!(ffi::decode(&[0x12; 16], &mut numbers[..room]), 10);
        assert_eq!(ffi::decode_told(&[0x12; 16], 1, &mut numbers[..room]), 10);
    }
    let room = &mut numbers[..COMMAND_NUMBERS];
    for extended in [2, 256, u32::MAX] {
        assert_eq!(ffi::decode_told(&[0x12; 16], extended, room), 10);
    }
    assert_eq!(ffi::decode(&[], room), 13);
    assert_eq!(ffi::decode_told(&[], 1, room), 13);
    assert_eq!(numbers, [u64::MAX; COMMAND_NUMBERS + 1]);
    assert_eq!(decode(&[]), Err(EmptyBlock));
    assert_eq!(decode_told(&[], true), Err(EmptyBlock));
}

#[test]
fn a_command_step_is_told_0_or_1() {
    let (mut io, mut packet) = ([0; 64], [0; 64]);
    let mut wrapper = [0; 31];
    wrapper[..4].copy_from_slice(b"USBC");
    wrapper[14..].copy_from_slice(&[16, 0x88, 0, 1, 2, 3, 4, 5, 6, 7, 8, 0, 0, 0, 9, 0, 0]);
    let mut device = Device::new(64, 0, &mut io).unwrap();
    let poll = device.poll(Endpoints::offering(&wrapper), &mut packet);
    assert_eq!(poll.taken, 1);

    let told = |extended| {
        let mut numbers = [u64::MAX; COMMAND_NUMBERS];
        let word = ffi::command_step_told(device.record(), device.io(), extended, &mut numbers);
        (word.0, numbers)
    };
    let before = *device.record();
    for extended in [2, 3, 256, 1 << 31, u32::MAX] {
        assert_eq!(told(extended), (10, [u64::MAX; COMMAND_NUMBERS]));
    }
    // The flag that a command is offered, for LUN 0.
    let offered = 1 << 24;
    let read = [8, 0x0102_0304_0506_0708, 9, 0, 0, 0];
    assert_eq!(told(0), (offered, [0, 0x88, 0, 0, 0, 0]));
    assert_eq!(told(1), (offered, read));
    let mut numbers = [u64::MAX; COMMAND_NUMBERS];
    let word = ffi::command_step(device.record(), device.io(), &mut numbers);
    assert_eq!((word.0, numbers), (offered, read));
    assert_eq!(device.record(), &before);
}

#[test]
fn endpoint_errors_are_2_to_255() {
    assert_eq!(EndpointError::new(0), None);
    assert_eq!(EndpointError::new(1), None);
    for number in 2..=255 {
        assert_eq!(EndpointError::new(number).unwrap().number(), number);
    }
}

#[test]
fn a_verdict_looks_at_31_bytes_alone() {
    let mut message = [0; 32];
    message[..4].copy_from_slice(b"USBC");
    message[13] = 3;
    message[14] = 16;
    assert_eq!(verdict(&message[..31], 3), Verdict::Meaningful);
    assert_eq!(verdict(&message[..31], 2), Verdict::ValidOnly);
    assert_eq!(verdict(&message, 3), Verdict::Invalid);
    assert_eq!(verdict(&message[..30], 3), Verdict::Invalid);
    assert_eq!(verdict(&[], 3), Verdict::Invalid);
    message[14] = 17;
    assert_eq!(verdict(&message[..31], 3), Verdict::ValidOnly);
}

/// Each of the two bytes with each value: flags 00 and 80 and LUN bytes 00 to 0F have no reserved bit.
#[test]
fn a_reserved_bit_makes_a_message_valid_only() {
    let mut message = [0; 31];
    message[..4].copy_from_slice(b"USBC");
    message[14] = 16;
    for flags in 0..=255 {
        for lun in 0..=255 {
            message[12] = flags;
            message[13] = lun;
            let due = match (flags, lun) {
                (0 | 0x80, 0..=15) => Verdict::Meaningful,
                _ => Verdict::ValidOnly,
            };
            assert_eq!(verdict(&message, 255), due, "{flags:02X} {lun:02X}");
        }
    }
}
