//! What the firmware has put in since the wrapper. `c/tests/putin.c` has random events, and more than 2^32 bytes truly put in.

mod host;

use host::{DATA, IO, PACKET_SIZES, feed, poll, wrapper};
use souklavanh::{CommandStatus, Device, Endpoints, Error, In, Out, State};

/// Where the count stands in the record.
const PUT_IN: usize = 52;

/// A device that has taken a wrapper to the host.
fn reading(packet_size: usize, io: &mut [u8], length: u32) -> Device<'_> {
    let mut device = Device::new(packet_size as u32, 0, io).unwrap();
    feed(&mut device, &wrapper(length, true), packet_size);
    assert_eq!(device.state(), Some(State::DataTransferToHost));
    device
}

/// The same device, but its record counts this number as put in.
fn counting(device: &Device, number: u32, io: &mut [u8]) -> [u8; souklavanh::RECORD_LENGTH] {
    let mut record = *device.record();
    record[PUT_IN..PUT_IN + 4].copy_from_slice(&number.to_le_bytes());
    io.copy_from_slice(device.io());
    record
}

#[test]
fn the_call_that_makes_a_read_out_too_long_is_the_one_behind_which_it_is_above_the_length() {
    for packet_size in PACKET_SIZES {
        let mut buffer = [0; IO];
        let mut device = reading(packet_size, &mut buffer, 36);
        for (call, above) in [(12, false), (24, false), (1, true), (0, true), (9, true)] {
            device.try_write_data_all(&DATA[..call]).unwrap();
            assert_eq!(device.put_in() > 36, above);
        }
        assert_eq!(device.put_in(), 46);
    }
}

#[test]
fn what_write_data_takes_counts_and_not_its_source() {
    for packet_size in PACKET_SIZES {
        // What is left is the limit, then the room.
        for (length, taken) in [(100, 100), (1000, IO)] {
            let mut buffer = [0; IO];
            let mut device = reading(packet_size, &mut buffer, length);
            assert_eq!(device.write_data(&DATA), Ok(taken));
            assert_eq!(device.put_in(), taken as u32);
        }
    }
}

#[test]
fn a_refused_write_does_not_count() {
    let mut buffer = [0; IO];
    let mut device = reading(64, &mut buffer, 1000);
    device.try_write_data_all(&DATA[..100]).unwrap();
    let lacking = Err(Error::IoBufferOverflow { missing: 12 });
    assert_eq!(device.try_write_data_all(&DATA[..40]), lacking);
    assert_eq!(device.put_in(), 100);

    let mut buffer = [0; IO];
    let mut device = Device::new(64, 0, &mut buffer).unwrap();
    feed(&mut device, &wrapper(1000, false), 64);
    assert_eq!(device.write_data(&DATA), Err(Error::InvalidState));
    assert_eq!(device.try_write_data_all(&DATA), Err(Error::InvalidState));
    assert_eq!(device.put_in(), 0);
}

#[test]
fn unread_is_what_was_put_in_less_what_was_sent() {
    for packet_size in PACKET_SIZES {
        let mut buffer = [0; IO];
        let mut device = reading(packet_size, &mut buffer, 1000);
        let mut sent = 0;
        for turn in 0..10 {
            device.write_data(&DATA[..7 * turn]).unwrap();
            assert_eq!(device.unread(), device.put_in() - sent);
            sent += poll(&mut device, Endpoints::silent()).sent as u32;
            assert_eq!(device.unread(), device.put_in() - sent);
        }
        // Behind a status bytes still count. With a whole packet there, the next poll adds no filler.
        device.set_status(CommandStatus::Passed, 0).unwrap();
        device.write_data(&DATA[..packet_size]).unwrap();
        sent += poll(&mut device, Endpoints::silent()).sent as u32;
        assert_eq!(device.state(), Some(State::DataTransferToHostEnding));
        assert_eq!(device.unread(), device.put_in() - sent);
    }
}

#[test]
fn filler_and_status_do_not_count() {
    for packet_size in PACKET_SIZES {
        let mut buffer = [0; IO];
        let mut device = reading(packet_size, &mut buffer, 100);
        assert_eq!(device.write_data(&DATA[..4]), Ok(4));
        device.set_status(CommandStatus::Passed, 4).unwrap();
        while device.state() != Some(State::StatusTransfer) || device.unread() > 0 {
            assert_eq!(poll(&mut device, Endpoints::silent()).result, Ok(()));
            assert_eq!(device.put_in(), 4);
        }
    }
}

/// A device whose status is sent, with 4 bytes counted as put in.
fn ended(io: &mut [u8]) -> Device<'_> {
    let mut device = reading(64, io, 4);
    device.write_data(&DATA[..4]).unwrap();
    assert_eq!(poll(&mut device, Endpoints::silent()).sent, 4);
    device.set_status(CommandStatus::Passed, 4).unwrap();
    assert_eq!(poll(&mut device, Endpoints::silent()).sent, 13);
    assert_eq!(
        (device.state(), device.put_in()),
        (Some(State::StatusTransfer), 4)
    );
    device
}

#[test]
fn it_is_0_when_a_command_is_awaited() {
    let mut buffer = [0; IO];
    let mut device = ended(&mut buffer);
    let poll = poll(&mut device, Endpoints::silent());
    assert_eq!(poll.result, Err(Error::WouldBlock));
    assert_eq!(
        (device.state(), device.put_in()),
        (Some(State::CommandTransfer), 0)
    );

    let mut buffer = [0; IO];
    let mut device = ended(&mut buffer);
    device.reset().unwrap();
    assert_eq!(device.put_in(), 0);

    let mut buffer = [0; IO];
    let mut device = ended(&mut buffer);
    device.control(0xA1, 0xFE).unwrap();
    assert_eq!(device.put_in(), 4);
    device.control(0xA1, 0xFF).unwrap();
    assert_eq!(device.put_in(), 0);

    let mut buffer = [0; IO];
    let mut device = ended(&mut buffer);
    device.renew().unwrap();
    assert_eq!(device.put_in(), 0);
}

#[test]
fn it_is_0_behind_a_wrapper_valid_or_not() {
    for (message, state) in [
        (wrapper(36, true), State::DataTransferToHost),
        (wrapper(36, false), State::DataTransferFromHost),
        ([0; 31], State::CommandTransferInvalid),
    ] {
        let mut buffer = [0; IO];
        let new = Device::new(64, 0, &mut buffer).unwrap();
        let mut io = [0; IO];
        let record = counting(&new, 7, &mut io);
        let mut device = Device::from_bytes(record, &mut io);
        assert_eq!(device.put_in(), 7);
        feed(&mut device, &message, 64);
        assert_eq!((device.state(), device.put_in()), (Some(state), 0));
    }
}

#[test]
fn it_stops_at_the_largest_number() {
    for less in 0..4 {
        for count in 0..8 {
            let mut buffer = [0; IO];
            let device = reading(64, &mut buffer, 1000);
            let mut io = [0; IO];
            let record = counting(&device, u32::MAX - less, &mut io);
            let mut device = Device::from_bytes(record, &mut io);
            device.try_write_data_all(&DATA[..count]).unwrap();
            let due = (u32::MAX - less).saturating_add(count as u32);
            assert_eq!(device.put_in(), due);
        }
    }
}

#[test]
fn a_busy_endpoint_does_not_change_it() {
    let mut buffer = [0; IO];
    let mut device = reading(64, &mut buffer, 1000);
    device.write_data(&DATA[..100]).unwrap();
    let busy = Endpoints {
        out: [Out::Busy, Out::Busy],
        r#in: In::Busy,
    };
    assert_eq!(poll(&mut device, busy).result, Err(Error::WouldBlock));
    assert_eq!((device.put_in(), device.unread()), (100, 100));
}
