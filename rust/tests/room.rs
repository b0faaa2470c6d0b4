//! Answer 1 says how many bytes of room are missing: with as many more the same call succeeds, and with one byte less it does
//! not. `c/tests/room.c` has more of these, and a source that lacks more than 32 bits can say.

mod host;

use host::{DATA, IO, PACKET_SIZES, feed, poll, wrapper};
use souklavanh::ffi::Word;
use souklavanh::{CommandStatus, Device, Endpoints, Error, Stalls, State};

/// The result of a poll that is offered this packet and does not take it.
fn refused(device: &mut Device, packet: &[u8]) -> Result<(), Error> {
    let poll = poll(device, Endpoints::offering(packet));
    assert_eq!((poll.taken, poll.sent, poll.stalls), (0, 0, Stalls::Kept));
    poll.result
}

fn lacks(missing: usize) -> Result<(), Error> {
    Err(Error::IoBufferOverflow { missing })
}

/// So many bytes are missing for a packet from the host.
fn read_what_is_missing(device: &mut Device, packet_size: usize, missing: usize) {
    let mut data = [0; IO];
    let packet = &DATA[..packet_size];
    let less = missing - 1;
    assert_eq!(device.read_data(&mut data[..less]), Ok(less));
    assert_eq!(refused(device, packet), lacks(1));
    assert_eq!(device.read_data(&mut data[..1]), Ok(1));
    feed(device, packet, packet_size);
}

#[test]
fn while_data_comes_as_many_bytes_are_to_be_read() {
    for packet_size in PACKET_SIZES {
        for missing in 1..=packet_size {
            let mut buffer = [0; IO];
            let mut device = Device::new(packet_size as u32, 0, &mut buffer).unwrap();
            feed(&mut device, &wrapper(1000, false), packet_size);
            feed(&mut device, &DATA[..IO - packet_size], packet_size);
            feed(&mut device, &DATA[..missing], packet_size);
            // Room for a whole packet is wanted, whatever the packet's length.
            assert_eq!(refused(&mut device, &DATA[..packet_size]), lacks(missing));
            assert_eq!(refused(&mut device, &[]), lacks(missing));
            read_what_is_missing(&mut device, packet_size, missing);
        }
    }
}

#[test]
fn data_behind_a_wrapper_leaves_no_room_for_more() {
    for after_a_status in [false, true] {
        let mut buffer = [0; 64];
        let mut device = Device::new(64, 0, &mut buffer).unwrap();
        if after_a_status {
            feed(&mut device, &wrapper(0, true), 64);
            device.set_status(CommandStatus::Passed, 0).unwrap();
            assert_eq!(poll(&mut device, Endpoints::silent()).sent, 13);
        }
        let mut bytes = [0; 64];
        bytes[..31].copy_from_slice(&wrapper(100, false));
        let poll = poll(&mut device, Endpoints::offering(&bytes));
        assert_eq!((poll.result, poll.taken, poll.sent), (lacks(33), 1, 0));
        assert_eq!(device.state(), Some(State::DataTransferFromHost));
        read_what_is_missing(&mut device, 64, 33);
    }
}

#[test]
fn a_wrapper_in_pieces_wants_a_larger_buffer() {
    let wrapper = wrapper(1000, true);
    let mut buffer = [0; IO];
    let mut device = Device::new(8, 0, &mut buffer[..31]).unwrap();
    feed(&mut device, &wrapper[..24], 8);
    for _ in 0..3 {
        assert_eq!(refused(&mut device, &wrapper[24..]), lacks(1));
    }
    let mut device = Device::new(8, 0, &mut buffer[..32]).unwrap();
    feed(&mut device, &wrapper, 8);
    assert_eq!(device.state(), Some(State::DataTransferToHost));
}

#[test]
fn a_packet_and_30_bytes_are_enough_for_all_pieces_and_no_fewer() {
    let wrapper = wrapper(1000, true);
    for packet_size in PACKET_SIZES {
        let mut buffer = [0; IO];
        for piece in 1..=packet_size {
            let enough = &mut buffer[..packet_size + 30];
            let mut device = Device::new(packet_size as u32, 0, enough).unwrap();
            feed(&mut device, &wrapper, piece);
            assert_eq!(device.state(), Some(State::DataTransferToHost));
        }
        let fewer = &mut buffer[..packet_size + 29];
        let mut device = Device::new(packet_size as u32, 0, fewer).unwrap();
        feed(&mut device, &wrapper[..30], 1);
        assert_eq!(refused(&mut device, &wrapper[30..]), lacks(1));
    }
}

/// All bytes fit, or so many are missing. Tried on a copy of the device.
fn require_fits(device: &Device, count: usize, room: usize) {
    let mut io = device.io().to_vec();
    let mut copy = Device::from_bytes(*device.record(), &mut io);
    let result = copy.try_write_data_all(&DATA[..count]);
    let due = match count.checked_sub(room) {
        None | Some(0) => Ok(()),
        Some(missing) => lacks(missing),
    };
    assert_eq!(result, due, "{count} bytes, room for {room}");
}

#[test]
fn a_source_fits_when_as_many_bytes_are_sent() {
    for packet_size in PACKET_SIZES {
        for unread in [0, 1, packet_size, IO - 1, IO] {
            let mut buffer = [0; IO];
            let mut device = Device::new(packet_size as u32, 0, &mut buffer).unwrap();
            feed(&mut device, &wrapper(1000, true), packet_size);
            device.try_write_data_all(&DATA[..unread]).unwrap();
            for sent in (0..=unread).step_by(packet_size) {
                for count in 0..=DATA.len() {
                    require_fits(&device, count, IO - unread + sent);
                }
                let poll = poll(&mut device, Endpoints::silent());
                let due = match unread - sent >= packet_size {
                    true => (Ok(()), packet_size),
                    false => (Err(Error::FullPacketExpected), 0),
                };
                assert_eq!((poll.result, poll.sent), due);
            }
        }
    }
}

#[test]
fn the_upper_half_of_a_result_is_one_of_two_numbers() {
    for half in [0, 1, 64, u32::MAX] {
        for answer in 0..=13 {
            let word = Word(u64::from(half) << 32 | 0x0100_FF00 | answer);
            let due = if answer == 1 { (0, half) } else { (half, 0) };
            assert_eq!((word.count(), word.missing()), due, "answer {answer}");
        }
    }
}

#[test]
fn the_error_says_the_number() {
    let Err(error) = lacks(33) else {
        unreachable!("it is an error");
    };
    assert_eq!(error.number(), 1);
    let text = "the IO buffer has too little room; bytes missing: 33";
    assert_eq!(error.to_string(), text);
}
