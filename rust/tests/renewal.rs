//! A bus reset breaks off a command. After `renew` the next command gets its own data and its own status; after `reset`, which
//! keeps unread bytes, it gets neither.

use souklavanh::{
    CommandStatus, Device, Endpoints, Error, In, Out, Poll, RECORD_LENGTH, ScsiCommand, Stalls,
    State,
};

const BLOCK: usize = 512;
const LARGEST_PACKET: usize = 64;
const NAME: &[u8; 36] = b"\x00\x80\x05\x02\x1F\0\0\0SOUKLAVNBATTERY FAULTS  1.00";
const INQUIRY: &[u8] = &[0x12, 0, 0, 0, 36, 0];
const READ: &[u8] = &[0x28, 0, 0, 0, 0, 0, 0, 0, 1, 0];
const WRITE: &[u8] = &[0x2A, 0, 0, 0, 0, 0, 0, 0, 1, 0];

fn list() -> [u8; BLOCK] {
    std::array::from_fn(|at| (at * 7 + at / 256) as u8)
}

fn wrapper(tag: u32, length: usize, to_host: bool, block: &[u8]) -> [u8; 31] {
    let mut bytes = [0; 31];
    bytes[..4].copy_from_slice(b"USBC");
    bytes[4..8].copy_from_slice(&tag.to_le_bytes());
    bytes[8..12].copy_from_slice(&(length as u32).to_le_bytes());
    bytes[12] = if to_host { 0x80 } else { 0 };
    bytes[14] = block.len() as u8;
    bytes[15..15 + block.len()].copy_from_slice(block);
    bytes
}

fn inquiry(tag: u32) -> [u8; 31] {
    wrapper(tag, NAME.len(), true, INQUIRY)
}

fn read(tag: u32) -> [u8; 31] {
    wrapper(tag, BLOCK, true, READ)
}

/// The inquiry's data, and the status with its tag.
fn answer_to_inquiry(tag: u32) -> Vec<u8> {
    let mut bytes = NAME.to_vec();
    bytes.extend(b"USBS");
    bytes.extend(tag.to_le_bytes());
    bytes.extend([0; 5]);
    bytes
}

/// A device with its firmware, the polls since its start, and what they sent.
struct Recorder<'a> {
    device: Device<'a>,
    packet_size: usize,
    put_in: usize,
    polls: Vec<Poll>,
    sent: Vec<u8>,
}

impl<'a> Recorder<'a> {
    fn new(packet_size: usize, max_lun: u8, buffer: &'a mut [u8]) -> Recorder<'a> {
        Recorder {
            device: Device::new(packet_size as u32, max_lun, buffer).unwrap(),
            packet_size,
            put_in: 0,
            polls: Vec::new(),
            sent: Vec::new(),
        }
    }

    /// Puts in as much data as fits, and sets the status when the last byte is in.
    fn serve(&mut self) {
        let device = &mut self.device;
        // After an invalid wrapper an old command is shown.
        if device.state() != Some(State::DataTransferToHost) {
            return;
        }
        let Some(offer) = device.command_step().unwrap() else {
            return;
        };
        let data = match offer.command {
            ScsiCommand::Inquiry { .. } => NAME.to_vec(),
            ScsiCommand::Read { .. } => list().to_vec(),
            other => panic!("the host did not send {other:?}"),
        };
        self.put_in += device.write_data(&data[self.put_in..]).unwrap();
        if self.put_in == data.len() {
            let figure = data.len() as u32;
            device.set_status(CommandStatus::Passed, figure).unwrap();
            self.put_in = 0;
        }
    }

    fn turn(&mut self, endpoints: Endpoints) {
        let mut packet = [0; LARGEST_PACKET];
        self.serve();
        let poll = self.device.poll(endpoints, &mut packet);
        self.sent.extend(&packet[..poll.sent]);
        self.polls.push(poll);
    }

    fn offer(&mut self, message: &[u8]) {
        for packet in message.chunks(self.packet_size) {
            self.turn(Endpoints::offering(packet));
        }
    }

    /// The host fetches this many packets of a read, and then no more.
    fn break_off(&mut self, tag: u32, packets: usize) {
        let busy = Endpoints {
            out: [Out::Busy, Out::Busy],
            r#in: In::Busy,
        };
        self.offer(&read(tag));
        for _ in 0..packets {
            self.turn(Endpoints::silent());
        }
        self.turn(busy);
    }

    fn start_anew(&mut self, by: StartAnew) {
        assert_eq!(by(&mut self.device), Ok(Stalls::Unstalled));
        self.put_in = 0;
        self.polls.clear();
        self.sent.clear();
    }

    /// The host asks for the name, and waits for it and for the status.
    fn inquire(&mut self, tag: u32) {
        self.offer(&inquiry(tag));
        for _ in 0..16 {
            self.turn(Endpoints::silent());
        }
    }
}

type StartAnew = fn(&mut Device) -> Result<Stalls, Error>;
const RENEW: StartAnew = |device| device.renew();
const RESET: StartAnew = |device| device.reset();

/// The host fetches two packets of a read and resets the bus, then asks for the name. Returns the poll that was offered this
/// command, and what was sent after the reset.
fn story(buffer: &mut [u8], start_anew: StartAnew) -> (Poll, Vec<u8>) {
    let mut recorder = Recorder::new(64, 0, buffer);
    recorder.break_off(1, 2);
    assert_eq!(recorder.sent, list()[..128]);
    assert!(recorder.device.unread() > 0);
    recorder.start_anew(start_anew);
    recorder.inquire(2);
    (recorder.polls[0], recorder.sent)
}

#[test]
fn behind_renew_the_next_command_gets_its_own_data_and_status() {
    for size in [64, 94, 512, 65_536] {
        let (poll, sent) = story(&mut vec![0; size], RENEW);
        assert_eq!((poll.taken, poll.stalls), (1, Stalls::Kept));
        assert_eq!(sent, answer_to_inquiry(2), "buffer {size}");
    }
}

#[test]
fn behind_reset_the_next_wrapper_is_invalid() {
    let (poll, sent) = story(&mut [0; 512], RESET);
    assert_eq!((poll.taken, poll.stalls), (1, Stalls::Stalled));
    assert_eq!(sent, []);
}

#[test]
fn behind_reset_a_full_buffer_takes_no_wrapper() {
    // The firmware had put in all that fits, so that no byte is free.
    for size in [64, 94] {
        let (poll, sent) = story(&mut vec![0; size], RESET);
        let full = Err(Error::IoBufferOverflow { missing: 64 });
        assert_eq!(poll.result, full, "buffer {size}");
        assert_eq!((poll.taken, sent), (0, vec![]));
    }
}

#[test]
fn no_further_reset_brings_the_disk_back_and_renew_does() {
    for size in [64, 512] {
        let mut buffer = vec![0; size];
        let mut recorder = Recorder::new(64, 0, &mut buffer);
        recorder.break_off(1, 2);
        for tag in 2..20 {
            recorder.start_anew(RESET);
            recorder.inquire(tag);
            assert_eq!(recorder.sent, [], "buffer {size}, tag {tag}");
        }
        recorder.start_anew(RENEW);
        recorder.inquire(20);
        assert_eq!(recorder.sent, answer_to_inquiry(20), "buffer {size}");
    }
}

/// The record is that of a new device, the buffer's bytes stay, and the next command is answered.
fn require_renewed(mut recorder: Recorder, max_lun: u8) {
    let before = recorder.device.io().to_vec();
    recorder.start_anew(RENEW);
    assert_eq!(recorder.device.io(), before);
    let mut other = before;
    let new = Device::new(recorder.packet_size as u32, max_lun, &mut other).unwrap();
    assert_eq!(recorder.device.record(), new.record());
    recorder.inquire(9);
    assert_eq!(recorder.sent, answer_to_inquiry(9));
}

#[test]
fn renew_is_a_new_device_at_every_moment_of_a_read() {
    for packet_size in [8, 16, 32, 64] {
        for (max_lun, size) in [(0, packet_size + 30), (3, 512), (15, 700)] {
            for packets in 0..BLOCK / packet_size + 4 {
                let mut buffer = vec![0x5A; size];
                let mut recorder = Recorder::new(packet_size, max_lun, &mut buffer);
                recorder.break_off(1, packets);
                require_renewed(recorder, max_lun);
            }
        }
    }
}

#[test]
fn renew_is_a_new_device_within_a_write_and_behind_what_is_no_wrapper() {
    let write = wrapper(1, BLOCK, false, WRITE);
    let cases: [(&[&[u8]], State); 4] = [
        (&[&write[..15]], State::CommandTransfer),
        (&[&[0; 31]], State::CommandTransferInvalid),
        (&[&write], State::DataTransferFromHost),
        (&[&write, &[0x41; 64]], State::DataTransferFromHost),
    ];
    for (messages, state) in cases {
        let mut buffer = [0; 94];
        let mut recorder = Recorder::new(64, 7, &mut buffer);
        for message in messages {
            recorder.offer(message);
        }
        assert_eq!(recorder.device.state(), Some(state));
        require_renewed(recorder, 7);
    }
}

#[test]
fn a_broken_record_is_not_renewed() {
    let mut buffer = [0x5A; 512];
    let good = *Device::new(64, 3, &mut buffer).unwrap().record();
    // Packet size, max LUN, state, whether a status is present, a byte of the buffer's length, a byte of the write mark.
    for (at, value) in [(0, 24), (1, 16), (2, 9), (3, 2), (4, 1), (13, 3)] {
        let mut record = good;
        record[at] = value;
        let mut device = Device::from_bytes(record, &mut buffer);
        assert_eq!(device.renew(), Err(Error::Broken), "byte {at}");
        assert_eq!(device.record(), &record, "byte {at}");
    }
    let mut device = Device::from_bytes([0xFF; RECORD_LENGTH], &mut buffer);
    assert_eq!(device.renew(), Err(Error::Broken));
    device = Device::from_bytes(good, &mut buffer[..511]);
    assert_eq!(device.renew(), Err(Error::Broken));
    assert_eq!(buffer, [0x5A; 512]);
    // What helps then.
    device = Device::new(64, 3, &mut buffer).unwrap();
    assert_eq!(device.renew(), Ok(Stalls::Unstalled));
    assert_eq!(device.record(), &good);
}
