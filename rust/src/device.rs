//! The device: its record of 56 bytes, and the IO buffer that was lent to it.

use crate::answer::{CreateError, Error};
use crate::command::{Command, Offer, ScsiCommand};
use crate::endpoints::{Endpoints, Poll, Stalls};
use crate::ffi;
use crate::state::{CommandStatus, State};

/// Bytes of a device record.
pub const RECORD_LENGTH: usize = 56;

const PACKET_SIZE: usize = 0;
const MAX_LUN: usize = 1;
const STATE: usize = 2;
const READ_MARK: usize = 8;
const WRITE_MARK: usize = 12;
const LEFT: usize = 16;
const PUT_IN: usize = 52;

/// A Bulk-Only device over a lent IO buffer.
#[derive(Debug)]
pub struct Device<'a> {
    record: [u8; RECORD_LENGTH],
    io: &'a mut [u8],
}

/// What a control request did.
#[derive(Clone, Copy, PartialEq, Eq, Debug)]
pub struct Control {
    /// The byte that answers the request; none if it is not answered here.
    pub answer: Option<u8>,
    pub stalls: Stalls,
}

impl<'a> Device<'a> {
    /// A device that waits for a command. The buffer's bytes stay as they are.
    ///
    /// Call it at power-up, and if a record is broken. After a bus reset [`Device::renew`] does the same with the buffer that
    /// the device already has.
    ///
    /// ```
    /// use souklavanh::{CreateError, Device};
    ///
    /// let mut buffer = [0; 512];
    /// assert!(Device::new(64, 0, &mut buffer).is_ok());
    /// assert_eq!(Device::new(24, 0, &mut buffer).unwrap_err(), CreateError::PacketSize);
    /// assert_eq!(Device::new(64, 16, &mut buffer[..63]).unwrap_err(), CreateError::InvalidMaxLun);
    /// ```
    pub fn new(packet_size: u32, max_lun: u8, io: &'a mut [u8]) -> Result<Device<'a>, CreateError> {
        let record = new_record(packet_size, max_lun, io.len())?;
        Ok(Device { record, io })
    }

    /// The bus was reset, or the plug was pulled: makes a new device over the same buffer, with the same packet size and max
    /// LUN. It waits for a command, and nothing of the broken-off command is left. Unstall both endpoints.
    ///
    /// Before this call the firmware empties both endpoints: [the crate's page](crate#a-bus-reset) says why.
    ///
    /// A broken record is refused with [`Error::Broken`], and the device stays as it was. If one number of a record is wrong,
    /// its packet size and max LUN cannot be trusted, and a device that speaks in packets of another size is worse than none.
    /// Call [`Device::new`] then, with numbers from the firmware itself.
    ///
    /// ```
    /// use souklavanh::{CommandStatus, Device, Endpoints, Stalls, State};
    ///
    /// let (mut buffer, mut packet) = ([0; 512], [0; 64]);
    /// let mut device = Device::new(64, 0, &mut buffer).unwrap();
    ///
    /// // The host reads a block of 512 bytes, and the firmware puts it in. One packet goes out.
    /// let mut wrapper = [0; 31];
    /// wrapper[..4].copy_from_slice(b"USBC");
    /// wrapper[9] = 2;
    /// wrapper[12] = 0x80;
    /// wrapper[14..24].copy_from_slice(&[10, 0x28, 0, 0, 0, 0, 0, 0, 0, 1]);
    /// assert_eq!(device.poll(Endpoints::offering(&wrapper), &mut packet).taken, 1);
    /// assert_eq!(device.write_data(&[0x41; 512]), Ok(512));
    /// device.set_status(CommandStatus::Passed, 512).unwrap();
    /// assert_eq!(device.poll(Endpoints::silent(), &mut packet).sent, 64);
    ///
    /// // The plug is pulled. `reset` would leave these bytes in front of every later wrapper.
    /// assert_eq!(device.unread(), 448);
    /// assert_eq!(device.renew(), Ok(Stalls::Unstalled));
    /// assert_eq!(device.unread(), 0);
    ///
    /// // The host reads again.
    /// assert_eq!(device.poll(Endpoints::offering(&wrapper), &mut packet).taken, 1);
    /// assert_eq!(device.state(), Some(State::DataTransferToHost));
    /// ```
    pub fn renew(&mut self) -> Result<Stalls, Error> {
        // This refuses a broken record, and its stalls are those of a new start.
        let stalls = self.reset()?;
        let (packet_size, max_lun) = (self.record[PACKET_SIZE].into(), self.record[MAX_LUN]);
        self.record = new_record(packet_size, max_lun, self.io.len())
            .expect("a record that is not broken keeps the rules of a creation");
        Ok(stalls)
    }

    /// A device from the bytes of its record, as [`Device::record`] shows them, and its buffer as it was then.
    /// Bytes that are no record are not refused here: every later call answers [`Error::Broken`].
    ///
    /// ```
    /// use souklavanh::{Device, Error};
    ///
    /// let mut buffer = [0; 512];
    /// let kept = *Device::new(64, 0, &mut buffer).unwrap().record();
    /// assert!(Device::from_bytes(kept, &mut buffer).reset().is_ok());
    /// assert_eq!(Device::from_bytes(kept, &mut buffer[..511]).reset(), Err(Error::Broken));
    /// ```
    pub fn from_bytes(record: [u8; RECORD_LENGTH], io: &'a mut [u8]) -> Device<'a> {
        Device { record, io }
    }

    pub fn record(&self) -> &[u8; RECORD_LENGTH] {
        &self.record
    }

    pub fn io(&self) -> &[u8] {
        self.io
    }

    /// None if the bytes are no record: a record from [`Device::new`] always has a state.
    pub fn state(&self) -> Option<State> {
        State::from_number(self.record[STATE])
    }

    /// Bytes of the data phase that have not moved yet.
    pub fn left(&self) -> u32 {
        self.number_at(LEFT)
    }

    /// Bytes in the IO buffer that have not been read.
    pub fn unread(&self) -> u32 {
        self.number_at(WRITE_MARK)
            .saturating_sub(self.number_at(READ_MARK))
    }

    /// Bytes that the firmware put in for the present command: what [`Device::write_data`] took, and all of what
    /// [`Device::try_write_data_all`] accepted. It is 0 again with the next wrapper, and whenever a command is awaited. At
    /// `u32::MAX` it stops.
    ///
    /// It tells which call made a read-out too long: the one after which it is above the length that the host declared.
    ///
    /// ```
    /// use souklavanh::{Device, Endpoints};
    ///
    /// let (mut buffer, mut packet) = ([0; 512], [0; 64]);
    /// let mut device = Device::new(64, 0, &mut buffer).unwrap();
    ///
    /// // The host reads 36 bytes.
    /// let mut wrapper = [0; 31];
    /// wrapper[..4].copy_from_slice(b"USBC");
    /// wrapper[8] = 36;
    /// wrapper[12] = 0x80;
    /// wrapper[14..20].copy_from_slice(&[6, 0x12, 0, 0, 0, 36]);
    /// assert_eq!(device.poll(Endpoints::offering(&wrapper), &mut packet).taken, 1);
    /// let declared = device.left();
    ///
    /// // The second call is the one too many.
    /// device.try_write_data_all(&[0x41; 20]).unwrap();
    /// assert!(device.put_in() <= declared);
    /// device.try_write_data_all(&[0x42; 20]).unwrap();
    /// assert!(device.put_in() > declared);
    ///
    /// // All 40 bytes go out, and still count.
    /// assert_eq!(device.poll(Endpoints::silent(), &mut packet).sent, 40);
    /// assert_eq!((device.put_in(), device.unread()), (40, 0));
    /// ```
    pub fn put_in(&self) -> u32 {
        self.number_at(PUT_IN)
    }

    /// Makes one poll. The packet buffer must have room for a packet; the bytes sent are put at its front, and the rest of it
    /// stays.
    ///
    /// With [`Error::IoBufferOverflow`] the IO buffer has no room for a packet, whatever the packet's length, and the packet was
    /// not taken. The error says how many bytes of room are missing.
    ///
    /// - While the host sends data, read at least as many bytes, then poll again. [`Poll::taken`] is 1 if the poll took a
    ///   wrapper first, with data behind it in the same packet.
    /// - While a wrapper is awaited, the buffer is too small by as many bytes for a wrapper in such pieces, and later polls say
    ///   the same. The packet size and 30 bytes are enough for all pieces. If it has these, bytes of a command that was broken
    ///   off are in the way: call [`Device::renew`].
    ///
    /// ```
    /// use souklavanh::{Device, Endpoints, Error};
    ///
    /// let (mut buffer, mut packet) = ([0; 94], [0; 64]);
    /// let mut device = Device::new(64, 0, &mut buffer).unwrap();
    ///
    /// // The host writes 512 bytes. The first packet of them comes; 30 bytes are then free, and 34 missing for another packet.
    /// let mut wrapper = [0; 31];
    /// wrapper[..4].copy_from_slice(b"USBC");
    /// wrapper[9] = 2;
    /// wrapper[14..24].copy_from_slice(&[10, 0x2A, 0, 0, 0, 0, 0, 0, 0, 1]);
    /// assert_eq!(device.poll(Endpoints::offering(&wrapper), &mut packet).taken, 1);
    /// assert_eq!(device.poll(Endpoints::offering(&[0x41; 64]), &mut packet).taken, 1);
    /// let poll = device.poll(Endpoints::offering(&[0x42; 64]), &mut packet);
    /// assert_eq!((poll.taken, poll.sent), (0, 0));
    /// let Err(Error::IoBufferOverflow { missing }) = poll.result else {
    ///     panic!("there is room");
    /// };
    /// assert_eq!(missing, 34);
    ///
    /// // The firmware reads as many, and the packet is taken.
    /// let mut data = [0; 512];
    /// assert_eq!(device.read_data(&mut data[..missing]), Ok(missing));
    /// assert_eq!(device.poll(Endpoints::offering(&[0x42; 64]), &mut packet).taken, 1);
    /// ```
    pub fn poll(&mut self, endpoints: Endpoints, packet: &mut [u8]) -> Poll {
        Poll::from_word(ffi::poll(
            &mut self.record,
            self.io,
            packet,
            endpoints.turn(),
        ))
    }

    /// Ends the command: its status, and how many bytes the firmware dealt with. A later status replaces it.
    pub fn set_status(&mut self, status: CommandStatus, processed: u32) -> Result<(), Error> {
        let answer = ffi::set_status(&mut self.record, self.io, status.number(), processed);
        Error::from_number(answer, 0, 0)
    }

    /// Takes bytes that the host has sent, and returns how many.
    pub fn read_data(&mut self, destination: &mut [u8]) -> Result<usize, Error> {
        counted(ffi::read_data(&mut self.record, self.io, destination))
    }

    /// Puts in bytes for the host, as many as there is room for and as the host still wants, and returns how many.
    pub fn write_data(&mut self, source: &[u8]) -> Result<usize, Error> {
        counted(ffi::write_data(&mut self.record, self.io, source))
    }

    /// Puts in all of these bytes or none, whether the host wants that many or not.
    ///
    /// If they do not fit, [`Error::IoBufferOverflow`] says how many bytes of room are missing. The same call succeeds once
    /// polls have sent at least as many bytes; if a poll answers [`Error::FullPacketExpected`] before that, it has to be given
    /// more first. Without their last `missing` bytes they fit at once.
    ///
    /// ```
    /// use souklavanh::{Device, Endpoints, Error};
    ///
    /// let (mut buffer, mut packet) = ([0; 100], [0; 64]);
    /// let mut device = Device::new(64, 0, &mut buffer).unwrap();
    ///
    /// // The host reads a block of 512 bytes.
    /// let mut wrapper = [0; 31];
    /// wrapper[..4].copy_from_slice(b"USBC");
    /// wrapper[9] = 2;
    /// wrapper[12] = 0x80;
    /// wrapper[14..24].copy_from_slice(&[10, 0x28, 0, 0, 0, 0, 0, 0, 0, 1]);
    /// assert_eq!(device.poll(Endpoints::offering(&wrapper), &mut packet).taken, 1);
    ///
    /// // 80 bytes are put in, and 20 are free. For 60 more, 40 bytes are missing; the next packet that goes out makes room.
    /// device.try_write_data_all(&[0x41; 80]).unwrap();
    /// let lacking = Err(Error::IoBufferOverflow { missing: 40 });
    /// assert_eq!(device.try_write_data_all(&[0x42; 60]), lacking);
    /// assert_eq!(device.poll(Endpoints::silent(), &mut packet).sent, 64);
    /// assert_eq!(device.try_write_data_all(&[0x42; 60]), Ok(()));
    /// ```
    pub fn try_write_data_all(&mut self, source: &[u8]) -> Result<(), Error> {
        counted(ffi::try_write_data_all(&mut self.record, self.io, source)).map(|_| ())
    }

    /// Breaks off the command and waits for the next: no status, nothing left, both endpoints to be unstalled. Unread bytes
    /// stay in the IO buffer, and the next wrapper is read in after them.
    ///
    /// Not for a bus reset, nor for a plug that was pulled: use [`Device::renew`]. After unread bytes, later wrappers are
    /// invalid or taken late, or their polls answer [`Error::IoBufferOverflow`], and no further reset cures that. This call is
    /// the reset of the Rust crate usbd-storage, for those who want exactly that.
    ///
    /// ```
    /// use souklavanh::{Device, Endpoints, State};
    ///
    /// let (mut buffer, mut packet) = ([0; 64], [0; 64]);
    /// let mut device = Device::new(64, 0, &mut buffer).unwrap();
    /// // Half a wrapper came, then the bus was reset.
    /// assert_eq!(device.poll(Endpoints::offering(&[0; 15]), &mut packet).taken, 1);
    /// device.reset().unwrap();
    /// assert_eq!((device.state(), device.unread()), (Some(State::CommandTransfer), 15));
    /// device.renew().unwrap();
    /// assert_eq!((device.state(), device.unread()), (Some(State::CommandTransfer), 0));
    /// ```
    pub fn reset(&mut self) -> Result<Stalls, Error> {
        let word = ffi::reset(&mut self.record, self.io);
        answered(word)?;
        Ok(Stalls::from_number(word.stalls()))
    }

    /// A control request: bmRequestType and bRequest. Only the class's own two do anything: A1h with FEh answers max LUN, A1h
    /// with FFh does the same as [`Device::reset`].
    ///
    /// ```
    /// use souklavanh::{Device, Stalls};
    ///
    /// let mut buffer = [0; 64];
    /// let mut device = Device::new(8, 3, &mut buffer).unwrap();
    /// assert_eq!(device.control(0xA1, 0xFE).unwrap().answer, Some(3));
    /// assert_eq!(device.control(0xA1, 0xFF).unwrap().stalls, Stalls::Unstalled);
    /// ```
    pub fn control(&mut self, request_type: u8, request: u8) -> Result<Control, Error> {
        let word = ffi::control(&mut self.record, self.io, request_type, request);
        answered(word)?;
        Ok(Control {
            answer: (word.flag() != 0).then_some(word.count() as u8),
            stalls: Stalls::from_number(word.stalls()),
        })
    }

    /// The command block, in every state but the one that waits for a command.
    pub fn command(&self) -> Result<Option<Command>, Error> {
        let mut bytes = [0; 16];
        let word = ffi::command(&self.record, self.io, &mut bytes);
        answered(word)?;
        Ok((word.flag() != 0).then(|| Command::new(word.carried(), bytes, word.count() as u8)))
    }

    /// The decoded command, as long as it has no status. READ (16) and WRITE (16) count: this is
    /// [`Device::command_step_told`] with `true`.
    pub fn command_step(&self) -> Result<Option<Offer>, Error> {
        let mut numbers = [0; ffi::COMMAND_NUMBERS];
        let word = ffi::command_step(&self.record, self.io, &mut numbers);
        offered(word, numbers)
    }

    /// The same, but you say whether extended addressing is on. With `false` READ (16) and WRITE (16) are unknown, as they are
    /// in the default build of usbd-storage.
    ///
    /// ```
    /// use souklavanh::{Device, Endpoints, ScsiCommand};
    ///
    /// let (mut buffer, mut packet) = ([0; 512], [0; 64]);
    /// let mut device = Device::new(64, 0, &mut buffer).unwrap();
    ///
    /// // The host reads eight blocks from beyond 2 TiB: READ (16), 4,096 bytes to the host.
    /// let mut wrapper = [0; 31];
    /// wrapper[..4].copy_from_slice(b"USBC");
    /// wrapper[9] = 16;
    /// wrapper[12] = 0x80;
    /// wrapper[14..].copy_from_slice(&[16, 0x88, 0, 0, 0, 0, 1, 0, 0, 0, 0, 0, 0, 0, 8, 0, 0]);
    /// assert_eq!(device.poll(Endpoints::offering(&wrapper), &mut packet).taken, 1);
    ///
    /// let read = ScsiCommand::Read { lba: 1 << 32, len: 8 };
    /// assert_eq!(device.command_step().unwrap().unwrap().command, read);
    /// assert_eq!(device.command_step_told(true).unwrap().unwrap().command, read);
    /// let unknown = ScsiCommand::Unknown { cmd: 0x88 };
    /// assert_eq!(device.command_step_told(false).unwrap().unwrap().command, unknown);
    /// ```
    pub fn command_step_told(&self, extended: bool) -> Result<Option<Offer>, Error> {
        let mut numbers = [0; ffi::COMMAND_NUMBERS];
        let extended = u32::from(extended);
        let word = ffi::command_step_told(&self.record, self.io, extended, &mut numbers);
        offered(word, numbers)
    }

    fn number_at(&self, at: usize) -> u32 {
        let bytes = [0, 1, 2, 3].map(|index| self.record[at + index]);
        u32::from_le_bytes(bytes)
    }
}

/// The record of a device that waits for a command.
fn new_record(
    packet_size: u32,
    max_lun: u8,
    io_length: usize,
) -> Result<[u8; RECORD_LENGTH], CreateError> {
    let mut record = [0; RECORD_LENGTH];
    // A buffer longer than u32 can say is too long in any case.
    let size = u32::try_from(io_length).unwrap_or(u32::MAX);
    CreateError::from_number(ffi::create(&mut record, packet_size, max_lun, size))?;
    Ok(record)
}

/// The answer of a call that no endpoint takes part in.
fn answered(word: ffi::Word) -> Result<(), Error> {
    Error::from_number(word.answer().into(), 0, word.missing())
}

/// What a command step offers.
fn offered(word: ffi::Word, numbers: [u64; ffi::COMMAND_NUMBERS]) -> Result<Option<Offer>, Error> {
    answered(word)?;
    Ok((word.flag() != 0).then(|| Offer {
        lun: word.carried(),
        command: ScsiCommand::from_numbers(numbers),
    }))
}

fn counted(word: ffi::Word) -> Result<usize, Error> {
    answered(word)?;
    Ok(word.count() as usize)
}
