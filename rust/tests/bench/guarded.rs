//! Events as raw calls on guarded memory. After each call everything that it promises is tested.

use super::layout::{self, number};
use super::lent::Lent;
use super::outcome::Outcome;
use super::wrapped::letters;
use super::{Checked, require, tellings};
use crate::benchfile::{Event, InAnswer, Offers, OutAnswer};
use souklavanh::Stalls;
use souklavanh::ffi::{self, COMMAND_NUMBERS, Turn, Word};

pub struct Guarded {
    pub record: Lent,
    pub io: Lent,
    packet_size: u8,
    max_lun: u8,
    /// What the record and the IO buffer were before the call.
    record_before: Vec<u8>,
    io_before: Vec<u8>,
    /// What the packet buffer and the destination hold before a call; another value each time.
    fill: u8,
    /// Calls so far, for packet buffers that are longer than needed.
    calls: usize,
}

/// What a command step showed, and the lent numbers after it.
#[derive(PartialEq)]
struct Stepped {
    outcome: Outcome,
    numbers: Vec<u64>,
}

/// The creation's answer, and the device if the answer is 0.
pub fn create(packet_size: u16, max_lun: u8, buffer: u32) -> Checked<(u8, Option<Guarded>)> {
    // No byte of a new record has this value.
    let fill = 0xEE;
    let mut record = Lent::filled(layout::RECORD, fill);
    let answer = ffi::create(record.all_mut(), u32::from(packet_size), max_lun, buffer);
    require(record.guards_stand(), "bytes around the record changed")?;
    let answer = u8::try_from(answer).map_err(|_| format!("the creation's answer is {answer}"))?;
    if answer != 0 {
        require(
            record.untouched_from(0),
            "a refused creation changed the record",
        )?;
        return Ok((answer, None));
    }
    require(
        buffer <= 65_536 && packet_size <= 64,
        "a device was created that is larger than any can be",
    )?;
    let device = Guarded {
        record_before: record.all().to_vec(),
        record,
        io: Lent::copy_of(&vec![0; buffer as usize], fill),
        packet_size: packet_size as u8,
        max_lun,
        io_before: vec![0; buffer as usize],
        fill,
        calls: 0,
    };
    device.require_kept_fields()?;
    Ok((0, Some(device)))
}

pub fn is_refusal(answer: u8) -> bool {
    matches!(answer, 3 | 10 | 11 | 12)
}

impl Guarded {
    pub fn packet_size(&self) -> usize {
        usize::from(self.packet_size)
    }

    pub fn fill(&self) -> u8 {
        self.fill
    }

    pub fn apply(&mut self, event: &Event) -> Checked<Outcome> {
        // All values in turn; a value and the next one are never neighbouring numbers.
        self.fill = self.fill.wrapping_add(89);
        self.calls += 1;
        let status_before = layout::status_bytes(self.record.all()).to_vec();
        let outcome = match event {
            Event::Create { .. } => unreachable!("the file's rules let no second creation through"),
            Event::Poll(offers) => self.poll(offers),
            Event::Status { status, figure } => self.set_status(*status, *figure),
            Event::WriteData(source) => self.write(ffi::write_data, source),
            Event::TryWriteDataAll(source) => self.write(ffi::try_write_data_all, source),
            Event::ReadData { room } => self.read_data(usize::from(*room)),
            Event::Reset => self.reset(),
            Event::Control {
                bm_request_type,
                request,
            } => self.control(*bm_request_type, *request),
            Event::Command { .. } => self.command_step(),
        }?;
        require(
            matches!(event, Event::Status { .. })
                || layout::status_bytes(self.record.all()) == status_before,
            "residue or status byte changed without a new status",
        )?;
        self.require_shown()?;
        Ok(outcome)
    }

    fn poll(&mut self, offers: &Offers) -> Checked<Outcome> {
        let [(first, one), (second, two)] = offers.out.each_ref().map(out_parts);
        let (one_lent, two_lent) = (Lent::copy_of(one, self.fill), Lent::copy_of(two, self.fill));
        let mut packet = Lent::filled(self.packet_size() + self.calls % 4, self.fill);
        let word = ffi::poll(
            self.record.all_mut(),
            self.io.all_mut(),
            packet.all_mut(),
            Turn {
                one: one_lent.all(),
                two: two_lent.all(),
                first,
                second,
                write: in_number(offers.in_answer),
            },
        );
        let sent = word.count() as usize;
        require(
            sent <= self.packet_size(),
            "more bytes were sent than a packet has",
        )?;
        require(
            packet.untouched_from(sent),
            "the packet buffer changed behind the bytes sent",
        )?;
        require(
            is_kept(&one_lent, one) && is_kept(&two_lent, two),
            "an offered packet changed",
        )?;
        require(
            if word.answer() == 7 {
                word.carried() > 1
            } else {
                word.carried() == 0
            },
            "an endpoint's error without its number, or a number without the error",
        )?;
        require(
            !is_refusal(word.answer()) || word.0 == u64::from(word.answer()),
            "a refused poll did something",
        )?;
        // All is written before the write mark. If data follows a wrapper's last packet in the same poll, the mark may
        // have gone back in between, from the end of that packet.
        let first_end = number(&self.record_before, layout::WRITE) as usize + one.len();
        self.require_owed(word.answer(), first_end.max(self.write_mark()))?;
        Ok(Outcome {
            answer: word.answer(),
            carried: (word.answer() == 7).then_some(word.carried()),
            count: usize::from(word.flag()),
            stalls: stalls(word)?,
            bytes: packet.all()[..sent].to_vec(),
            missing: self.missing(word, self.packet_size())?,
            command: None,
        })
    }

    fn set_status(&mut self, status: u8, figure: u32) -> Checked<Outcome> {
        let answer = ffi::set_status(self.record.all_mut(), self.io.all(), status, figure);
        let answer = u8::try_from(answer).map_err(|_| format!("a status' answer is {answer}"))?;
        self.require_owed(answer, 0)?;
        Ok(Outcome::answered(answer))
    }

    fn write(
        &mut self,
        call: fn(&mut [u8], &mut [u8], &[u8]) -> Word,
        source: &[u8],
    ) -> Checked<Outcome> {
        let lent = Lent::copy_of(source, self.fill);
        let word = call(self.record.all_mut(), self.io.all_mut(), lent.all());
        require(is_kept(&lent, source), "a source changed")?;
        self.require_owed(word.answer(), self.write_mark())?;
        Ok(Outcome {
            missing: self.missing(word, source.len())?,
            ..counted(word)?
        })
    }

    fn read_data(&mut self, room: usize) -> Checked<Outcome> {
        let mut destination = Lent::filled(room, self.fill);
        let word = ffi::read_data(self.record.all_mut(), self.io.all(), destination.all_mut());
        let count = word.count() as usize;
        require(count <= room, "more bytes were read than there is room for")?;
        require(
            destination.untouched_from(count),
            "the destination changed behind the bytes read",
        )?;
        self.require_owed(word.answer(), 0)?;
        Ok(Outcome {
            bytes: destination.all()[..count].to_vec(),
            ..counted(word)?
        })
    }

    fn reset(&mut self) -> Checked<Outcome> {
        let word = ffi::reset(self.record.all_mut(), self.io.all());
        self.require_owed(word.answer(), 0)?;
        require(
            only(word, 0x00FF_00FF),
            "a reset's result tells more than answer and stalls",
        )?;
        Ok(Outcome {
            stalls: stalls(word)?,
            ..Outcome::answered(word.answer())
        })
    }

    fn control(&mut self, bm_request_type: u8, request: u8) -> Checked<Outcome> {
        let word = ffi::control(
            self.record.all_mut(),
            self.io.all(),
            bm_request_type,
            request,
        );
        self.require_owed(word.answer(), 0)?;
        require(
            only(word, 0x0000_00FF_01FF_00FF) && (word.flag() == 1 || word.count() == 0),
            "a control request's result tells something that it has not",
        )?;
        Ok(Outcome {
            stalls: stalls(word)?,
            bytes: vec![word.count() as u8; usize::from(word.flag())],
            ..Outcome::answered(word.answer())
        })
    }

    /// Offer and decode, told off and on and by the plain call. Only the command may depend on it, and that is no part of this
    /// outcome.
    fn command_step(&mut self) -> Checked<Outcome> {
        let off =
            self.step_by(|record, io, numbers| ffi::command_step_told(record, io, 0, numbers))?;
        let on =
            self.step_by(|record, io, numbers| ffi::command_step_told(record, io, 1, numbers))?;
        require(
            self.step_by(ffi::command_step)? == on,
            "the plain command step is another than the one with extended addressing on",
        )?;
        require(
            off.outcome == on.outcome,
            "more than the command depends on extended addressing",
        )?;
        let depends =
            !off.outcome.bytes.is_empty() && tellings::depends(layout::block(self.record.all()));
        require(
            (off.numbers != on.numbers) == depends,
            "extended addressing counts for another block than 88 and 8A with 14 bytes",
        )?;
        Ok(on.outcome)
    }

    /// One of the calls. What is offered is what the record has: the LUN, and as many bytes of the block as it says.
    fn step_by(&mut self, call: fn(&[u8], &[u8], &mut [u64]) -> Word) -> Checked<Stepped> {
        let value = u64::from_ne_bytes([self.fill; 8]);
        let mut numbers = Lent::filled(COMMAND_NUMBERS, value);
        let word = call(self.record.all(), self.io.all(), numbers.all_mut());
        let offered = word.flag() == 1;
        require(
            numbers.untouched_from(if offered { COMMAND_NUMBERS } else { 0 }),
            "a command step changed something other than the command that it offers",
        )?;
        require(
            only(word, 0x01_00_FF_FF) && (offered || word.carried() == 0),
            "a command step's result tells something that it has not",
        )?;
        self.require_same_record("a command step changed the record")?;
        self.require_owed(word.answer(), 0)?;
        let mut outcome = Outcome::answered(word.answer());
        if offered {
            let record = self.record.all();
            require(
                word.answer() == 0 && word.carried() == record[layout::LUN],
                "another LUN is offered than the record has",
            )?;
            require_command(numbers.all())?;
            outcome.bytes.push(word.carried());
            outcome.bytes.extend(layout::block(record));
        }
        Ok(Stepped {
            outcome,
            numbers: numbers.all().to_vec(),
        })
    }

    /// A command is shown in every state but 0. The bench file has no event for this, so it is tested after every
    /// event.
    fn require_shown(&self) -> Checked {
        let record = self.record.all();
        let mut block = Lent::filled(layout::BLOCK_BYTES, self.fill);
        let word = ffi::command(record, self.io.all(), block.all_mut());
        self.require_same_record("showing the command changed the record")?;
        if record[layout::STATE] == 0 {
            return require(
                word.0 == 0 && block.untouched_from(0),
                "a command is shown in state 0",
            );
        }
        require(
            only(word, 0x0000_00FF_0100_FF00)
                && word.flag() == 1
                && word.carried() == record[layout::LUN]
                && word.count() == u32::from(record[layout::BLOCK_LENGTH])
                && block.guards_stand()
                && block.all() == &record[layout::BLOCK..][..layout::BLOCK_BYTES],
            "the command that is shown is not the record's",
        )
    }

    /// Tests record and IO buffer, and the bytes around them. The call may have written the first `written` bytes of the
    /// IO buffer.
    fn require_owed(&mut self, answer: u8, written: usize) -> Checked {
        if is_refusal(answer) {
            self.require_same_record("a refusal changed the record")?;
        }
        self.require_kept_fields()?;
        let io = self.io.all();
        let from = if is_refusal(answer) {
            0
        } else {
            written.min(io.len())
        };
        require(self.io.guards_stand(), "bytes around the IO buffer changed")?;
        require(
            io[from..] == self.io_before[from..],
            "the IO buffer changed where nothing was written",
        )?;
        self.io_before[..from].copy_from_slice(&io[..from]);
        self.record_before.copy_from_slice(self.record.all());
        Ok(())
    }

    fn require_same_record(&self, otherwise: &str) -> Checked {
        require(self.record.all() == self.record_before, otherwise)
    }

    fn require_kept_fields(&self) -> Checked {
        let record = self.record.all();
        let io_length = self.io.all().len();
        require(
            self.record.guards_stand(),
            "bytes around the record changed",
        )?;
        require(
            record[layout::PACKET] == self.packet_size
                && record[layout::MAX_LUN] == self.max_lun
                && number(record, layout::LENGTH) as usize == io_length,
            "packet size, buffer length or max LUN in the record changed",
        )?;
        require(
            number(record, layout::READ) <= number(record, layout::WRITE)
                && self.write_mark() <= io_length,
            "the marks are out of order",
        )
    }

    fn write_mark(&self) -> usize {
        number(self.record.all(), layout::WRITE) as usize
    }

    /// The room that a call lacks which wants it for so many bytes: what is wanted less what is free, with answer 1 alone.
    fn missing(&self, word: Word, wanted: usize) -> Checked<usize> {
        let unread = self.write_mark() - number(self.record.all(), layout::READ) as usize;
        let due = match word.answer() {
            1 => wanted.saturating_sub(self.io.all().len() - unread),
            _ => 0,
        };
        let missing = word.missing() as usize;
        require(
            missing == due && (due > 0) == (word.answer() == 1),
            &format!("{missing} bytes of room are missing, and {due} are due"),
        )?;
        Ok(missing)
    }
}

fn is_kept(lent: &Lent, bytes: &[u8]) -> bool {
    lent.all() == bytes && lent.guards_stand()
}

/// The kind is the number of a command, and the numbers after its fields are 0.
fn require_command(numbers: &[u64]) -> Checked {
    // By kind, from Unknown to ReadFormatCapacities.
    const FIELDS: [usize; 11] = [1, 3, 0, 2, 5, 5, 0, 1, 2, 2, 1];
    let fields = usize::try_from(numbers[0])
        .ok()
        .and_then(|kind| FIELDS.get(kind))
        .ok_or(format!("there is no command {}", numbers[0]))?;
    require(
        numbers[1 + fields..].iter().all(|number| *number == 0),
        "a number behind a command's fields is not 0",
    )
}

/// Whether all bits outside the mask are 0.
fn only(word: Word, mask: u64) -> bool {
    word.0 & !mask == 0
}

fn counted(word: Word) -> Checked<Outcome> {
    require(
        only(word, 0xFFFF_FFFF_0000_00FF) && (word.answer() == 0 || word.count() == 0),
        "a result tells something that it has not",
    )?;
    Ok(Outcome {
        count: word.count() as usize,
        ..Outcome::answered(word.answer())
    })
}

fn stalls(word: Word) -> Checked<&'static str> {
    Ok(letters(match word.stalls() {
        0 => Stalls::Kept,
        1 => Stalls::Stalled,
        2 => Stalls::Unstalled,
        3 => Stalls::UnstalledStalled,
        number => return Err(format!("there are no stalls {number}")),
    }))
}

/// The answer's number and the packet lent with it. An endpoint that does not do its part hands over nothing, whatever is lent.
fn out_parts(out: &OutAnswer) -> (u8, &[u8]) {
    match out {
        OutAnswer::Packet(packet) => (0, packet),
        OutAnswer::Busy => (1, b"busy"),
        OutAnswer::Error(number) => (*number, b"failing"),
    }
}

fn in_number(answer: InAnswer) -> u8 {
    match answer {
        InAnswer::Accepts => 0,
        InAnswer::Busy => 1,
        InAnswer::Error(number) => number,
    }
}
