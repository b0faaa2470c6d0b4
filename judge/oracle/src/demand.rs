//! The mission's third demand, read from runs: from a bench file and the lines that a program printed for it. No device
//! runs here, and neither the Rust nor the formal statement is used.
//!
//! "Take a valid wrapper of exactly 31 bytes with nothing unread before it, declaring L bytes. No reset follows, the
//! firmware puts in at most L bytes, and only these calls alter record or buffer. When its status is accepted with R data
//! bytes left, the last status byte goes out after exactly R/P plus 13/P served polls, each quotient rounded up, P being
//! the packet size and the host sending what is left in full packets, the last perhaps short. Unserved polls don't alter
//! this. From wrapper to that byte the host gets, for a read, the firmware's bytes and then 0xFF up to L, otherwise no
//! data; then one status with that tag and the residue of the last accepted status."
//!
//! A story is a wrapper with a status that is accepted for it, and what follows. It is read up to the served poll that
//! completes the number, or to the first event before it that breaks a premise, or to the end of the file. It is judged
//! after each event, because what has happened up to then is a story too. In every bench file it is true that only these
//! calls alter record or buffer.
//!
//! What the words take for granted is judged too: what is left is L less the data that moved, a poll sends at most one
//! packet, an unserved poll moves nothing, and a poll whose endpoints all do their part is served.

use crate::benchfile::{Event, InAnswer, Offers, OutAnswer};
use crate::lines::hex_or_dash;
use crate::printed::{Printed, Step};
use std::fmt;
use std::ops::Range;

const WRAPPER: usize = 31;
const STATUS: usize = 13;
const FILLER: u8 = 0xFF;
/// The states in which a status is accepted; while one of them lasts, it is the same command's.
const TAKES_STATUS: [u8; 4] = [2, 4, 5, 7];
/// "A served poll is one not refused with 10 or 11 in which each endpoint asked does its part": 6 is a busy endpoint, 7 one
/// that fails.
const UNSERVED: [u8; 4] = [6, 7, 10, 11];

/// The premises of a story. A valid wrapper is not among them: after any other no status is accepted.
#[derive(Clone, Copy, PartialEq, Eq, Debug)]
pub enum Premise {
    /// The message is taken for a wrapper: in state 0, or in 3, from which a poll goes on to 0.
    Waits,
    /// "with nothing unread before it"
    NothingUnread,
    /// "of exactly 31 bytes"
    Exactly31,
    /// "its status": until then no reset follows, and no other command.
    SameCommand,
    /// "No reset follows", after the status
    NoReset,
    /// "the last accepted status"
    LastStatus,
    /// "the host sending what is left in full packets, the last perhaps short"
    FullPackets,
    /// "the firmware puts in at most L bytes"
    AtMostL,
}

#[derive(Clone, Copy, PartialEq, Eq)]
pub enum Direction {
    ToHost,
    FromHost,
    NoData,
}

/// A valid wrapper, and the events of its first and its last packet.
#[derive(Clone)]
pub struct Message {
    pub first: usize,
    pub last: usize,
    /// Packets that brought it; empty packets bring nothing.
    pub packets: usize,
    /// A reset came between them. It keeps the bytes that came before it, so the wrapper is whole.
    pub reset: bool,
    bytes: Vec<u8>,
}

/// Why the reading of a story stops.
#[derive(Clone, Copy, PartialEq, Eq, Debug)]
pub enum End {
    Exactly,
    Reset,
    NewStatus,
    PacketNotFull,
    AboveL,
    EndOfFile,
}

#[derive(Clone)]
pub struct Story {
    pub packet_size: usize,
    pub message: Message,
    /// The state that the wrapper's first packet found.
    pub start: u8,
    /// The event of the last accepted status.
    pub status: usize,
    /// R
    pub left: u32,
    /// Served polls that are due after the status.
    pub number: usize,
    pub served: usize,
    pub unserved: usize,
    /// A status was accepted before the last one.
    pub replaced: bool,
    /// Bytes that the firmware put in, and how many of them after the status.
    pub put: usize,
    pub put_behind: usize,
    /// The last event that belongs to it.
    pub last: usize,
    pub end: End,
}

/// A story that meets the premises but not the conclusion.
pub struct False {
    pub story: Story,
    pub what: String,
    pub due: String,
    pub seen: String,
}

/// What was found in a run.
#[derive(Default)]
pub struct Reading {
    pub events: usize,
    pub stories: Vec<Story>,
    /// All statuses that were accepted, and those that belong to no story because more than L bytes were put in.
    pub accepted: usize,
    pub above: usize,
}

/// Every story of the run, or the first story that is false.
pub fn read(run: &Printed) -> Result<Reading, Box<False>> {
    Reader { without: None }.read(run)
}

/// The same without one of the premises.
pub fn read_without(premise: Premise, run: &Printed) -> Result<Reading, Box<False>> {
    let without = Some(premise);
    Reader { without }.read(run)
}

struct Reader {
    without: Option<Premise>,
}

impl Reader {
    fn read(&self, run: &Printed) -> Result<Reading, Box<False>> {
        let mut reading = Reading {
            events: run.steps.len(),
            accepted: run.steps.iter().filter_map(accepted).count(),
            ..Reading::default()
        };
        for first in 1..run.steps.len() {
            if let Some(message) = self.message(run, first) {
                self.stories(run, &message, &mut reading)?;
            }
        }
        Ok(reading)
    }

    fn breaks(&self, premise: Premise, holds: bool) -> bool {
        !holds && self.without != Some(premise)
    }

    /// The wrapper whose first byte comes with this event.
    fn message(&self, run: &Printed, first: usize) -> Option<Message> {
        let before = &run.steps[first - 1].line;
        if self.breaks(Premise::Waits, matches!(before.state, 0 | 3))
            || self.breaks(Premise::NothingUnread, before.unread == 0)
            || first_packet(&run.steps[first]).is_empty()
        {
            return None;
        }
        let mut bytes = Vec::new();
        let mut packets = 0;
        let mut last = first;
        while bytes.len() < WRAPPER {
            let packet = first_packet(run.steps.get(last)?);
            packets += usize::from(!packet.is_empty());
            bytes.extend(packet);
            last += 1;
        }
        if self.breaks(Premise::Exactly31, bytes.len() == WRAPPER) {
            return None;
        }
        let message = Message {
            first,
            last: last - 1,
            packets,
            reset: run.steps[first..last]
                .iter()
                .any(|step| resets(&step.event)),
            bytes,
        };
        message.is_valid().then_some(message)
    }

    /// A story for each status that is accepted for this wrapper.
    fn stories(
        &self,
        run: &Printed,
        message: &Message,
        reading: &mut Reading,
    ) -> Result<(), Box<False>> {
        let mut account = Account::up_to_wrapper(run, message);
        let mut replaced = false;
        for (at, step) in run.steps.iter().enumerate().skip(message.last + 1) {
            if self.breaks(Premise::SameCommand, !resets(&step.event)) {
                break;
            }
            account.add(step);
            if let Some((status, figure)) = accepted(step) {
                if self.breaks(Premise::AtMostL, account.put.len() <= message.length()) {
                    reading.above += 1;
                } else {
                    let telling = Telling::new(run, account.clone(), at, status, figure, replaced);
                    reading.stories.push(self.tell(telling)?);
                }
                replaced = true;
            }
            let same = TAKES_STATUS.contains(&step.line.state);
            if self.breaks(Premise::SameCommand, same) {
                break;
            }
        }
        Ok(())
    }

    /// The story from its status on.
    fn tell(&self, mut telling: Telling) -> Result<Story, Box<False>> {
        telling.judge(0)?;
        let run = telling.run;
        for (at, step) in run.steps.iter().enumerate().skip(telling.story.status + 1) {
            if let Some(end) = self.cut(&telling, step) {
                telling.story.end = end;
                return Ok(telling.story);
            }
            telling.add(at, step)?;
            if telling.is_full() {
                telling.story.end = End::Exactly;
                return Ok(telling.story);
            }
        }
        Ok(telling.story)
    }

    /// Whether the event breaks a premise, and therefore belongs to no story of this status.
    fn cut(&self, telling: &Telling, step: &Step) -> Option<End> {
        let put = telling.account.put.len() + step.put().len();
        let few = put <= telling.story.message.length();
        if self.breaks(Premise::NoReset, !resets(&step.event)) {
            Some(End::Reset)
        } else if self.breaks(Premise::LastStatus, accepted(step).is_none()) {
            Some(End::NewStatus)
        } else if self.breaks(Premise::FullPackets, telling.full_packets(step)) {
            Some(End::PacketNotFull)
        } else if self.breaks(Premise::AtMostL, few) {
            Some(End::AboveL)
        } else {
            None
        }
    }
}

impl Message {
    fn is_valid(&self) -> bool {
        self.bytes.starts_with(b"USBC") && (1..=16).contains(&self.bytes[14])
    }

    fn tag(&self) -> [u8; 4] {
        four(&self.bytes[4..8])
    }

    /// L
    pub fn length(&self) -> usize {
        u32::from_le_bytes(four(&self.bytes[8..12])) as usize
    }

    pub fn direction(&self) -> Direction {
        match (self.length(), self.bytes[12] & 0x80) {
            (0, _) => Direction::NoData,
            (_, 0) => Direction::FromHost,
            _ => Direction::ToHost,
        }
    }
}

/// Since the wrapper's first packet: what the host got, what the firmware put in, and how much data came.
#[derive(Clone)]
struct Account<'a> {
    message: &'a Message,
    sent: Vec<u8>,
    put: Vec<u8>,
    came: usize,
    /// The most bytes that one poll sent.
    longest: usize,
}

impl<'a> Account<'a> {
    fn up_to_wrapper(run: &Printed, message: &'a Message) -> Account<'a> {
        let mut account = Account {
            message,
            sent: Vec::new(),
            put: Vec::new(),
            came: 0,
            longest: 0,
        };
        for step in &run.steps[message.first..=message.last] {
            account.add(step);
        }
        // The wrapper's own packets are not data; a packet after them in the same poll is.
        account.came = run.steps[message.last]
            .taken()
            .skip(1)
            .map(<[u8]>::len)
            .sum();
        account
    }

    fn add(&mut self, step: &Step) {
        self.sent.extend(step.sent());
        self.put.extend(step.put());
        self.came += step.taken().map(<[u8]>::len).sum::<usize>();
        self.longest = self.longest.max(step.sent().len());
    }

    /// Data bytes that are left: L less those that moved, never below 0.
    fn left(&self) -> usize {
        let moved = match self.message.direction() {
            Direction::ToHost => self.sent.len(),
            Direction::FromHost => self.came,
            Direction::NoData => 0,
        };
        self.message.length().saturating_sub(moved)
    }
}

/// A story after its status, as far as it was read.
struct Telling<'a> {
    run: &'a Printed,
    account: Account<'a>,
    /// The 13 bytes that are due.
    status: [u8; STATUS],
    story: Story,
}

impl<'a> Telling<'a> {
    fn new(
        run: &'a Printed,
        account: Account<'a>,
        at: usize,
        status: u8,
        figure: u32,
        replaced: bool,
    ) -> Telling<'a> {
        let message = account.message;
        let left = run.steps[at].line.left;
        let packets = |bytes: usize| bytes.div_ceil(run.packet_size);
        Telling {
            run,
            status: status_due(message, status, figure),
            story: Story {
                packet_size: run.packet_size,
                message: message.clone(),
                start: run.steps[message.first - 1].line.state,
                status: at,
                left,
                number: packets(left as usize) + packets(STATUS),
                served: 0,
                unserved: 0,
                replaced,
                put: account.put.len(),
                put_behind: 0,
                last: at,
                end: End::EndOfFile,
            },
            account,
        }
    }

    fn is_full(&self) -> bool {
        self.story.served == self.story.number
    }

    fn full_packets(&self, step: &Step) -> bool {
        let mut left = self.account.left();
        step.taken().all(|packet| {
            let full = left.min(self.run.packet_size);
            left -= full;
            packet.len() == full
        })
    }

    /// Reads one more event.
    fn add(&mut self, at: usize, step: &Step) -> Result<(), Box<False>> {
        // What is put in changes what was due before it.
        let judged = match step.put() {
            [] => self.account.sent.len(),
            _ => 0,
        };
        self.account.add(step);
        self.story.last = at;
        self.story.put += step.put().len();
        self.story.put_behind += step.put().len();
        if let Event::Poll(offers) = &step.event {
            self.add_poll(step, offers)?;
        }
        self.judge(judged)
    }

    fn add_poll(&mut self, step: &Step, offers: &Offers) -> Result<(), Box<False>> {
        let answer = step.line.answer;
        if !UNSERVED.contains(&answer) {
            self.story.served += 1;
            return Ok(());
        }
        self.story.unserved += 1;
        // Otherwise the number might never be reached.
        if all_do_their_part(offers, self.run.packet_size) {
            let what = "the answer to a poll whose endpoints all do their part";
            let due = "not 6, 7, 10 or 11".to_string();
            return Err(self.is_false(what, due, answer.to_string()));
        }
        // "Unserved polls don't alter this."
        if !step.sent().is_empty() || step.taken().count() > 0 {
            let what = "bytes sent and packets taken by an unserved poll";
            let seen = format!("{} and {}", step.sent().len(), step.line.count);
            return Err(self.is_false(what, "0 and 0".to_string(), seen));
        }
        Ok(())
    }

    /// The conclusion for the story as far as it was read; the first `judged` bytes were judged before.
    fn judge(&self, judged: usize) -> Result<(), Box<False>> {
        self.judge_bytes(judged)?;
        self.judge_number()?;
        self.judge_left()?;
        self.judge_packets()
    }

    /// "the host gets .. the firmware's bytes and then 0xFF up to L ..; then one status"
    fn judge_bytes(&self, judged: usize) -> Result<(), Box<False>> {
        let sent = &self.account.sent;
        match (judged..sent.len()).find(|at| self.due(*at) != Some(sent[*at])) {
            None => Ok(()),
            Some(at) => {
                let what = format!("what the host gets, from byte {} on", shown(at).start);
                Err(self.is_false(&what, self.due_around(at), self.sent_around(at)))
            }
        }
    }

    /// "the last status byte goes out after exactly R/P plus 13/P served polls"
    fn judge_number(&self) -> Result<(), Box<False>> {
        let (got, all) = (self.account.sent.len(), self.data() + STATUS);
        match (self.is_full(), got == all) {
            (true, false) => {
                let what = "the bytes that the host has got when the number is full";
                Err(self.is_false(what, all.to_string(), got.to_string()))
            }
            (false, true) => {
                let what = "the bytes that the host has got before the number is full";
                Err(self.is_false(what, format!("fewer than {all}"), got.to_string()))
            }
            _ => Ok(()),
        }
    }

    /// "R data bytes left"
    fn judge_left(&self) -> Result<(), Box<False>> {
        let (due, seen) = (
            self.account.left(),
            self.run.steps[self.story.last].line.left as usize,
        );
        if due == seen {
            return Ok(());
        }
        Err(self.is_false("the data bytes left", due.to_string(), seen.to_string()))
    }

    /// "P being the packet size"
    fn judge_packets(&self) -> Result<(), Box<False>> {
        let (most, seen) = (self.run.packet_size, self.account.longest);
        if seen <= most {
            return Ok(());
        }
        let due = format!("{most} at most");
        Err(self.is_false("the bytes that one poll sends", due, seen.to_string()))
    }

    /// How many data bytes the host must get: L. More only if the reader leaves out the premise that they are at most L.
    fn data(&self) -> usize {
        match self.story.message.direction() {
            Direction::ToHost => self.story.message.length().max(self.story.put),
            Direction::FromHost | Direction::NoData => 0,
        }
    }

    /// A byte that the host must get: the firmware's, then the filler, then the status.
    fn due(&self, at: usize) -> Option<u8> {
        match at.checked_sub(self.data()) {
            Some(behind) => self.status.get(behind).copied(),
            None => Some(self.account.put.get(at).copied().unwrap_or(FILLER)),
        }
    }

    fn due_around(&self, wrong: usize) -> String {
        let bytes: Vec<u8> = shown(wrong).map_while(|at| self.due(at)).collect();
        text(&bytes)
    }

    fn sent_around(&self, wrong: usize) -> String {
        let sent = |at: usize| self.account.sent.get(at).copied();
        let bytes: Vec<u8> = shown(wrong).map_while(sent).collect();
        text(&bytes)
    }

    fn is_false(&self, what: &str, due: String, seen: String) -> Box<False> {
        Box::new(False {
            story: self.story.clone(),
            what: what.to_string(),
            due,
            seen,
        })
    }
}

impl fmt::Display for Story {
    fn fmt(&self, to: &mut fmt::Formatter) -> fmt::Result {
        let Message { first, last, .. } = self.message;
        let (status, until) = (self.status, self.last);
        write!(
            to,
            "wrapper {first} to {last}, status {status}, up to {until}; "
        )?;
        let data = match self.message.direction() {
            Direction::ToHost => "to the host",
            Direction::FromHost => "from the host",
            Direction::NoData => "no data",
        };
        let (length, left) = (self.message.length(), self.left);
        let (size, served, number) = (self.packet_size, self.served, self.number);
        write!(to, "P {size}, L {length} {data}, R {left}; ")?;
        write!(
            to,
            "{served} of {number} served polls, {} unserved",
            self.unserved
        )
    }
}

fn first_packet(step: &Step) -> &[u8] {
    step.taken().next().unwrap_or_default()
}

/// The byte and the figure of a status that is accepted.
pub fn accepted(step: &Step) -> Option<(u8, u32)> {
    match step.event {
        Event::Status { status, figure } if step.line.answer == 0 => Some((status, figure)),
        _ => None,
    }
}

fn resets(event: &Event) -> bool {
    let control = Event::Control {
        bm_request_type: 0xA1,
        request: 0xFF,
    };
    *event == Event::Reset || *event == control
}

fn all_do_their_part(offers: &Offers, packet_size: usize) -> bool {
    let fits =
        |out: &OutAnswer| matches!(out, OutAnswer::Packet(packet) if packet.len() <= packet_size);
    offers.in_answer == InAnswer::Accepts && offers.out.iter().all(fits)
}

/// "one status with that tag and the residue": L less the firmware's figure, never below zero.
fn status_due(message: &Message, status: u8, figure: u32) -> [u8; STATUS] {
    let residue = message.length().saturating_sub(figure as usize) as u32;
    let mut bytes = [0; STATUS];
    bytes[..4].copy_from_slice(b"USBS");
    bytes[4..8].copy_from_slice(&message.tag());
    bytes[8..12].copy_from_slice(&residue.to_le_bytes());
    bytes[12] = status;
    bytes
}

/// Some bytes around the one that is wrong.
fn shown(wrong: usize) -> Range<usize> {
    wrong.saturating_sub(16)..wrong + 16
}

fn four(bytes: &[u8]) -> [u8; 4] {
    bytes.try_into().expect("four bytes")
}

fn text(bytes: &[u8]) -> String {
    let mut text = String::new();
    hex_or_dash(&mut text, bytes);
    text
}
