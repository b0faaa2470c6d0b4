//! Faults on purpose for the reader of demand 3: the lines of a run are altered before they are read. Each fault must be
//! noticed wherever it is made. Also, without one of its premises the reader must find the demand false, in the bench files
//! that were made to show this.

use crate::benchfile::Event;
use crate::demand::{self, Direction, End, False, Premise, Story, accepted};
use crate::demandrun::beside;
use crate::printed::{Line, Printed};
use std::collections::BTreeMap;
use std::io;
use std::process::ExitCode;

/// Lines that take the place of others, by event.
type Altered = BTreeMap<usize, Line>;

/// The places that a story has for a fault; each is altered alone.
type Fault = fn(&Tale) -> Vec<Altered>;

/// Name, the stories in which it is made, and the fault.
const FAULTS: &[(&str, fn(&Story) -> bool, Fault)] = &[
    ("a filler byte FE for FF", ended, other_filler),
    ("a status byte changed", ended, status_byte),
    ("the last status packet a served poll later", ended, later),
    (
        "the last status packet a served poll earlier",
        ended,
        earlier,
    ),
    ("a packet sent by an unserved poll", ended, sent_unserved),
    ("two packets in one poll", ended, two_packets),
    ("a byte of data dropped", ended, data_dropped),
    ("a byte sent where no data is due", ended, data_more),
    ("the residue computed from left", ended, residue_from_left),
    ("the residue of the status before", ended, residue_before),
    ("a served poll told as busy", ended, served_as_busy),
    ("a busy poll told as served", ended, busy_as_served),
    ("one byte more left than is left", ended, left_more),
    ("a byte changed in a story cut off", cut_off, any_byte),
];

fn ended(story: &Story) -> bool {
    story.end == End::Exactly
}

fn cut_off(story: &Story) -> bool {
    !ended(story)
}

/// Files that break a premise: without that premise they are false.
const BROKEN: &[(&str, Premise)] = &[
    ("premise-wrapper-sent-as-data-is-no-command", Premise::Waits),
    (
        "premise-broken-off-wrapper-takes-16-bytes-of-the-next",
        Premise::NothingUnread,
    ),
    (
        "premise-byte-behind-the-wrapper-goes-out-as-data",
        Premise::Exactly31,
    ),
    (
        "premise-data-kept-by-a-reset-is-parsed-as-a-wrapper",
        Premise::SameCommand,
    ),
    (
        "premise-reset-before-the-status-gives-it-the-next-tag",
        Premise::SameCommand,
    ),
    (
        "premise-a1-ff-before-the-status-gives-it-the-next-tag",
        Premise::SameCommand,
    ),
    (
        "premise-status-of-the-next-command-is-another",
        Premise::SameCommand,
    ),
    ("premise-reset-behind-the-status-drops-it", Premise::NoReset),
    (
        "premise-a1-ff-within-the-status-leaves-5-bytes-unread",
        Premise::NoReset,
    ),
    ("status-set-again-replaces-the-first", Premise::LastStatus),
    (
        "premise-short-host-packet-takes-one-poll-more",
        Premise::FullPackets,
    ),
    (
        "premise-empty-host-packet-takes-one-poll-more",
        Premise::FullPackets,
    ),
    ("premise-write-all-above-l-loses-a-byte", Premise::AtMostL),
    ("premise-two-writes-above-l-lose-a-byte", Premise::AtMostL),
];

/// Files that break a premise and in which no status is accepted: with or without the premise, nothing is promised for them.
const WITHOUT_STATUS: &[&str] = &[
    "premise-wrapper-behind-an-invalid-one-is-not-taken",
    "premise-byte-before-the-wrapper-makes-it-invalid",
    "premise-wrong-signature-takes-no-status",
    "premise-wrong-block-length-takes-no-status",
];

/// A file with its name, which says what it was made for.
struct Named {
    name: String,
    run: Printed,
}

pub fn command(paths: &[&str]) -> io::Result<ExitCode> {
    let mut runs = named(paths)?;
    let good = faults_noticed(&mut runs) && premises_needed(&runs);
    Ok(if good {
        ExitCode::SUCCESS
    } else {
        ExitCode::FAILURE
    })
}

fn named(paths: &[&str]) -> io::Result<Vec<Named>> {
    let mut runs = Vec::new();
    for path in paths {
        let (file, text) = beside(path)?;
        let name = path.rsplit('/').next().expect("there is always one");
        let name = name.trim_end_matches(".bot").to_string();
        if let Some(run) = Printed::new(&file, &text).map_err(io::Error::other)? {
            runs.push(Named { name, run });
        }
    }
    Ok(runs)
}

fn faults_noticed(runs: &mut [Named]) -> bool {
    let mut noticed = [0; FAULTS.len()];
    for Named { name, run } in runs {
        let Ok(reading) = demand::read(run) else {
            println!("{name} has a false story before any fault");
            return false;
        };
        for story in &reading.stories {
            if let Err(fault) = make_all(run, story, &mut noticed) {
                println!("{name}, {story}: nobody noticed: {fault}");
                return false;
            }
        }
    }
    for ((fault, ..), count) in FAULTS.iter().zip(&noticed) {
        println!("{fault}: noticed {count} times of {count}");
    }
    !noticed.contains(&0)
}

/// Makes all faults in one story, each alone; the name of the first that is not noticed.
fn make_all(run: &mut Printed, story: &Story, noticed: &mut [usize]) -> Result<(), &'static str> {
    for ((fault, fits, make), count) in FAULTS.iter().zip(noticed) {
        if !fits(story) {
            continue;
        }
        for altered in make(&Tale { run, story }) {
            if !is_noticed(run, story, altered) {
                return Err(fault);
            }
            *count += 1;
        }
    }
    Ok(())
}

/// Whether the story is false with these lines. Afterwards the run is as before.
fn is_noticed(run: &mut Printed, story: &Story, mut altered: Altered) -> bool {
    exchange(run, &mut altered);
    let reading = demand::read(run);
    exchange(run, &mut altered);
    reading.is_err_and(|wrong| wrong.story.message.first == story.message.first)
}

fn exchange(run: &mut Printed, altered: &mut Altered) {
    for (at, line) in altered {
        std::mem::swap(&mut run.steps[*at].line, line);
    }
}

fn premises_needed(runs: &[Named]) -> bool {
    let run_of = |name: &str| runs.iter().find(|named| named.name == name);
    BROKEN
        .iter()
        .all(|(name, premise)| false_without(*premise, name, run_of(name)))
        && WITHOUT_STATUS
            .iter()
            .all(|name| accepts_none(name, run_of(name)))
        && runs.iter().all(is_known)
}

fn false_without(premise: Premise, name: &str, named: Option<&Named>) -> bool {
    let reading = named.map(|named| demand::read_without(premise, &named.run));
    let Some(Err(wrong)) = reading else {
        println!("{name} is not there, or true without {premise:?}");
        return false;
    };
    let False {
        what, due, seen, ..
    } = *wrong;
    println!("without {premise:?} {name} is false: {what}, due {due}, seen {seen}");
    true
}

fn accepts_none(name: &str, named: Option<&Named>) -> bool {
    let accepts = |named: &Named| named.run.steps.iter().any(|step| accepted(step).is_some());
    if named.is_none_or(accepts) {
        println!("{name} is not there, or a status is accepted in it");
        return false;
    }
    println!("{name} accepts no status");
    true
}

/// A new file that breaks a premise has to be entered above.
fn is_known(named: &Named) -> bool {
    let name = &named.name[..];
    let known = BROKEN.iter().any(|(broken, _)| *broken == name) || WITHOUT_STATUS.contains(&name);
    if name.starts_with("premise-") && !known {
        println!("{name} is in no table of judge/oracle/src/demandfaults.rs");
        return false;
    }
    true
}

/// A story within its run.
struct Tale<'a> {
    run: &'a Printed,
    story: &'a Story,
}

impl Tale<'_> {
    fn line(&self, at: usize) -> Line {
        self.run.steps[at].line.clone()
    }

    fn is_poll(&self, at: usize) -> bool {
        matches!(self.run.steps[at].event, Event::Poll(_))
    }

    /// Data bytes that the host gets in it.
    fn data(&self) -> usize {
        match self.story.message.direction() {
            Direction::ToHost => self.story.message.length(),
            Direction::FromHost | Direction::NoData => 0,
        }
    }

    /// Its polls that sent something.
    fn sending(&self) -> Vec<usize> {
        (self.story.message.first..=self.story.last)
            .filter(|at| !self.run.steps[*at].sent().is_empty())
            .collect()
    }

    /// For each byte that the host gets: the event, and the place in its line.
    fn places(&self) -> Vec<(usize, usize)> {
        let of_poll = |at: usize| {
            let count = self.run.steps[at].sent().len();
            (0..count).map(move |place| (at, place))
        };
        self.sending().into_iter().flat_map(of_poll).collect()
    }

    /// Puts these bytes in place of those that the host gets, from one of them on.
    fn rewritten(&self, from: usize, bytes: &[u8]) -> Altered {
        let mut altered = Altered::new();
        for ((at, place), byte) in self.places()[from..].iter().zip(bytes) {
            let line = altered.entry(*at).or_insert_with(|| self.line(*at));
            line.bytes[*place] = *byte;
        }
        altered
    }

    fn changed(&self, at: usize) -> Altered {
        let (event, place) = self.places()[at];
        let byte = self.run.steps[event].sent()[place];
        self.rewritten(at, &[byte ^ 1])
    }

    /// Puts the bytes of one poll after those of another, earlier or later poll, or nowhere.
    fn moved(&self, from: usize, to: Option<usize>) -> Altered {
        let mut source = self.line(from);
        let bytes = std::mem::take(&mut source.bytes);
        let mut altered = Altered::from([(from, source)]);
        if let Some(to) = to {
            let mut line = self.line(to);
            line.bytes.extend(bytes);
            altered.insert(to, line);
        }
        altered
    }

    fn is_served(&self, at: &usize) -> bool {
        self.is_poll(*at) && !matches!(self.run.steps[*at].line.answer, 6 | 7 | 10 | 11)
    }

    /// The unserved polls between its status and its last event.
    fn unserved(&self) -> Vec<usize> {
        (self.story.status..self.story.last)
            .filter(|at| self.is_poll(*at) && !self.is_served(at))
            .collect()
    }

    /// Nothing if this is the residue already.
    fn with_residue(&self, residue: u32) -> Vec<Altered> {
        let at = self.data() + 8;
        let altered = self.rewritten(at, &residue.to_le_bytes());
        let same = |(at, line): (&usize, &Line)| self.run.steps[*at].line == *line;
        if altered.iter().all(same) {
            return Vec::new();
        }
        vec![altered]
    }

    fn with_answer(&self, at: usize, answer: u8) -> Altered {
        let line = Line {
            answer,
            ..self.line(at)
        };
        Altered::from([(at, line)])
    }
}

/// The first and the last, which may be the same.
fn ends<T: Clone>(of: &[T]) -> Vec<T> {
    match of {
        [first, .., last] => vec![first.clone(), last.clone()],
        _ => of.to_vec(),
    }
}

fn other_filler(tale: &Tale) -> Vec<Altered> {
    let filler: Vec<usize> = (tale.story.put..tale.data()).collect();
    ends(&filler)
        .into_iter()
        .map(|at| tale.rewritten(at, &[0xFE]))
        .collect()
}

fn status_byte(tale: &Tale) -> Vec<Altered> {
    (tale.data()..tale.places().len())
        .map(|at| tale.changed(at))
        .collect()
}

fn any_byte(tale: &Tale) -> Vec<Altered> {
    let bytes: Vec<usize> = (0..tale.places().len()).collect();
    ends(&bytes)
        .into_iter()
        .map(|at| tale.changed(at))
        .collect()
}

/// If no served poll follows, it does not go out at all.
fn later(tale: &Tale) -> Vec<Altered> {
    let mut behind = tale.story.last + 1..tale.run.steps.len();
    let next = behind.find(|at| tale.is_served(at));
    vec![tale.moved(tale.story.last, next)]
}

fn earlier(tale: &Tale) -> Vec<Altered> {
    let mut before = (tale.story.message.first..tale.story.last).rev();
    let previous = before.find(|at| tale.is_served(at));
    previous
        .map(|_| tale.moved(tale.story.last, previous))
        .into_iter()
        .collect()
}

/// The packet that would go out next goes out in this poll.
fn sent_unserved(tale: &Tale) -> Vec<Altered> {
    let sending = tale.sending();
    let next = |at: usize| sending.iter().find(|sending| **sending > at);
    tale.unserved()
        .into_iter()
        .filter_map(|at| next(at).map(|next| tale.moved(*next, Some(at))))
        .collect()
}

fn data_dropped(tale: &Tale) -> Vec<Altered> {
    let dropped = |(at, place): (usize, usize)| {
        let mut line = tale.line(at);
        line.bytes.remove(place);
        Altered::from([(at, line)])
    };
    ends(&tale.places()[..tale.data()])
        .into_iter()
        .map(dropped)
        .collect()
}

fn data_more(tale: &Tale) -> Vec<Altered> {
    if tale.data() > 0 {
        return Vec::new();
    }
    let at = tale.story.message.last;
    let mut line = tale.line(at);
    line.bytes.push(0);
    vec![Altered::from([(at, line)])]
}

fn residue_from_left(tale: &Tale) -> Vec<Altered> {
    tale.with_residue(tale.story.left)
}

fn residue_before(tale: &Tale) -> Vec<Altered> {
    let mut before = (tale.story.message.last..tale.story.status).rev();
    let length = tale.story.message.length() as u32;
    match before.find_map(|at| accepted(&tale.run.steps[at])) {
        Some((_, figure)) => tale.with_residue(length.saturating_sub(figure)),
        None => Vec::new(),
    }
}

/// After the status, where the number counts: the first two, and the last two.
fn two_packets(tale: &Tale) -> Vec<Altered> {
    let mut polls = tale.sending();
    polls.retain(|at| *at > tale.story.status);
    let pairs: Vec<&[usize]> = polls.windows(2).collect();
    ends(&pairs)
        .into_iter()
        .map(|pair| tale.moved(pair[1], Some(pair[0])))
        .collect()
}

fn served_as_busy(tale: &Tale) -> Vec<Altered> {
    vec![tale.with_answer(tale.story.last, 6)]
}

fn busy_as_served(tale: &Tale) -> Vec<Altered> {
    tale.unserved()
        .into_iter()
        .map(|at| tale.with_answer(at, 0))
        .collect()
}

fn left_more(tale: &Tale) -> Vec<Altered> {
    let at = tale.story.status;
    let line = Line {
        left: tale.story.left + 1,
        ..tale.line(at)
    };
    vec![Altered::from([(at, line)])]
}
