//! How many stories of demand 3 were read, by kind and by end.

use crate::demand::{Direction, End, Reading, Story};
use std::fmt::Write;

type Kind = fn(&Story) -> bool;

/// Kinds that a run of random files should have. The first kind is all stories.
const KINDS: &[(&str, Kind)] = &[
    ("stories", |_| true),
    ("reads", |story| directed(story, Direction::ToHost)),
    ("writes", |story| directed(story, Direction::FromHost)),
    ("no data", |story| directed(story, Direction::NoData)),
    ("R 0", |story| story.left == 0),
    ("R above 0", |story| story.left > 0),
    ("reads, R above 0", |story| {
        directed(story, Direction::ToHost) && story.left > 0
    }),
    ("writes, R above 0", |story| {
        directed(story, Direction::FromHost) && story.left > 0
    }),
    ("reads with filler", |story| {
        directed(story, Direction::ToHost) && story.put < story.message.length()
    }),
    ("unserved polls behind the status", |story| {
        story.unserved > 0
    }),
    ("bytes put in behind the status", |story| {
        story.put_behind > 0
    }),
    ("a replaced status", |story| story.replaced),
    ("a wrapper in several packets", |story| {
        story.message.packets > 1
    }),
    ("a reset between the wrapper's packets", |story| {
        story.message.reset
    }),
    ("start in state 0", |story| story.start == 0),
    ("start in state 3", |story| story.start == 3),
    ("P 8", |story| story.packet_size == 8),
    ("P 16", |story| story.packet_size == 16),
    ("P 32", |story| story.packet_size == 32),
    ("P 64", |story| story.packet_size == 64),
];

/// Why stories are cut off before the number is reached.
const CUTS: &[(&str, End)] = &[
    ("a reset", End::Reset),
    ("a new status", End::NewStatus),
    ("a packet that is not full", End::PacketNotFull),
    ("more than L bytes put in", End::AboveL),
    ("the end of the file", End::EndOfFile),
];

fn directed(story: &Story, direction: Direction) -> bool {
    story.message.direction() == direction
}

#[derive(Default)]
pub struct Tally {
    pub events: usize,
    pub stories: usize,
    accepted: usize,
    above: usize,
    /// For each kind: the stories that ended with exactly the number, and those that were cut off.
    kinds: [[usize; 2]; KINDS.len()],
    cuts: [usize; CUTS.len()],
    most: usize,
}

impl Tally {
    pub fn add(&mut self, reading: &Reading) {
        self.events += reading.events;
        self.stories += reading.stories.len();
        self.accepted += reading.accepted;
        self.above += reading.above;
        for story in &reading.stories {
            self.add_story(story);
        }
    }

    fn add_story(&mut self, story: &Story) {
        let ended = story.end == End::Exactly;
        for ((_, is), counts) in KINDS.iter().zip(&mut self.kinds) {
            counts[usize::from(!ended)] += usize::from(is(story));
        }
        for ((_, end), count) in CUTS.iter().zip(&mut self.cuts) {
            *count += usize::from(story.end == *end);
        }
        if ended {
            self.most = self.most.max(story.number);
        }
    }

    /// Kinds of which no story ended with exactly the number, and cuts that did not happen.
    fn missing(&self) -> Vec<&'static str> {
        let kinds = KINDS.iter().zip(&self.kinds);
        let cuts = CUTS.iter().zip(&self.cuts);
        let kinds = kinds.map(|((name, _), [ended, _])| (*name, *ended));
        let cuts = cuts.map(|((name, _), count)| (*name, *count));
        kinds
            .chain(cuts)
            .filter_map(|(name, count)| (count == 0).then_some(name))
            .collect()
    }

    pub fn report(&self) -> String {
        let mut text = String::new();
        let mut add = |line: String| writeln!(text, "{line}").expect("a string");
        for ((name, _), [ended, cut]) in KINDS.iter().zip(&self.kinds) {
            add(format!(
                "{name}: {}, of them {ended} ended with exactly the number, {cut} were cut off",
                ended + cut
            ));
        }
        for ((name, _), count) in CUTS.iter().zip(&self.cuts) {
            add(format!("cut off by {name}: {count}"));
        }
        add(format!("most served polls behind a status: {}", self.most));
        let others = self.accepted.saturating_sub(self.stories + self.above);
        add(format!(
            "accepted statuses in no story: {} behind more than L bytes, {others} for a wrapper with bytes before or behind it",
            self.above
        ));
        let missing = match &self.missing()[..] {
            [] => "none".to_string(),
            names => names.join(", "),
        };
        add(format!("missing: {missing}"));
        text
    }
}
