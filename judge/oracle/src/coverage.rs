//! What a set of bench files has reached, compared with the whole list of what can be reached.

use crate::reachable;
use std::collections::BTreeMap;

#[derive(Clone, Copy, PartialEq, Eq, PartialOrd, Ord, Debug)]
pub enum Section {
    /// State before, event, answer.
    Triple,
    Answer,
    Chain,
    /// Busy and failing endpoints at every step: a chain with each answer that it can end with.
    ChainAnswer,
    /// P and buffer.
    Creation,
    /// P, L and direction of a valid wrapper.
    Length,
    /// How a wrapper came.
    Wrapper,
    /// Packets offered, sorted by what asked for them.
    Packet,
    /// Packets sent.
    Sent,
    /// Amounts at the calls.
    Call,
    Control,
    /// A bench file breaking one rule.
    Damage,
    /// What a command step is told, by state and for blocks that depend on it.
    Told,
    /// Opcode and block length of a command step.
    Pair,
}

const SECTIONS: [(Section, &str); 14] = [
    (Section::Triple, "triples of state, event and answer"),
    (
        Section::Answer,
        "answers (10 cannot be reached from a file)",
    ),
    (Section::Chain, "chains of handlers"),
    (Section::ChainAnswer, "chains with each of their answers"),
    (Section::Creation, "P with buffer"),
    (Section::Length, "P with L and direction"),
    (Section::Wrapper, "ways of a wrapper"),
    (Section::Packet, "packets offered"),
    (Section::Sent, "packets sent"),
    (Section::Call, "amounts at calls"),
    (Section::Control, "control requests by state"),
    (Section::Damage, "damaged files by rule"),
    (Section::Told, "command steps by what they are told"),
    (Section::Pair, "opcodes with block length"),
];

/// At most this many lines of missing things are shown.
const LONGEST_MISSING: usize = 40;

pub type Key = (Section, String);

/// How often each thing on the list was reached.
#[derive(Clone)]
pub struct Coverage {
    reached: BTreeMap<Key, u64>,
}

impl Coverage {
    pub fn new() -> Coverage {
        Coverage {
            reached: reachable::all().into_iter().map(|key| (key, 0)).collect(),
        }
    }

    pub fn add(&mut self, keys: &[Key]) {
        for key in keys {
            let Some(count) = self.reached.get_mut(key) else {
                panic!("LOUD: reached what is not on the list: {key:?}");
            };
            *count += 1;
        }
    }

    /// Adds what another set of files has reached.
    pub fn merge(&mut self, other: &Coverage) {
        for (key, count) in &other.reached {
            *self.reached.entry(key.clone()).or_insert(0) += count;
        }
    }

    pub fn misses(&self, key: &Key) -> bool {
        self.reached[key] == 0
    }

    pub fn missing(&self) -> Vec<Key> {
        let unreached = self.reached.iter().filter(|(_, count)| **count == 0);
        unreached.map(|(key, _)| key.clone()).collect()
    }

    /// How many of how many.
    pub fn figures(&self, section: Section) -> (usize, usize) {
        let counts = self.of(section);
        (
            counts.iter().filter(|(_, count)| *count > 0).count(),
            counts.len(),
        )
    }

    /// Whether everything is there that every fair set of files must reach.
    pub fn has_chains_and_answers(&self) -> bool {
        let whole = |section| {
            let (reached, all) = self.figures(section);
            reached == all
        };
        whole(Section::Chain) && whole(Section::Answer)
    }

    fn of(&self, section: Section) -> Vec<(&str, u64)> {
        let entries = self.reached.iter().filter(|((of, _), _)| *of == section);
        entries
            .map(|((_, name), count)| (name.as_str(), *count))
            .collect()
    }

    /// One line for each section; if `list` is set, everything with its count; what is missing.
    pub fn report(&self, list: bool) -> String {
        let mut text = String::new();
        for (section, title) in SECTIONS {
            let (reached, all) = self.figures(section);
            text += &format!("{title}: {reached} of {all}\n");
            if list {
                for (name, count) in self.of(section) {
                    text += &format!("  {name}: {count}\n");
                }
            }
        }
        let missing = self.missing();
        if missing.is_empty() {
            return text + "missing: none\n";
        }
        for (section, name) in missing.iter().take(LONGEST_MISSING) {
            text += &format!("missing: {section:?} {name}\n");
        }
        if missing.len() > LONGEST_MISSING {
            let more = missing.len() - LONGEST_MISSING;
            text += &format!("missing: {more} more\n");
        }
        text
    }
}
