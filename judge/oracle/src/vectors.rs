//! `judge/oracle/vectors`: all of judge/vectors/ except its README, the same bytes each time.

use crate::benchfile::{self, Event};
use crate::cases;
use crate::coverage::{Coverage, Key, Section};
use crate::generator::{DEFAULT_COUNT, Generator, Made};
use crate::lines::{self, Detail};
use crate::reached;
use std::cmp::Reverse;
use std::collections::BTreeSet;
use std::io::{self, Write};

const SEED: u64 = 1;
const LONGEST_PICKED: usize = 4_000;

struct Vector {
    name: String,
    file: Vec<u8>,
    text: String,
}

pub fn write(folder: &str) -> io::Result<()> {
    let mut coverage = Coverage::new();
    let mut vectors = by_hand(cases::all(), &mut coverage);
    let hand_made = vectors.len();
    let (triples, _) = coverage.figures(Section::Triple);
    let mut report = format!("made by hand: {hand_made} files, {triples} triples\n");
    assert!(
        coverage.has_chains_and_answers(),
        "LOUD: the files made by hand miss a chain or an answer"
    );
    vectors.extend(picked(&mut coverage));
    report += &format!("picked: {} files\n", vectors.len() - hand_made);
    let added = by_hand(cases::added(), &mut coverage);
    report += &format!("made by hand and added later: {} files\n", added.len());
    vectors.extend(added);
    for section in [
        Section::Triple,
        Section::Chain,
        Section::ChainAnswer,
        Section::Told,
    ] {
        let (reached, all) = coverage.figures(section);
        report += &format!("{section:?}: {reached} of {all}\n");
    }

    let names: BTreeSet<&str> = vectors.iter().map(|vector| &vector.name[..]).collect();
    assert_eq!(names.len(), vectors.len(), "LOUD: two files of one name");
    std::fs::create_dir_all(folder)?;
    for vector in &vectors {
        let path = format!("{folder}/{}", vector.name);
        std::fs::write(format!("{path}.bot"), &vector.file)?;
        std::fs::write(format!("{path}.out"), &vector.text)?;
    }
    io::stdout().lock().write_all(report.as_bytes())
}

fn by_hand(cases: Vec<cases::Case>, coverage: &mut Coverage) -> Vec<Vector> {
    let vector = |case: cases::Case| {
        let text = lines::of_file(&case.file, Detail::Lines, &mut |step| {
            coverage.add(&reached::by_step(&step));
        });
        assert_eq!(
            text == "14\n",
            case.rule.is_some(),
            "LOUD: {} is judged wrongly",
            case.name
        );
        if let Some(rule) = case.rule {
            coverage.add(&reached::by_damage(rule));
        }
        Vector {
            name: case.name,
            file: case.file,
            text,
        }
    };
    cases.into_iter().map(vector).collect()
}

/// Random files for what the files of `cases::all` miss: always the file that reaches most of it, cut
/// after the last event that helps. Three things are left out: the pairs of P and buffer, which need a
/// file each, the opcodes with each block length, which are thousands of events, and what steps are
/// told, for no line shows it. So the steps of these files are not told.
fn picked(coverage: &mut Coverage) -> Vec<Vector> {
    let mut generator = Generator::new(SEED);
    let made = (0..DEFAULT_COUNT).map(|_| untold(generator.next_file()));
    let candidates: Vec<Made> = made
        .filter(|made| !made.events.is_empty() && made.file.len() <= LONGEST_PICKED)
        .collect();
    let mut vectors = Vec::new();
    loop {
        let gain = |made: &Made| missed(coverage, made.reached.iter().flatten()).len();
        let most = |made: &&Made| (gain(made), Reverse(made.file.len()));
        let Some(best) = candidates.iter().max_by_key(most) else {
            return vectors;
        };
        let gained = missed(coverage, best.reached.iter().flatten());
        let Some(first) = gained.first() else {
            return vectors;
        };
        let helps = |keys: &Vec<Key>| !missed(coverage, keys.iter()).is_empty();
        let last = best
            .reached
            .iter()
            .rposition(helps)
            .expect("some event helps");
        let file = benchfile::encode(&best.events[..=last]);
        let more = match gained.len() {
            1 => String::new(),
            all => format!("-and-{}-more", all - 1),
        };
        let name = format!(
            "picked-for-{}{more}",
            first.1.to_lowercase().replace(' ', "-")
        );
        let text = lines::of_file(&file, Detail::Lines, &mut |step| {
            coverage.add(&reached::by_step(&step));
        });
        vectors.push(Vector { name, file, text });
    }
}

/// The same file with steps that carry nothing.
fn untold(made: Made) -> Made {
    let events = made.events.into_iter().map(|event| match event {
        Event::Command { .. } => Event::Command { told: None },
        event => event,
    });
    let events: Vec<Event> = events.collect();
    Made {
        file: benchfile::encode(&events),
        events,
        ..made
    }
}

/// The keys that are wanted and not yet reached, each once.
fn missed<'a>(coverage: &Coverage, keys: impl Iterator<Item = &'a Key>) -> BTreeSet<Key> {
    let wanted = |section| !matches!(section, Section::Pair | Section::Creation | Section::Told);
    keys.filter(|key| wanted(key.0) && coverage.misses(key))
        .cloned()
        .collect()
}
