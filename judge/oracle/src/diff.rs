//! `judge/diff`: random files through a program under test and through the Rust, all lines compared.
//! At the first difference the file is made smaller as long as the two still differ.
//!
//! The program is `benches`: it reads files, with 4 bytes of length before each, and prints for each a
//! line `==` and then the lines of `bench`. So one process is enough for a thousand files.

use crate::benchfile::{self, Event};
use crate::coverage::Coverage;
use crate::generator::{DEFAULT_COUNT, Generator, Made};
use crate::lines::{self, Detail};
use crate::show;
use std::io;
use std::process::{Command, ExitCode, Stdio};

const BETWEEN: &str = "==\n";

/// The program under test, and the folder for its files.
pub struct Tested<'a> {
    pub words: &'a [&'a str],
    pub folder: &'a str,
}

impl Tested<'_> {
    /// The text for each file. If the program ends early the other texts are empty; if it fails, its last text says so.
    pub fn texts(&self, files: &[Vec<u8>]) -> io::Result<Vec<String>> {
        let input = format!("{}/input", self.folder);
        std::fs::write(&input, stream(files))?;
        let ended = Command::new(self.words[0])
            .args(&self.words[1..])
            .stdin(std::fs::File::open(&input)?)
            .stderr(Stdio::inherit())
            .output()?;
        let printed = String::from_utf8_lossy(&ended.stdout);
        let mut texts = split(&printed);
        if !ended.status.success() {
            let last = texts.last_mut().expect("there is always one");
            *last += &format!("({})\n", ended.status);
        }
        texts.resize(files.len().max(texts.len()), String::new());
        Ok(texts)
    }

    /// The first file for which program and Rust differ, and the program's text for it.
    fn first_different(&self, files: &[Vec<u8>]) -> io::Result<Option<(usize, String)>> {
        let texts = self.texts(files)?;
        let differs = |(file, text): (&Vec<u8>, &String)| due(file) != *text;
        let found = files.iter().zip(&texts).position(differs);
        Ok(found.map(|at| (at, texts[at].clone())))
    }
}

pub fn command(events: u64, seed: u64, folder: &str, words: &[&str]) -> io::Result<ExitCode> {
    std::fs::create_dir_all(folder)?;
    let tested = Tested { words, folder };
    let mut coverage = Coverage::new();
    let (mut files, mut compared) = (0, 0);
    for seed in seed.. {
        let mut generator = Generator::new(seed);
        let made: Vec<Made> = (0..DEFAULT_COUNT).map(|_| generator.next_file()).collect();
        if let Some(at) = different(&tested, &made)? {
            println!("seed {seed}, file {at}: the program and the Rust differ");
            explain(&tested, &made[at], &format!("{folder}/{seed}-{at:04}"))?;
            return Ok(ExitCode::FAILURE);
        }
        coverage.merge(&generator.coverage);
        files += made.len();
        let ran = made.iter().map(events_run).sum::<u64>();
        compared += ran;
        println!(
            "seed {seed}: {} files, {ran} events, 0 different",
            made.len()
        );
        if compared >= events {
            break;
        }
    }
    print!("{}", coverage.report(false));
    println!("{files} files, {compared} events compared with the Rust, 0 different");
    Ok(ExitCode::SUCCESS)
}

/// A damaged file has its one line and no events.
fn events_run(made: &Made) -> u64 {
    if made.events.is_empty() {
        return 0;
    }
    made.text.lines().count() as u64
}

/// Which file has other lines than those that were made with it.
fn different(tested: &Tested, made: &[Made]) -> io::Result<Option<usize>> {
    let files: Vec<Vec<u8>> = made.iter().map(|made| made.file.clone()).collect();
    let texts = tested.texts(&files)?;
    if texts.len() > made.len() {
        println!("{} files went in, and {} came out", made.len(), texts.len());
        return Ok(Some(made.len() - 1));
    }
    let differs = |(made, text): (&Made, &String)| made.text != *text;
    Ok(made.iter().zip(&texts).position(differs))
}

fn stream(files: &[Vec<u8>]) -> Vec<u8> {
    let mut bytes = Vec::new();
    for file in files {
        bytes.extend((file.len() as u32).to_le_bytes());
        bytes.extend(file);
    }
    bytes
}

/// What follows each line `==`. There is at least one text: what comes before the first such line is part of it.
fn split(printed: &str) -> Vec<String> {
    let mut texts: Vec<String> = Vec::new();
    for line in printed.split_inclusive('\n') {
        if line == BETWEEN {
            texts.push(String::new());
        } else if let Some(text) = texts.last_mut() {
            *text += line;
        } else {
            texts.push(line.to_string());
        }
    }
    if texts.is_empty() {
        texts.push(String::new());
    }
    texts
}

fn due(file: &[u8]) -> String {
    lines::of_file(file, Detail::Lines, &mut |_| {})
}

/// Shows the difference, and then the smaller file with its events and both outputs.
fn explain(tested: &Tested, made: &Made, path: &str) -> io::Result<()> {
    std::fs::write(format!("{path}.bot"), &made.file)?;
    let alone = tested.first_different(std::slice::from_ref(&made.file))?;
    let Some((_, ours)) = alone else {
        println!(
            "{path}.bot alone gives the same lines: what came before it in its process counts"
        );
        return Ok(());
    };
    let line = first_line(&made.text, &ours);
    println!("{path}.bot, line {line}");
    show_line("due ", &made.text, line);
    show_line("ours", &ours, line);
    let (events, ours) = smaller(tested, made, line, ours)?;
    if events.is_empty() {
        println!("the file breaks a rule, so no event is dropped from it");
        return Ok(());
    }
    let file = benchfile::encode(&events);
    std::fs::write(format!("{path}-small.bot"), &file)?;
    println!(
        "of {} events {} are left in {path}-small.bot",
        made.events.len(),
        events.len()
    );
    for event in &events {
        let mut words = String::new();
        show::event(&mut words, event);
        println!("  {words}");
    }
    print!("-- due\n{}-- ours\n{ours}", due(&file));
    Ok(())
}

fn first_line(one: &str, two: &str) -> usize {
    let same = |(one, two): &(&str, &str)| one == two;
    one.lines().zip(two.lines()).take_while(same).count()
}

fn show_line(whose: &str, text: &str, line: usize) {
    println!("{whose} {}", text.lines().nth(line).unwrap_or("(no line)"));
}

/// Drops the events after the line that differs, then halves, quarters and so on down to single events, as long as the two
/// still differ. All files of a round go through one process.
fn smaller(
    tested: &Tested,
    made: &Made,
    line: usize,
    ours: String,
) -> io::Result<(Vec<Event>, String)> {
    let mut best = (made.events.clone(), ours);
    let cut = made.events[..made.events.len().min(line + 1)].to_vec();
    if let Some((_, ours)) = tested.first_different(&[benchfile::encode(&cut)])? {
        best = (cut, ours);
    }
    let mut dropped = best.0.len() / 2;
    while dropped > 0 {
        let tries: Vec<Vec<Event>> = (0..best.0.len())
            .step_by(dropped)
            .map(|from| without(&best.0, from, dropped))
            .collect();
        let files: Vec<Vec<u8>> = tries
            .iter()
            .map(|events| benchfile::encode(events))
            .collect();
        match tested.first_different(&files)? {
            Some((at, ours)) => best = (tries[at].clone(), ours),
            None => dropped /= 2,
        }
    }
    Ok(best)
}

fn without(events: &[Event], from: usize, count: usize) -> Vec<Event> {
    let until = events.len().min(from + count);
    [&events[..from], &events[until..]].concat()
}
