//! `judge/demand`: random files through a program under test, and every story of demand 3 in its lines. It ends at the
//! first story that is false, and shows it.

use crate::demand::{self, False, Reading};
use crate::demandtally::Tally;
use crate::diff::Tested;
use crate::generator::{DEFAULT_COUNT, Generator};
use crate::printed::{Printed, Step};
use crate::show;
use std::io;
use std::ops::Range;
use std::process::ExitCode;

/// If a story is longer, only its two ends are shown.
const SHOWN_WHOLE: usize = 60;
const SHOWN_WIDTH: usize = 160;

/// Random files of at least this many events, from this seed on.
pub fn random(events: u64, seed: u64, folder: &str, words: &[&str]) -> io::Result<ExitCode> {
    std::fs::create_dir_all(folder)?;
    let tested = Tested { words, folder };
    let mut tally = Tally::default();
    let mut files = 0;
    for seed in seed.. {
        let before = (tally.events, tally.stories);
        if !all_true(&tested, seed, &mut tally)? {
            return Ok(ExitCode::FAILURE);
        }
        files += DEFAULT_COUNT;
        println!(
            "seed {seed}: {DEFAULT_COUNT} files, {} events, {} stories, 0 false",
            tally.events - before.0,
            tally.stories - before.1
        );
        if tally.events as u64 >= events {
            break;
        }
    }
    finish(&tally, files);
    Ok(ExitCode::SUCCESS)
}

/// The files of one seed through the program. At the first false story it stops, and keeps the file.
fn all_true(tested: &Tested, seed: u64, tally: &mut Tally) -> io::Result<bool> {
    let mut generator = Generator::new(seed);
    let next_file = |_| generator.next_file().file;
    let files: Vec<Vec<u8>> = (0..DEFAULT_COUNT).map(next_file).collect();
    let texts = tested.texts(&files)?;
    if texts.len() > files.len() {
        return Err(io::Error::other("more texts came out than files went in"));
    }
    for (at, (file, text)) in files.iter().zip(&texts).enumerate() {
        let path = format!("{}/{seed}-{at:04}.bot", tested.folder);
        let Some(reading) = read(file, text, &path) else {
            std::fs::write(&path, file)?;
            std::fs::write(path.replace(".bot", ".out"), text)?;
            return Ok(false);
        };
        tally.add(&reading);
    }
    Ok(true)
}

fn finish(tally: &Tally, files: usize) {
    print!("{}", tally.report());
    println!(
        "{files} files, {} events, {} stories, 0 false",
        tally.events, tally.stories
    );
}

/// Bench files, each with its lines next to it.
pub fn files(paths: &[&str], list: bool) -> io::Result<ExitCode> {
    let mut tally = Tally::default();
    for path in paths {
        let (file, text) = beside(path)?;
        let Some(reading) = read(&file, &text, path) else {
            return Ok(ExitCode::FAILURE);
        };
        if list {
            for story in &reading.stories {
                println!("{path}: {story}; {:?}", story.end);
            }
        }
        tally.add(&reading);
    }
    finish(&tally, paths.len());
    Ok(ExitCode::SUCCESS)
}

/// A file `NAME.bot`, and the lines in `NAME.out`.
pub fn beside(path: &str) -> io::Result<(Vec<u8>, String)> {
    let Some(name) = path.strip_suffix(".bot") else {
        return Err(io::Error::other(format!("{path} is no .bot")));
    };
    let text = std::fs::read_to_string(format!("{name}.out"))?;
    Ok((std::fs::read(path)?, text))
}

/// None if a story is false, or if the text is not the output of `bench` for the file; it then says so.
fn read(file: &[u8], text: &str, path: &str) -> Option<Reading> {
    let run = match Printed::new(file, text) {
        Ok(Some(run)) => run,
        Ok(None) => return Some(Reading::default()),
        Err(what) => {
            println!("{path}: {what}");
            return None;
        }
    };
    let reading = demand::read(&run);
    if let Err(wrong) = &reading {
        println!("{path}: a story is false");
        explain(&run, wrong);
    }
    reading.ok()
}

fn explain(run: &Printed, wrong: &False) {
    let story = &wrong.story;
    println!("{story}");
    let events = story.message.first..story.last + 1;
    if events.len() <= SHOWN_WHOLE {
        show_events(run, events);
    } else {
        let end = events.end - SHOWN_WHOLE / 2;
        show_events(run, events.start..events.start + SHOWN_WHOLE / 2);
        println!("  ..");
        show_events(run, end..events.end);
    }
    println!("{}", wrong.what);
    println!("  due  {}", wrong.due);
    println!("  seen {}", wrong.seen);
}

fn show_events(run: &Printed, events: Range<usize>) {
    for at in events {
        let Step { event, line } = &run.steps[at];
        let mut words = String::new();
        show::event(&mut words, event);
        println!("  {at} {}", cut(words));
        println!("      {}", cut(line.to_string()));
    }
}

fn cut(mut words: String) -> String {
    if words.len() > SHOWN_WIDTH {
        words.truncate(SHOWN_WIDTH);
        words += "..";
    }
    words
}
