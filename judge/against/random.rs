//! Files of the oracle's generator.

use crate::bench::play::Tally;
use crate::bench::{Checked, require};
use crate::compare;
use oracle::generator::{self, Generator, Made};

/// Whole seeds, until this many events are compared.
pub fn compare(events: &str, seed: &str) -> Checked {
    let number = |word: &str| {
        word.parse::<u64>()
            .map_err(|_| format!("{word} is no number"))
    };
    let (enough, mut seed) = (number(events)?, number(seed)?);
    let mut tally = Tally::default();
    while (tally.events as u64) < enough {
        compare_seed(seed, &mut tally)?;
        println!("seed {seed}: {} events so far", tally.events);
        seed += 1;
    }
    println!("{}", compare::summary(&tally));
    Ok(())
}

fn compare_made(made: &Made, tally: &mut Tally) -> Checked {
    let text = compare::file(&made.events, tally)?;
    require(
        text == made.text,
        "the lines are not those of the file's making",
    )
}

/// Keeps the file next to this program, for `judge/oracle/run --show`.
fn keep(file: &[u8]) -> String {
    let written = std::env::current_exe().and_then(|program| {
        let path = program.with_file_name("different.bot");
        std::fs::write(&path, file).map(|()| path)
    });
    match written {
        Ok(path) => format!("the file is kept as {}", path.display()),
        Err(error) => format!("the file could not be kept: {error}"),
    }
}

fn compare_seed(seed: u64, tally: &mut Tally) -> Checked {
    let mut generator = Generator::new(seed);
    for index in 0..generator::DEFAULT_COUNT {
        let made = generator.next_file();
        // A file that breaks a rule of the bench file has no events, so there is nothing to play.
        if made.text == "14\n" {
            continue;
        }
        compare_made(&made, tally).map_err(|what| {
            let kept = keep(&made.file);
            format!("seed {seed}, file {index}, {what}\n{kept}")
        })?;
    }
    Ok(())
}
