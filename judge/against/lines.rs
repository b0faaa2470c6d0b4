//! Decoder and verdict: an answer for each line of standard input.

use crate::bench::{Checked, tellings};
use crate::words;
use souklavanh::verdict;
use std::io::{BufRead, Write};

pub fn answer(answer: impl Fn(&str) -> Checked<String>) -> Checked {
    let mut output = std::io::BufWriter::new(std::io::stdout().lock());
    for line in std::io::stdin().lock().lines() {
        let line = line.map_err(|error| error.to_string())?;
        writeln!(output, "{}", answer(&line)?).map_err(|error| error.to_string())?;
    }
    output.flush().map_err(|error| error.to_string())
}

/// Told as the Rust was built.
pub fn decoded(line: &str) -> Checked<String> {
    let block = oracle::lines::from_hex(line);
    let told = tellings::decoded(&block, oracle::decode::is_extended())
        .map_err(|what| format!("{line}: {what}"))?;
    Ok(told.map_or("13".to_string(), |command| words::of(&command)))
}

pub fn judged(line: &str) -> Checked<String> {
    let parts = line.split_once(' ');
    let Some((Ok(max_lun), digits)) = parts.map(|(word, digits)| (word.parse(), digits)) else {
        return Err(format!("this is no max LUN and message: {line}"));
    };
    let verdict = verdict(&oracle::lines::from_hex(digits), max_lun);
    Ok((verdict as u8).to_string())
}
