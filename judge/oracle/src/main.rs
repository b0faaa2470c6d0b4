//! The commands of the oracle, as judge/oracle/README.md names them.

use oracle::lines::Detail;
use oracle::{
    bufferops, codecinputs, codecs, decode, demandfaults, demandrun, diff, generator, lines,
    panics, selftest, vectors,
};
use std::io::{self, BufRead, Read, Write};
use std::process::ExitCode;

const USAGE: &str = "unknown arguments; judge/oracle/README.md names them";

fn main() -> ExitCode {
    panics::install();
    let arguments: Vec<String> = std::env::args().skip(1).collect();
    let (flags, words): (Vec<&str>, Vec<&str>) = arguments
        .iter()
        .map(String::as_str)
        .partition(|word| word.starts_with("--"));
    match command(&words, &flags) {
        Ok(code) => code,
        Err(error) => {
            eprintln!("oracle: {error}");
            ExitCode::FAILURE
        }
    }
}

fn command(words: &[&str], flags: &[&str]) -> io::Result<ExitCode> {
    match (words, flags) {
        (["run", file @ ..], []) if file.len() < 2 => run(file.first(), Detail::Lines)?,
        (["run", file @ ..], ["--show"]) if file.len() < 2 => run(file.first(), Detail::Show)?,
        (["run", files @ ..], ["--each"]) => run_each(files, Detail::Lines)?,
        (["run", files @ ..], ["--each", "--show"] | ["--show", "--each"]) => {
            run_each(files, Detail::Show)?;
        }
        (["run"], ["--decode"]) => by_line(decode::answer)?,
        (["run"], ["--parse"]) => by_line(codecs::parse)?,
        (["run"], ["--status"]) => by_line(codecs::status)?,
        (["gen", of @ ..], flags) => return generate(of, flags),
        (["vectors", folder], []) => vectors::write(folder)?,
        (["diff", events, seed, folder, program @ ..], []) if !program.is_empty() => {
            return diff::command(number(events)?, number(seed)?, folder, program);
        }
        (["demand", "random", events, seed, folder, program @ ..], []) if !program.is_empty() => {
            return demandrun::random(number(events)?, number(seed)?, folder, program);
        }
        (["demand", "read", files @ ..], []) if !files.is_empty() => {
            return demandrun::files(files, false);
        }
        (["demand", "read", files @ ..], ["--list"]) if !files.is_empty() => {
            return demandrun::files(files, true);
        }
        (["demand", "faults", files @ ..], []) => return demandfaults::command(files),
        (["buffer-ops", seed, count, operations, results], []) => {
            bufferops::command(number(seed)?, number(count)? as usize, operations, results)?;
        }
        (["codec-inputs", seed, folder], []) => codecinputs::write(number(seed)?, folder)?,
        (["selftest"], []) => selftest::names().for_each(|name| println!("{name}")),
        (["selftest", name], []) => selftest::run(name),
        _ => return Err(io::Error::other(USAGE)),
    }
    Ok(ExitCode::SUCCESS)
}

fn run(file: Option<&&str>, detail: Detail) -> io::Result<()> {
    let mut bytes = Vec::new();
    match file {
        None | Some(&"-") => io::stdin().lock().read_to_end(&mut bytes)?,
        Some(path) => std::fs::File::open(path)?.read_to_end(&mut bytes)?,
    };
    let text = lines::of_file(&bytes, detail, &mut |_| {});
    io::stdout().lock().write_all(text.as_bytes())
}

/// The same for many files in one process; a line with its name comes before each.
fn run_each(files: &[&str], detail: Detail) -> io::Result<()> {
    let mut output = io::BufWriter::new(io::stdout().lock());
    for path in files {
        let text = lines::of_file(&std::fs::read(path)?, detail, &mut |_| {});
        write!(output, "== {path}\n{text}")?;
    }
    output.flush()
}

/// One line of standard output for each line of standard input.
fn by_line(answer: fn(&str) -> String) -> io::Result<()> {
    let mut output = io::BufWriter::new(io::stdout().lock());
    for line in io::stdin().lock().lines() {
        writeln!(output, "{}", answer(line?.trim()))?;
    }
    output.flush()
}

fn generate(of: &[&str], flags: &[&str]) -> io::Result<ExitCode> {
    let (list, complete) = (flags.contains(&"--list"), flags.contains(&"--complete"));
    if flags
        .iter()
        .any(|flag| !["--list", "--complete"].contains(flag))
        || of.len() > 3
    {
        return Err(io::Error::other(USAGE));
    }
    let seed = of.first().map_or(Ok(1), |seed| number(seed))?;
    let count = match of.get(1) {
        Some(count) => number(count)? as usize,
        None => generator::DEFAULT_COUNT,
    };
    let coverage = generator::command(seed, count, of.get(2).copied(), list)?;
    let enough = if complete {
        coverage.missing().is_empty()
    } else {
        coverage.has_chains_and_answers()
    };
    Ok(if enough {
        ExitCode::SUCCESS
    } else {
        ExitCode::FAILURE
    })
}

fn number(word: &str) -> io::Result<u64> {
    word.parse()
        .map_err(|_| io::Error::other(format!("{USAGE} ({word} is no number)")))
}
