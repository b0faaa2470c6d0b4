//! How long a block takes through the exported calls and through the Rust, in one process. `judge/readout/run` builds and
//! starts this program; docs/READOUT.md says what is measured.
//!
//!     time BLOCKS ROUNDS                       a line for each number of blocks in a command, packet size and direction: ns per
//!                                              block of both sides, their ratio, and how far their rounds lie apart
//!     run SIDE COMMAND P DIRECTION BLOCKS      one side alone, once, and nothing is printed: for counting instructions

mod cells;
mod exported;
mod original;
mod story;
mod watch;

use exported::Exported;
use std::process::ExitCode;
use std::time::Instant;
use story::{Direction, Story};
use watch::{All, Light, Watch};

/// Blocks in a command: one, and what a Linux host asks for at once.
const COMMANDS: [u32; 2] = [1, 240];
const PACKET_SIZES: [usize; 4] = [64, 32, 16, 8];
const DIRECTIONS: [Direction; 2] = [Direction::ToHost, Direction::FromHost];

fn main() -> ExitCode {
    let arguments: Vec<String> = std::env::args().skip(1).collect();
    let words: Vec<&str> = arguments.iter().map(String::as_str).collect();
    match command(&words) {
        Some(()) => ExitCode::SUCCESS,
        None => {
            eprintln!("unknown arguments; judge/readout/run names them");
            ExitCode::FAILURE
        }
    }
}

fn command(words: &[&str]) -> Option<()> {
    match words {
        ["time", blocks, rounds] => time(
            blocks.parse().ok()?,
            rounds.parse().ok().filter(|n| *n > 0)?,
        ),
        ["run", side, command, packet_size, direction, blocks] => {
            let story = Story {
                direction: DIRECTIONS
                    .into_iter()
                    .find(|known| known.name() == *direction)?,
                packet_size: packet_size.parse().ok()?,
                command: command.parse().ok().filter(|n| *n > 0)?,
                blocks: blocks.parse().ok()?,
            };
            run_one(side, &story)?;
        }
        _ => return None,
    }
    Some(())
}

fn run_one(side: &str, story: &Story) -> Option<()> {
    let mut watch = Light::default();
    match side {
        "exported" => by_exported(story, &mut watch),
        "original" => by_original(story, &mut watch),
        _ => return None,
    }
    std::hint::black_box(watch);
    Some(())
}

fn time(blocks: u32, rounds: usize) {
    for command in COMMANDS {
        for packet_size in PACKET_SIZES {
            for direction in DIRECTIONS {
                let story = Story {
                    direction,
                    packet_size,
                    command,
                    blocks,
                };
                require_same_bytes(&story);
                print_times(&story, rounds);
            }
        }
    }
}

fn print_times(story: &Story, rounds: usize) {
    let (exported, original) = times(story, rounds);
    println!(
        "command {:3}  P {:2}  {:9}  exported {:7.1} ns a block, original {:7.1}, ratio {:.3}, rounds within {:4.1} % and {:4.1} %",
        story.command,
        story.packet_size,
        story.direction.name(),
        exported.median,
        original.median,
        exported.median / original.median,
        exported.apart,
        original.apart,
    );
}

/// Without the clock: tests that both sides give the host and the firmware the same bytes and answers, all of them.
fn require_same_bytes(story: &Story) {
    let (mut exported, mut original) = (All::default(), All::default());
    by_exported(story, &mut exported);
    by_original(story, &mut original);
    assert_eq!(exported, original, "the two sides part");
}

/// What the rounds of one side come to.
struct Times {
    /// Nanoseconds per block.
    median: f64,
    /// How far the middle half of the rounds reaches, in per cent of the median: how steady the machine was.
    apart: f64,
}

impl Times {
    fn of(mut rounds: Vec<f64>, blocks: u32) -> Times {
        rounds.sort_by(f64::total_cmp);
        let part = |quarters: usize| rounds[(rounds.len() - 1) * quarters / 4];
        Times {
            median: part(2) / f64::from(blocks),
            apart: 100.0 * (part(3) - part(1)) / part(2),
        }
    }
}

/// Of the exported calls and of the Rust. The sides take turns, and they also take turns in being first.
fn times(story: &Story, rounds: usize) -> (Times, Times) {
    let (mut exported, mut original) = (Vec::new(), Vec::new());
    for round in 0..rounds {
        for turn in [round, round + 1] {
            if turn.is_multiple_of(2) {
                exported.push(timed(story, by_exported));
            } else {
                original.push(timed(story, by_original));
            }
        }
    }
    (
        Times::of(exported, story.blocks),
        Times::of(original, story.blocks),
    )
}

fn timed(story: &Story, run: fn(&Story, &mut Light)) -> f64 {
    let mut watch = Light::default();
    let began = Instant::now();
    run(story, &mut watch);
    let took = began.elapsed().as_nanos() as f64;
    std::hint::black_box(watch);
    took
}

fn by_exported(story: &Story, watch: &mut impl Watch) {
    let mut side = Exported::new(story.packet_size);
    story.run(&mut side, watch);
}

fn by_original(story: &Story, watch: &mut impl Watch) {
    let allocator = cells::allocator();
    let mut side = original::Original::new(&allocator, story.packet_size);
    story.run(&mut side, watch);
}
