//! Random bench files. The Rust device runs while its next event is chosen. So the choice can look at
//! the state, the marks and the count left, and reach what few random events would reach.
//!
//! A file depends on the seed and on the files before it, not on how many are asked for.

use crate::benchfile::{self, Event};
use crate::coverage::{Coverage, Key};
use crate::damage;
use crate::firmware::{self, Firmware};
use crate::host::Host;
use crate::lines::{self, Detail, Run, Step};
use crate::reachable::{BUFFERS, PACKET_SIZES};
use crate::reached;
use crate::rng::Rng;
use crate::temper::Temper;
use std::io::{self, Write};

pub const DEFAULT_COUNT: usize = 1_000;

/// How often there is a file that breaks a rule of the bench file, one with a refused creation, and a
/// tour. In a tour nothing goes wrong and command follows command, to reach many opcodes.
const DAMAGED_EVERY: usize = 8;
const REFUSED_EVERY: usize = 25;
const TOUR_EVERY: usize = 3;

/// Room for the trailer and a little more.
const LONGEST_FILE: usize = benchfile::LONGEST - 16;

pub struct Generator {
    rng: Rng,
    /// What command steps are told comes from here, so that nothing else in a file depends on it.
    tellings: Rng,
    files: usize,
    /// Command blocks that no step has shown yet, by opcode and length.
    unshown: Vec<(u8, usize)>,
    pub coverage: Coverage,
}

/// One file, the Rust's lines for it, and what each of its events reached.
pub struct Made {
    pub file: Vec<u8>,
    pub text: String,
    pub events: Vec<Event>,
    pub reached: Vec<Vec<Key>>,
}

impl Generator {
    pub fn new(seed: u64) -> Generator {
        Generator {
            rng: Rng::new(seed),
            tellings: Rng::new(!seed),
            files: 0,
            unshown: (1..=16)
                .flat_map(|length| (0..=255).map(move |opcode| (opcode, length)))
                .collect(),
            coverage: Coverage::new(),
        }
    }

    pub fn next_file(&mut self) -> Made {
        let index = self.files;
        self.files += 1;
        let made = if index % DAMAGED_EVERY == DAMAGED_EVERY - 1 {
            self.damaged(index / DAMAGED_EVERY)
        } else if index % REFUSED_EVERY == REFUSED_EVERY - 1 {
            let creation = self.refused_creation(index / REFUSED_EVERY);
            self.run(creation, Temper::calm(), 1)
        } else if index % TOUR_EVERY == TOUR_EVERY - 1 {
            let creation = self.creation(index / TOUR_EVERY);
            self.run(creation, Temper::calm(), 200)
        } else {
            let creation = self.creation(index);
            let temper = Temper::some(&mut self.rng);
            let events = self.rng.pick(&[12, 30, 60, 120, 200]);
            self.run(creation, temper, events)
        };
        for keys in &made.reached {
            self.coverage.add(keys);
        }
        made
    }

    fn damaged(&mut self, index: usize) -> Made {
        let (rule, damage) = damage::RULES[index % damage::RULES.len()];
        let mut events = vec![self.creation(index)];
        for _ in 0..self.rng.between(1, 4) {
            events.push(self.stray());
        }
        let file = damage(&events);
        Made {
            text: refused(rule, &file),
            file,
            events: Vec::new(),
            reached: vec![reached::by_damage(rule)],
        }
    }

    /// Each P in turn, with one of the listed buffers or some other that is good.
    fn creation(&mut self, index: usize) -> Event {
        let packet_size = PACKET_SIZES[index % 4];
        let fitting = |buffer: &u32| *buffer >= 31 && *buffer as usize >= packet_size;
        let listed: Vec<u32> = BUFFERS.into_iter().filter(fitting).collect();
        let buffer = if self.rng.percent(75) {
            self.rng.pick(&listed)
        } else {
            self.rng.between(packet_size.max(31), 200) as u32
        };
        Event::Create {
            packet_size: packet_size as u16,
            max_lun: self.rng.pick(&[0, 0, 1, 3, 15]),
            buffer,
        }
    }

    fn refused_creation(&self, index: usize) -> Event {
        const REFUSED: [(u16, u8, u32); 14] = [
            (32, 0, 31),
            (64, 0, 31),
            (64, 0, 32),
            (64, 0, 63),
            (8, 16, 0),
            (8, 255, 64),
            (8, 0, 30),
            (24, 0, 64),
            (0, 0, 31),
            (24, 0, 65_537),
            (64, 15, 65_537),
            (8, 0, u32::MAX),
            (65_535, 0, 65_535),
            (65_535, 0, 65_534),
        ];
        let (packet_size, max_lun, buffer) = REFUSED[index % REFUSED.len()];
        Event::Create {
            packet_size,
            max_lun,
            buffer,
        }
    }

    fn run(&mut self, creation: Event, temper: Temper, longest: usize) -> Made {
        let allocator = lines::allocator();
        let mut run = Run::new(&allocator, Detail::Lines);
        let mut made = Made {
            file: Vec::new(),
            text: String::new(),
            events: Vec::new(),
            reached: Vec::new(),
        };
        let mut firmware = Firmware::new(temper);
        let mut host = Host::default();
        let mut bytes = 0;
        let mut next = Some(creation);
        while let Some(event) = next {
            bytes += 3 + event.payload().len();
            if bytes > LONGEST_FILE {
                break;
            }
            run.step(&event, &mut |step| {
                made.reached.push(reached::by_step(&step));
                host.saw(&step);
                firmware.saw(&step);
                self.cross_out(&step);
            });
            made.events.push(event);
            let Some(device) = run.device() else {
                // Refused. Later events are judged with the file and not run.
                made.events.push(self.stray());
                break;
            };
            let now = device.figures();
            next = if made.events.len() < longest {
                let event = firmware.next_event(&now, &mut host, &mut self.rng, &self.unshown);
                event.map(|event| self.told(event))
            } else {
                None
            };
        }
        made.file = benchfile::encode(&made.events);
        made.text = run.text;
        made
    }

    fn cross_out(&mut self, step: &Step) {
        if let (Event::Command { .. }, [_, block @ ..]) = (step.event, &step.outcome.bytes[..]) {
            self.unshown.retain(|pair| *pair != (block[0], block.len()));
        }
    }

    fn stray(&mut self) -> Event {
        let event = firmware::stray(&mut self.rng, 64);
        self.told(event)
    }

    /// Of three command steps one carries nothing, one 0 and one 1.
    fn told(&mut self, event: Event) -> Event {
        match event {
            Event::Command { .. } => Event::Command {
                told: self.tellings.pick(&[None, Some(false), Some(true)]),
            },
            event => event,
        }
    }
}

/// The lines of a file that breaks this rule.
pub fn refused(rule: &str, file: &[u8]) -> String {
    let text = lines::of_file(file, Detail::Lines, &mut |_| {});
    assert_eq!(text, "14\n", "LOUD: a damaged file was taken: {rule}");
    text
}

/// `judge/oracle/gen`: makes the files, writes them if a folder is given, and tells what they reached.
pub fn command(seed: u64, count: usize, folder: Option<&str>, list: bool) -> io::Result<Coverage> {
    let mut generator = Generator::new(seed);
    let mut events = 0;
    if let Some(folder) = folder {
        std::fs::create_dir_all(folder)?;
    }
    for index in 0..count {
        let made = generator.next_file();
        events += made.events.len();
        if let Some(folder) = folder {
            let name = format!("{folder}/{seed}-{index:04}");
            std::fs::write(format!("{name}.bot"), &made.file)?;
            std::fs::write(format!("{name}.out"), &made.text)?;
        }
    }
    let report = generator.coverage.report(list);
    let text = format!("seed {seed}: {count} files, {events} events\n{report}");
    io::stdout().lock().write_all(text.as_bytes())?;
    Ok(generator.coverage)
}
