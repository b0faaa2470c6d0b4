//! What is noted about a run.

pub trait Watch {
    /// A poll's answer, and what it sent.
    fn polled(&mut self, answer: u8, sent: &[u8]);
    /// What the firmware read.
    fn read(&mut self, bytes: &[u8]);
}

/// It costs almost no time, but it needs the result of every call, so that no call can be left out.
#[derive(Default)]
pub struct Light {
    sum: u64,
}

impl Watch for Light {
    fn polled(&mut self, answer: u8, sent: &[u8]) {
        let first = sent.first().copied().unwrap_or(0);
        self.sum += u64::from(answer) + u64::from(first) + sent.len() as u64;
    }

    fn read(&mut self, bytes: &[u8]) {
        self.sum += u64::from(bytes[0]) + bytes.len() as u64;
    }
}

/// A sum over every byte and every answer, in order.
#[derive(Default, PartialEq, Eq, Debug)]
pub struct All {
    polls: u64,
    bytes: u64,
    sum: u64,
}

impl All {
    fn add(&mut self, byte: u8) {
        // FNV-1a's step.
        self.sum = (self.sum ^ u64::from(byte)).wrapping_mul(0x0000_0100_0000_01B3);
    }
}

impl Watch for All {
    fn polled(&mut self, answer: u8, sent: &[u8]) {
        self.polls += 1;
        self.add(answer);
        self.read(sent);
    }

    fn read(&mut self, bytes: &[u8]) {
        self.bytes += bytes.len() as u64;
        bytes.iter().for_each(|byte| self.add(*byte));
    }
}
