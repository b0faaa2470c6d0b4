//! Memory that is lent to a call, between two rows of guards that no call may touch.

use std::hint::black_box;

const GUARD: usize = 16;

pub struct Lent<T = u8> {
    all: Vec<T>,
    guard: T,
}

impl<T: Copy + PartialEq> Lent<T> {
    /// This many elements; they and the guards have this value.
    pub fn filled(length: usize, value: T) -> Lent<T> {
        Lent {
            all: vec![value; length + 2 * GUARD],
            guard: value,
        }
    }

    pub fn copy_of(elements: &[T], guard: T) -> Lent<T> {
        let mut lent = Lent::filled(elements.len(), guard);
        lent.all_mut().copy_from_slice(elements);
        lent
    }

    pub fn all(&self) -> &[T] {
        // The compiler may assume that a call keeps to the slice that it got; here it must not assume that.
        let all = black_box(&self.all[..]);
        &all[GUARD..all.len() - GUARD]
    }

    pub fn all_mut(&mut self) -> &mut [T] {
        let end = self.all.len() - GUARD;
        &mut self.all[GUARD..end]
    }

    pub fn guards_stand(&self) -> bool {
        let all = black_box(&self.all[..]);
        let (before, behind) = (&all[..GUARD], &all[all.len() - GUARD..]);
        before.iter().chain(behind).all(|byte| *byte == self.guard)
    }

    /// Whether elements and guards from here on have the value that all had at first.
    pub fn untouched_from(&self, from: usize) -> bool {
        self.guards_stand() && self.all()[from..].iter().all(|byte| *byte == self.guard)
    }
}
