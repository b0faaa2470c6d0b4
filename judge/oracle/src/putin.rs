//! How many bytes the firmware has put in since the wrapper. The Rust has no such count: this one is taken from its marks, its
//! states and its endpoints, before and after each event.

use crate::benchfile::Event;
use crate::device::Outcome;
use usbd_storage::transport::bbb::peek::Figures;

/// It stops at the largest number.
#[derive(Clone, Copy, Default)]
pub struct PutIn(pub u32);

impl PutIn {
    /// The count behind one event more.
    pub fn after(
        self,
        event: &Event,
        before: &Figures,
        outcome: &Outcome,
        after: &Figures,
    ) -> PutIn {
        let enters = enters_0(before, outcome, after);
        let kept = if enters { PutIn(0) } else { self };
        // State 0 is left only with 31 bytes parsed, valid or not. No call puts anything in there, so the count is 0 already.
        if (before.state == 0 || enters) && after.state != 0 {
            assert_eq!(kept.0, 0, "LOUD: bytes put in before the wrapper");
        }
        match event {
            Event::WriteData(_) | Event::TryWriteDataAll(_) => {
                PutIn(kept.0.saturating_add(taken(before, outcome, after)))
            }
            _ => kept,
        }
    }
}

/// Where the Rust enters state 0 it unstalls both endpoints, and nowhere else; what is to be seen of the states has to fit.
fn enters_0(before: &Figures, outcome: &Outcome, after: &Figures) -> bool {
    let unstalls = outcome.stalls.starts_with('U');
    // Every way out of 3 goes through 0.
    let seen = before.state != 0 && after.state == 0 || before.state == 3 && after.state != 3;
    assert!(
        unstalls || !seen,
        "LOUD: state 0 was entered without an unstall"
    );
    unstalls
}

/// What a write call took, by the marks; it has to be what the call says.
fn taken(before: &Figures, outcome: &Outcome, after: &Figures) -> u32 {
    let rise = after.unread().checked_sub(before.unread());
    assert_eq!(
        rise,
        Some(outcome.count),
        "LOUD: a write call took another number of bytes than it says"
    );
    u32::try_from(outcome.count).unwrap_or(u32::MAX)
}
