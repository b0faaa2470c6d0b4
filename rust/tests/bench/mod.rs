//! Bench files played through the archive by two devices at once: one by the raw calls, with guards around everything
//! that is lent ([`guarded`]), one by the safe wrapper ([`wrapped`]). After every event they have to agree in all bytes.
//!
//! What is tested besides the lines of a bench file:
//!   - bytes of the packet buffer after those sent, and of a destination after those read, are as they were;
//!   - so are sources, offered packets, and the bytes around everything that was lent;
//!   - no call changes the IO buffer after what it can have written, and a call that only reads it changes nothing in it;
//!   - packet size, IO buffer length and max LUN in the record stay those of the creation, residue and status byte those of
//!     the last status;
//!   - a refusal with 3, 10, 11 or 12 leaves record, IO buffer, packet buffer and destination as they were;
//!   - a part that a result does not give is 0;
//!   - with answer 1 the bytes missing are those wanted less those free in the IO buffer, and with others none are missing;
//!   - the plain command step and decoder say what those that are told say with extended addressing on; and what is told counts
//!     for blocks of 88 and 8A with 14 bytes and for no others.
//!
//! Every few hundred events [`probes`] makes, on copies, calls that no bench file can make.
//!
//! The crate that has this module also has the oracle's `benchfile`.

pub mod guarded;
pub mod layout;
pub mod lent;
pub mod outcome;
pub mod play;
pub mod probes;
pub mod replica;
pub mod rules;
pub mod tellings;
pub mod wrapped;

/// What is wrong, in words; the caller that plays the file adds where.
pub type Checked<T = ()> = Result<T, String>;

pub fn require(holds: bool, otherwise: &str) -> Checked {
    if holds {
        Ok(())
    } else {
        Err(otherwise.to_string())
    }
}
