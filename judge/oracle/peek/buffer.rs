//! Shows what is private in buffer.rs. The build appends this module after the unchanged text.

use super::Buffer;
use core::borrow::BorrowMut;

impl<T: BorrowMut<[u8]>> Buffer<T> {
    pub fn peek_bytes(&self) -> &[u8] {
        self.inner.borrow()
    }

    /// Read mark, then write mark.
    pub fn peek_marks(&self) -> (usize, usize) {
        (self.rpos, self.wpos)
    }

    pub fn peek_shift(&mut self) {
        self.shift();
    }

    /// How many bytes of room were missing for a `write_all` of this many that was refused. The Rust does not say it; the
    /// marks that it left after the move do.
    pub fn peek_missing(&self, wanted: usize) -> usize {
        let room = self.inner.borrow().len() - self.available_read();
        assert!(wanted > room, "LOUD: an overflow with room enough");
        wanted - room
    }
}
