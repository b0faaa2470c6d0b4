//! The archive's calls on numbers and byte slices, as C sees them, but with each pointer and its length as one slice.
//!
//! Every function is only the call itself, so it costs nothing more. Nothing is interpreted here. The results are the archive's
//! own numbers; [`Word`] takes a 64-bit result apart. Firmware does not need this module. It is for tests, which lend records of
//! any bytes and any length.

/// The six numbers of a decoded command: which one, then its fields.
pub const COMMAND_NUMBERS: usize = 6;

/// A result of 64 bits.
#[derive(Clone, Copy, PartialEq, Eq, Debug)]
pub struct Word(pub u64);

impl Word {
    /// The answer's number.
    pub fn answer(self) -> u8 {
        self.byte(0)
    }

    /// A poll's endpoint error with answer 7; the LUN of a command and a command step.
    pub fn carried(self) -> u8 {
        self.byte(1)
    }

    pub fn stalls(self) -> u8 {
        self.byte(2)
    }

    /// OUT packets that a poll took; for control, command and command step: 1 if there is something to tell.
    pub fn flag(self) -> u8 {
        self.byte(3)
    }

    /// Bytes sent, read or written; the byte that control answers; a command's block length. With answer 1 nothing was sent or
    /// written, and the upper half has another number: [`Word::missing`].
    pub fn count(self) -> u32 {
        if self.is_overflow() {
            0
        } else {
            self.upper_half()
        }
    }

    /// With answer 1 the bytes of room that are missing, with every other answer 0.
    pub fn missing(self) -> u32 {
        if self.is_overflow() {
            self.upper_half()
        } else {
            0
        }
    }

    fn is_overflow(self) -> bool {
        self.answer() == 1
    }

    fn upper_half(self) -> u32 {
        (self.0 >> 32) as u32
    }

    fn byte(self, index: u32) -> u8 {
        (self.0 >> (8 * index)) as u8
    }
}

mod archive {
    // Each slice is two arguments: its pointer and its length. Where a length has 32 bits, the symbol says so: an archive with
    // lengths of another width lacks it, and is refused by the linker.
    unsafe extern "C" {
        #[cfg_attr(target_pointer_width = "32", link_name = "souk_create_size32")]
        pub fn souk_create(
            record: *mut u8,
            record_len: usize,
            packet_size: u32,
            max_lun: u8,
            size: u32,
        ) -> u32;
        #[cfg_attr(target_pointer_width = "32", link_name = "souk_poll_size32")]
        pub fn souk_poll(
            record: *mut u8,
            record_len: usize,
            io: *mut u8,
            io_len: usize,
            packet: *mut u8,
            packet_len: usize,
            one: *const u8,
            one_len: usize,
            two: *const u8,
            two_len: usize,
            first: u8,
            second: u8,
            write: u8,
        ) -> u64;
        #[cfg_attr(target_pointer_width = "32", link_name = "souk_set_status_size32")]
        pub fn souk_set_status(
            record: *mut u8,
            record_len: usize,
            io: *const u8,
            io_len: usize,
            status: u8,
            figure: u32,
        ) -> u32;
        #[cfg_attr(target_pointer_width = "32", link_name = "souk_read_data_size32")]
        pub fn souk_read_data(
            record: *mut u8,
            record_len: usize,
            io: *const u8,
            io_len: usize,
            dst: *mut u8,
            dst_len: usize,
        ) -> u64;
        #[cfg_attr(target_pointer_width = "32", link_name = "souk_write_data_size32")]
        pub fn souk_write_data(
            record: *mut u8,
            record_len: usize,
            io: *mut u8,
            io_len: usize,
            src: *const u8,
            src_len: usize,
        ) -> u64;
        #[cfg_attr(
            target_pointer_width = "32",
            link_name = "souk_try_write_data_all_size32"
        )]
        pub fn souk_try_write_data_all(
            record: *mut u8,
            record_len: usize,
            io: *mut u8,
            io_len: usize,
            src: *const u8,
            src_len: usize,
        ) -> u64;
        #[cfg_attr(target_pointer_width = "32", link_name = "souk_reset_size32")]
        pub fn souk_reset(record: *mut u8, record_len: usize, io: *const u8, io_len: usize) -> u64;
        #[cfg_attr(target_pointer_width = "32", link_name = "souk_control_size32")]
        pub fn souk_control(
            record: *mut u8,
            record_len: usize,
            io: *const u8,
            io_len: usize,
            request_type: u8,
            request: u8,
        ) -> u64;
        #[cfg_attr(target_pointer_width = "32", link_name = "souk_command_size32")]
        pub fn souk_command(
            record: *const u8,
            record_len: usize,
            io: *const u8,
            io_len: usize,
            block: *mut u8,
            block_len: usize,
        ) -> u64;
        #[cfg_attr(target_pointer_width = "32", link_name = "souk_command_step_size32")]
        pub fn souk_command_step(
            record: *const u8,
            record_len: usize,
            io: *const u8,
            io_len: usize,
            command: *mut u64,
            command_len: usize,
        ) -> u64;
        #[cfg_attr(
            target_pointer_width = "32",
            link_name = "souk_command_step_told_size32"
        )]
        pub fn souk_command_step_told(
            record: *const u8,
            record_len: usize,
            io: *const u8,
            io_len: usize,
            extended: u32,
            command: *mut u64,
            command_len: usize,
        ) -> u64;
        #[cfg_attr(target_pointer_width = "32", link_name = "souk_decode_size32")]
        pub fn souk_decode(
            block: *const u8,
            block_len: usize,
            command: *mut u64,
            command_len: usize,
        ) -> u32;
        #[cfg_attr(target_pointer_width = "32", link_name = "souk_decode_told_size32")]
        pub fn souk_decode_told(
            block: *const u8,
            block_len: usize,
            extended: u32,
            command: *mut u64,
            command_len: usize,
        ) -> u32;
        #[cfg_attr(target_pointer_width = "32", link_name = "souk_verdict_size32")]
        pub fn souk_verdict(message: *const u8, message_len: usize, max_lun: u8) -> u32;
    }
}

// SAFETY, for every call below: each pointer with its length comes from one Rust slice, so that many elements are there,
// aligned and initialised, for as long as the call runs. What is written comes from `&mut`, so no other slice of the call
// overlaps it. The archive keeps no pointer, and it is proved to stay inside these bounds whatever the bytes are: bytes that
// are no record get an answer that refuses them.

#[inline]
pub fn create(record: &mut [u8], packet_size: u32, max_lun: u8, size: u32) -> u32 {
    // SAFETY: as above.
    unsafe {
        archive::souk_create(
            record.as_mut_ptr(),
            record.len(),
            packet_size,
            max_lun,
            size,
        )
    }
}

/// What the endpoints would answer to a poll: 0 does its part, 1 is busy, others are errors.
#[derive(Clone, Copy, PartialEq, Eq, Debug)]
pub struct Turn<'p> {
    pub one: &'p [u8],
    pub two: &'p [u8],
    pub first: u8,
    pub second: u8,
    pub write: u8,
}

#[inline]
pub fn poll(record: &mut [u8], io: &mut [u8], packet: &mut [u8], turn: Turn) -> Word {
    // SAFETY: as above.
    Word(unsafe {
        archive::souk_poll(
            record.as_mut_ptr(),
            record.len(),
            io.as_mut_ptr(),
            io.len(),
            packet.as_mut_ptr(),
            packet.len(),
            turn.one.as_ptr(),
            turn.one.len(),
            turn.two.as_ptr(),
            turn.two.len(),
            turn.first,
            turn.second,
            turn.write,
        )
    })
}

#[inline]
pub fn set_status(record: &mut [u8], io: &[u8], status: u8, figure: u32) -> u32 {
    // SAFETY: as above.
    unsafe {
        archive::souk_set_status(
            record.as_mut_ptr(),
            record.len(),
            io.as_ptr(),
            io.len(),
            status,
            figure,
        )
    }
}

#[inline]
pub fn read_data(record: &mut [u8], io: &[u8], destination: &mut [u8]) -> Word {
    // SAFETY: as above.
    Word(unsafe {
        archive::souk_read_data(
            record.as_mut_ptr(),
            record.len(),
            io.as_ptr(),
            io.len(),
            destination.as_mut_ptr(),
            destination.len(),
        )
    })
}

#[inline]
pub fn write_data(record: &mut [u8], io: &mut [u8], source: &[u8]) -> Word {
    // SAFETY: as above.
    Word(unsafe {
        archive::souk_write_data(
            record.as_mut_ptr(),
            record.len(),
            io.as_mut_ptr(),
            io.len(),
            source.as_ptr(),
            source.len(),
        )
    })
}

#[inline]
pub fn try_write_data_all(record: &mut [u8], io: &mut [u8], source: &[u8]) -> Word {
    // SAFETY: as above.
    Word(unsafe {
        archive::souk_try_write_data_all(
            record.as_mut_ptr(),
            record.len(),
            io.as_mut_ptr(),
            io.len(),
            source.as_ptr(),
            source.len(),
        )
    })
}

#[inline]
pub fn reset(record: &mut [u8], io: &[u8]) -> Word {
    // SAFETY: as above.
    Word(unsafe { archive::souk_reset(record.as_mut_ptr(), record.len(), io.as_ptr(), io.len()) })
}

#[inline]
pub fn control(record: &mut [u8], io: &[u8], request_type: u8, request: u8) -> Word {
    // SAFETY: as above.
    Word(unsafe {
        archive::souk_control(
            record.as_mut_ptr(),
            record.len(),
            io.as_ptr(),
            io.len(),
            request_type,
            request,
        )
    })
}

#[inline]
pub fn command(record: &[u8], io: &[u8], block: &mut [u8]) -> Word {
    // SAFETY: as above.
    Word(unsafe {
        archive::souk_command(
            record.as_ptr(),
            record.len(),
            io.as_ptr(),
            io.len(),
            block.as_mut_ptr(),
            block.len(),
        )
    })
}

#[inline]
pub fn command_step(record: &[u8], io: &[u8], command: &mut [u64]) -> Word {
    // SAFETY: as above.
    Word(unsafe {
        archive::souk_command_step(
            record.as_ptr(),
            record.len(),
            io.as_ptr(),
            io.len(),
            command.as_mut_ptr(),
            command.len(),
        )
    })
}

#[inline]
pub fn command_step_told(record: &[u8], io: &[u8], extended: u32, command: &mut [u64]) -> Word {
    // SAFETY: as above.
    Word(unsafe {
        archive::souk_command_step_told(
            record.as_ptr(),
            record.len(),
            io.as_ptr(),
            io.len(),
            extended,
            command.as_mut_ptr(),
            command.len(),
        )
    })
}

#[inline]
pub fn decode(block: &[u8], command: &mut [u64]) -> u32 {
    // SAFETY: as above.
    unsafe {
        archive::souk_decode(
            block.as_ptr(),
            block.len(),
            command.as_mut_ptr(),
            command.len(),
        )
    }
}

#[inline]
pub fn decode_told(block: &[u8], extended: u32, command: &mut [u64]) -> u32 {
    // SAFETY: as above.
    unsafe {
        archive::souk_decode_told(
            block.as_ptr(),
            block.len(),
            extended,
            command.as_mut_ptr(),
            command.len(),
        )
    }
}

#[inline]
pub fn verdict(message: &[u8], max_lun: u8) -> u32 {
    // SAFETY: as above.
    unsafe { archive::souk_verdict(message.as_ptr(), message.len(), max_lun) }
}
