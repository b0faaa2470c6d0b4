//! Two panics of the Rust are answers of document 01. Only these two are caught, and they are caught here.

use std::cell::Cell;
use std::panic::{AssertUnwindSafe, PanicHookInfo, catch_unwind, resume_unwind};

/// A panic that is an answer: where it stands in the Rust and how its message starts.
#[derive(Clone, Copy)]
pub struct AnswerPanic {
    file: &'static str,
    message: &'static str,
}

/// Answer 12: the assertion at the top of `set_status`.
pub const SET_STATUS: AnswerPanic = AnswerPanic {
    file: "usbd_storage/src/transport/bbb.rs",
    message: "assertion `left matches right` failed\n",
};

/// Answer 13: the debug assertion at the top of `parse_cb`.
pub const EMPTY_BLOCK: AnswerPanic = AnswerPanic {
    file: "usbd_storage/src/subclass/scsi.rs",
    message: "assertion failed: !cb.is_empty()",
};

thread_local! {
    static EXPECTED: Cell<Option<AnswerPanic>> = const { Cell::new(None) };
    static CAME: Cell<bool> = const { Cell::new(false) };
}

/// Keeps a panic silent only if it is the expected one.
pub fn install() {
    let loud = std::panic::take_hook();
    std::panic::set_hook(Box::new(move |info| {
        let came = EXPECTED.get().is_some_and(|expected| is(expected, info));
        CAME.set(came);
        if !came {
            loud(info);
        }
    }));
}

/// The call's result, or none if the call panicked exactly as expected. Any other panic goes on.
pub fn catch<T>(expected: AnswerPanic, call: impl FnOnce() -> T) -> Option<T> {
    EXPECTED.set(Some(expected));
    CAME.set(false);
    let result = catch_unwind(AssertUnwindSafe(call));
    EXPECTED.set(None);
    match result {
        Ok(value) => Some(value),
        Err(_) if CAME.take() => None,
        Err(foreign) => resume_unwind(foreign),
    }
}

fn is(expected: AnswerPanic, info: &PanicHookInfo) -> bool {
    let at_place = info
        .location()
        .is_some_and(|place| place.file().ends_with(expected.file));
    let says = info
        .payload_as_str()
        .is_some_and(|message| message.starts_with(expected.message));
    at_place && says
}
