//! Stands in the place of `std`, which the target does not have; so judge/oracle/stubs are compiled as they stand. It is `core`
//! and the one type of the stubs that `core` lacks: a `Vec` for answers to control requests, of which a read-out has none.
#![no_std]

pub use core::*;

pub struct Vec<T>(marker::PhantomData<T>);

impl<T> Vec<T> {
    pub fn extend_from_slice(&mut self, _: &[T]) {
        unreachable!("a read-out has no control requests")
    }
}

pub mod prelude {
    pub mod rust_2024 {
        pub use crate::Vec;
        pub use core::prelude::rust_2024::*;
    }
}
