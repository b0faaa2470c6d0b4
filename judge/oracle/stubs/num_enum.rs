//! The part of the crate `num_enum` that docs/src names: one trait and its derive, for `repr(u8)`.

pub use num_enum_derive::TryFromPrimitive;

#[derive(Debug)]
pub struct TryFromPrimitiveError;

pub trait TryFromPrimitive: Sized {
    fn try_from_primitive(number: u8) -> Result<Self, TryFromPrimitiveError>;
}
