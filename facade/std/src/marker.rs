//! What a type is marked with.
pub use core::marker::*;

/// What the prover knows of a type; for Rust nothing.
pub trait Model {}

/// That a value can be dropped: each of Rust can.
pub trait Drop {}
impl<T: ?Sized> Drop for T {}
