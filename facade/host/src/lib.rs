//! The names of the standard library that programs use: those of `plain-std`, and files, standard streams, clocks and the words of the command line, by
//! Rust's own std.
#![no_std]

extern crate std as rust;

pub use base::{alloc, boxed, cell, cmp, collections, convert, error, fmt, fs, hash, hint, io, marker, mem, num, ptr, rust_core, rust_test, str, string, test, time, vec};
pub use base::{assert, assert_eq, assert_ne, eprint, eprintln, format, print, println};
pub use base::{debug_assert, debug_assert_eq, matches, panic, todo, unimplemented, unreachable, write, writeln};

pub mod env;
mod files;
pub mod process;
mod streams;

/// The names that each module has.
pub mod prelude {
    /// The names of edition 2024.
    pub mod rust_2024 {
        pub use crate::process::HostRuntime;
        pub use base::prelude::shared::*;
    }
}
