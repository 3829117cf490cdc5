//! The names of the standard library that the proved sources use, for stock Rust: what allocates takes an allocator and can be refused, and nothing
//! here aborts where memory is refused. Each is Rust's own function or type behind the name and the signature that the sources have.
//!
//! It wants `core` and `alloc` alone. What programs use beside, of files, streams and clocks, has its traits here; `plain-host` has it for Rust's own std.
#![no_std]

extern crate alloc as heap;

pub use core::prelude::v1::test as rust_test;
#[doc(hidden)]
pub use core as rust_core;

pub use core::{cell, cmp, error, fmt, hash, hint, mem, num, ptr, str};

pub mod alloc;
pub mod boxed;
pub mod collections;
pub mod convert;
pub mod fs;
pub mod io;
mod macros;
pub mod marker;
pub mod process;
pub mod string;
pub mod test;
pub mod time;
pub mod vec;

/// The names that each module has. The compiler imports `std::prelude::rust_2024` of the crate that is named `std`, and its macros.
pub mod prelude {
    /// The names of edition 2024.
    pub mod rust_2024 {
        pub use super::shared::*;
        pub use crate::process::HostRuntime;
    }

    /// The names that programs have, too.
    #[doc(hidden)]
    pub mod shared {
        pub use core::prelude::rust_2024::*;

        pub use crate::boxed::Box;
        pub use crate::fmt::Write as _;
        pub use crate::io::{Eprint, Input, Print};
        pub use crate::marker::Drop;
        pub use crate::process::AllocGlobal;
        pub use crate::string::String;
        pub use crate::vec::Vec;
        pub use crate::{assert, assert_eq, assert_ne, eprint, eprintln, format, print, println, vec};
        pub use core::{debug_assert, debug_assert_eq, matches, panic, todo, unimplemented, unreachable, write, writeln};
        pub use plain_macros::{Drop, test};
    }
}

pub use core::{debug_assert, debug_assert_eq, matches, panic, todo, unimplemented, unreachable, write, writeln};
