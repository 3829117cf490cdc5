//! The program: Rust's `main` takes no runtime, so it makes the one that the program is given.
use std::process::{ExitCode, HostRuntime};

fn main() -> ExitCode {
    lagtool::main(HostRuntime::new())
}
