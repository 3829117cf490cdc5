//! Writes the crates as members of the workspace. Cargo has read the workspace by then, so that a new crate waits for the next call.
use std::error::Error;
use std::path::Path;

fn main() -> Result<(), Box<dyn Error>> {
    let top = Path::new(env!("CARGO_MANIFEST_DIR")).ancestors().nth(2).ok_or("a checkout")?;
    println!("cargo::rerun-if-changed={}", top.join("crates.txt").display());
    println!("cargo::rerun-if-changed={}", top.join("out/rust/lagffi/Cargo.toml").display());
    if !eraser::write_workspace(top)? {
        println!("cargo::warning=out/rust has the crates now: the same command, given again, builds them");
    }
    Ok(())
}
