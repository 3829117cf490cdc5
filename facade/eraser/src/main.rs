//! `erase` writes out/rust, the crates as members of the workspace; `erase FOLDER` writes what is left of all sources below a folder, FOLDER/NAME/src.
use std::error::Error;
use std::path::Path;

fn main() -> Result<(), Box<dyn Error>> {
    let top = Path::new(env!("CARGO_MANIFEST_DIR")).ancestors().nth(2).ok_or("a checkout")?;
    let Some(to) = std::env::args_os().nth(1) else {
        eraser::write_workspace(top)?;
        return Ok(());
    };
    for entry in std::fs::read_dir(top.join("crates"))? {
        let name = entry?.file_name();
        eraser::write_crate(top, name.to_str().ok_or("the name of a crate")?, Path::new(&to), "")?;
    }
    Ok(())
}
