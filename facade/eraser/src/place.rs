//! Where sources and what is left of them stand: `crates/NAME/src/**/*.rt` and `out/rust/NAME/src/**/*.rs`.
use crate::erased;
use std::error::Error;
use std::ffi::OsStr;
use std::fs;
use std::path::{Path, PathBuf};

/// What a call that reads or writes files answers.
pub type Done<T> = Result<T, Box<dyn Error>>;

/// Writes what is left of each source of a crate below `to`, and behind its root these lines; answers the files. One that is as it has to be is not
/// written anew.
pub fn write_crate(top: &Path, name: &str, to: &Path, lines: &str) -> Done<Vec<PathBuf>> {
    let from = top.join("crates").join(name).join("src");
    let to = to.join(name).join("src");
    let mut made = Vec::new();
    for source in files(&from, "rt")? {
        let text = fs::read_to_string(&source)?;
        let mut left = erased(&text).map_err(|fault| format!("{}:{fault}", source.display()))?;
        if source == from.join("lib.rt") {
            left += lines;
        }
        let path = to.join(source.strip_prefix(&from)?).with_extension("rs");
        write(&path, &left, &source)?;
        made.push(path);
    }
    for old in files(&to, "rs")? {
        if !made.contains(&old) {
            fs::remove_file(old)?;
        }
    }
    Ok(made)
}

/// The files below a folder that end so, in the order of their names.
fn files(folder: &Path, ending: &str) -> Done<Vec<PathBuf>> {
    let mut found = Vec::new();
    for entry in fs::read_dir(folder).map_err(|why| format!("{}: {why}", folder.display()))? {
        let path = entry?.path();
        if path.is_dir() {
            found.extend(files(&path, ending)?);
        } else if path.extension() == Some(OsStr::new(ending)) {
            found.push(path);
        }
    }
    found.sort();
    Ok(found)
}

/// Writes a file in one step, unless it has this text. It gets the time of its source: cargo takes what is newer than its last build to have changed since.
pub(crate) fn write(path: &Path, text: &str, source: &Path) -> Done<()> {
    if fs::read_to_string(path).is_ok_and(|old| old == text) {
        return Ok(());
    }
    fs::create_dir_all(path.parent().ok_or("a file stands in a folder")?)?;
    let new = path.with_extension(format!("new{}", std::process::id()));
    fs::write(&new, text)?;
    fs::File::options().write(true).open(&new)?.set_modified(fs::metadata(source)?.modified()?)?;
    fs::rename(new, path)?;
    Ok(())
}
