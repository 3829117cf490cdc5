//! The crates as members of the workspace: their manifests, which crates.txt gives, and their build scripts.
use crate::place::{Done, write, write_crate};
use std::fmt::Write as _;
use std::fs;
use std::path::{Path, PathBuf};

/// Parts of the prover's own std, which facade/std has.
const OF_STD: [&str; 2] = ["std_alloc", "std_heap"];
/// The crate whose functions C calls. Its root has one module more, which has them as C calls them.
const EXPORTS: &str = "lagffi";
const LIBRARY: &str = "\n/// The functions as C calls them.\n#[cfg(not(test))]\n#[path = \"../../../../facade/lagc/lib.rs\"]\nmod lagc;\n";

/// A crate, and the libraries that it uses.
struct Member {
    name: String,
    libraries: Vec<String>,
}

/// Writes all members below out/rust of a checkout; answers whether each was there before.
pub fn write_workspace(top: &Path) -> Done<bool> {
    let to = top.join("out/rust");
    let list = top.join("crates.txt");
    let members = members(&fs::read_to_string(&list)?);
    let mut is_old = true;
    // Manifests first: cargo refuses a folder without one, so that a call that was interrupted could not be made again.
    for member in &members {
        let manifest = to.join(&member.name).join("Cargo.toml");
        is_old &= manifest.exists();
        let is_program = top.join("crates").join(&member.name).join("src/main.rt").exists();
        write(&manifest, &manifest_of(member, is_program, &members), &list)?;
        write(&to.join(&member.name).join("build.rs"), BUILD, &list)?;
    }
    for member in &members {
        write_member(top, &member.name)?;
    }
    for entry in fs::read_dir(&to)? {
        let entry = entry?;
        let name = entry.file_name();
        if !members.iter().any(|it| *it.name == *name) {
            fs::remove_dir_all(entry.path())?;
        }
    }
    Ok(is_old)
}

/// The warnings of members that are off, each with its reason.
const LINTS: &str = include_str!("lints.toml");

/// The build script of each member.
const BUILD: &str = "fn main() {\n    eraser::build();\n}\n";

/// What the build script of a member calls: writes what is left of its sources, and has cargo call it again where one of them changes.
pub fn build() {
    if let Err(why) = build_crate() {
        eprintln!("{why}");
        std::process::exit(1);
    }
}

fn build_crate() -> Done<()> {
    let folder = PathBuf::from(std::env::var_os("CARGO_MANIFEST_DIR").ok_or("cargo calls this")?);
    let name = folder.file_name().and_then(|it| it.to_str()).ok_or("a member stands in a folder")?;
    let top = folder.ancestors().nth(3).ok_or("a member stands in out/rust")?;
    println!("cargo::rerun-if-changed={}", top.join("crates").join(name).join("src").display());
    for written in write_member(top, name)? {
        println!("cargo::rerun-if-changed={}", written.display());
    }
    Ok(())
}

/// Writes what is left of the sources of a member; answers the files.
fn write_member(top: &Path, name: &str) -> Done<Vec<PathBuf>> {
    write_crate(top, name, &top.join("out/rust"), if name == EXPORTS { LIBRARY } else { "" })
}

/// The rows of crates.txt.
fn members(text: &str) -> Vec<Member> {
    let rows = text.lines().filter_map(|line| line.split('#').next()?.split_once(':'));
    rows.filter_map(|(head, libraries)| {
        let name = head.split_whitespace().next()?.to_string();
        let libraries = libraries.split_whitespace().filter(|it| !OF_STD.contains(it)).map(str::to_string).collect();
        Some(Member { name, libraries })
    })
    .collect()
}

fn manifest_of(member: &Member, is_program: bool, members: &[Member]) -> String {
    let name = &member.name;
    let root = if is_program { "main" } else { "lib" };
    let mut text = package(name);
    let _ = if name == EXPORTS {
        writeln!(text, "\n[lib]\nname = \"lag\"\npath = \"src/lib.rs\"\ncrate-type = [\"staticlib\", \"cdylib\"]\ntest = false\ndoctest = false\n\n{POOL}")
    } else {
        writeln!(text, "\n[lib]\npath = \"src/{root}.rs\"\ndoctest = false")
    };
    if is_program {
        let _ = writeln!(text, "\n[[bin]]\nname = \"{name}\"\npath = \"../../../facade/entry/{name}.rs\"\ntest = false\ndoc = false");
    }
    text += &dependencies(member, if is_program || name.starts_with("tests_") { "plain-host" } else { "plain-std" }, members);
    text
}

const POOL: &str = "[features]\n# Memory from an array in the place of malloc, for programs with no heap (as -DNIW_POOL of c/lag.c).\npool = []";

fn package(name: &str) -> String {
    let shared: String = ["version", "edition", "rust-version"].iter().map(|it| format!("{it}.workspace = true\n")).collect();
    format!("# facade/eraser writes this file of crates.txt.\n[package]\nname = \"{name}\"\n{shared}publish = false\nbuild = \"build.rs\"\n")
}

fn dependencies(member: &Member, std: &str, members: &[Member]) -> String {
    let folder = std.strip_prefix("plain-").unwrap_or(std);
    let mut text = "\n[build-dependencies]\neraser = { path = \"../../../facade/eraser\" }\n\n[dependencies]\n".to_string();
    let _ = writeln!(text, "std = {{ package = \"{std}\", path = \"../../../facade/{folder}\" }}");
    for library in &member.libraries {
        let _ = if members.iter().any(|it| it.name == *library) {
            writeln!(text, "{library} = {{ path = \"../{library}\" }}")
        } else {
            let package = library.replace('_', "-");
            writeln!(text, "{library} = {{ package = \"plain-{package}\", path = \"../../../facade/ports/{library}\" }}")
        };
    }
    text + LINTS
}
