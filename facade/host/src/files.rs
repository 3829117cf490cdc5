//! The files of the host.
use crate::process::HostRuntime;
use base::alloc::Allocator;
use base::fs::{Files, Metadata, OpenOptions};
use base::io::{self, ErrorKind, Read};

/// A file that is open to be read.
pub struct Opened(rust::fs::File);

impl Read for Opened {
    fn read(&mut self, piece: &mut [u8]) -> io::Result<usize> {
        rust::io::Read::read(&mut self.0, piece).map_err(of_rust)
    }
}

/// An error of Rust's std as one of the sources.
pub(crate) fn of_rust(error: rust::io::Error) -> io::Error {
    use rust::io::ErrorKind as Kind;
    io::Error::from(match error.kind() {
        Kind::NotFound => ErrorKind::NotFound,
        Kind::PermissionDenied => ErrorKind::PermissionDenied,
        Kind::IsADirectory => ErrorKind::IsADirectory,
        Kind::BrokenPipe => ErrorKind::BrokenPipe,
        Kind::Interrupted => ErrorKind::Interrupted,
        Kind::InvalidInput => ErrorKind::InvalidInput,
        Kind::Unsupported => ErrorKind::Unsupported,
        Kind::OutOfMemory => ErrorKind::OutOfMemory,
        _ => ErrorKind::Other,
    })
}

fn unsupported<T>() -> io::Result<T> {
    Err(io::Error::from(ErrorKind::Unsupported))
}

fn told(found: rust::io::Result<rust::fs::Metadata>) -> io::Result<Metadata> {
    found.map(|it| Metadata::of_host(it.is_dir())).map_err(of_rust)
}

/// What programs call opens and asks; the rest is not theirs.
impl Files for HostRuntime {
    type File = Opened;
    type Dir = Opened;

    fn open_file(&self, _how: &OpenOptions, path: &str) -> io::Result<Opened> {
        rust::fs::File::open(path).map(Opened).map_err(of_rust)
    }

    fn open_dir(&self, _path: &str) -> io::Result<Opened> {
        unsupported()
    }

    fn metadata(&self, path: &str) -> io::Result<Metadata> {
        told(rust::fs::metadata(path))
    }

    fn symlink_metadata(&self, path: &str) -> io::Result<Metadata> {
        told(rust::fs::symlink_metadata(path))
    }

    fn copy(&self, _from: &str, _to: &str) -> io::Result<u64> {
        unsupported()
    }

    fn rename(&self, _from: &str, _to: &str) -> io::Result<()> {
        unsupported()
    }

    fn remove_file(&self, _path: &str) -> io::Result<()> {
        unsupported()
    }

    fn create_dir(&self, _path: &str) -> io::Result<()> {
        unsupported()
    }

    fn remove_dir(&self, _path: &str) -> io::Result<()> {
        unsupported()
    }

    fn remove_dir_all<B: Allocator>(&self, _alloc: B, _path: &str) -> io::Result<()> {
        unsupported()
    }
}
