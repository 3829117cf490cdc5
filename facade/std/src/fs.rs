//! Files.
use crate::alloc::{Allocator, Global};
use crate::io::{self, Read};
use crate::vec::Vec;

/// What has files. The sources open and ask, and do no more; what they say of other calls is said by their tests alone.
pub trait Files {
    type File: Read;
    type Dir;

    fn open_file(&self, how: &OpenOptions, path: &str) -> io::Result<Self::File>;
    fn open_dir(&self, path: &str) -> io::Result<Self::Dir>;
    fn metadata(&self, path: &str) -> io::Result<Metadata>;
    fn symlink_metadata(&self, path: &str) -> io::Result<Metadata>;
    fn copy(&self, from: &str, to: &str) -> io::Result<u64>;
    fn rename(&self, from: &str, to: &str) -> io::Result<()>;
    fn remove_file(&self, path: &str) -> io::Result<()>;
    fn create_dir(&self, path: &str) -> io::Result<()>;
    fn remove_dir(&self, path: &str) -> io::Result<()>;
    fn remove_dir_all<B: Allocator>(&self, alloc: B, path: &str) -> io::Result<()>;
}

/// How a file is opened: to be read.
pub struct OpenOptions(());

/// What is told of a file.
pub struct Metadata {
    is_dir: bool,
}

impl Metadata {
    /// What a host found.
    #[doc(hidden)]
    pub fn of_host(is_dir: bool) -> Metadata {
        Metadata { is_dir }
    }

    pub fn is_dir(&self) -> bool {
        self.is_dir
    }
}

/// The name behind which `open` stands; what is opened has a type of its host, and this one has no value.
pub enum File {}

impl File {
    pub fn open<F: Files>(files: &F, path: &str) -> io::Result<F::File> {
        files.open_file(&OpenOptions(()), path)
    }
}

impl Read for File {
    fn read(&mut self, _piece: &mut [u8]) -> io::Result<usize> {
        match *self {}
    }
}

pub fn metadata(files: &impl Files, path: &str) -> io::Result<Metadata> {
    files.metadata(path)
}

pub fn read(files: &impl Files, path: &str) -> io::Result<Vec<u8>> {
    let mut octets = Vec::new(Global);
    File::open(files, path)?.read_to_end(&mut octets)?;
    Ok(octets)
}
