//! Readers and writers, and what has standard streams.
use crate::alloc::{AllocError, AllocFailed};
use crate::vec::Vec;
use core::fmt;

#[derive(Clone, Copy, Debug, PartialEq, Eq)]
pub enum ErrorKind {
    NotFound,
    PermissionDenied,
    IsADirectory,
    BrokenPipe,
    Interrupted,
    InvalidInput,
    Unsupported,
    OutOfMemory,
    Other,
}

/// An error of the host: its kind.
#[derive(Clone, Copy, Debug, PartialEq, Eq)]
pub struct Error {
    kind: ErrorKind,
}

pub type Result<T> = core::result::Result<T, Error>;

impl Error {
    pub fn kind(&self) -> ErrorKind {
        self.kind
    }
}

impl From<ErrorKind> for Error {
    fn from(kind: ErrorKind) -> Error {
        Error { kind }
    }
}

impl From<AllocError> for Error {
    fn from(_refused: AllocError) -> Error {
        Error::from(ErrorKind::OutOfMemory)
    }
}

impl<T> From<AllocFailed<T>> for Error {
    fn from(_refused: AllocFailed<T>) -> Error {
        Error::from(ErrorKind::OutOfMemory)
    }
}

impl From<fmt::Error> for Error {
    fn from(_refused: fmt::Error) -> Error {
        Error::from(ErrorKind::Other)
    }
}

impl fmt::Display for Error {
    fn fmt(&self, f: &mut fmt::Formatter<'_>) -> fmt::Result {
        fmt::Debug::fmt(&self.kind, f)
    }
}

impl core::error::Error for Error {}

pub trait Read {
    fn read(&mut self, piece: &mut [u8]) -> Result<usize>;

    fn read_to_end(&mut self, octets: &mut Vec<u8>) -> Result<usize> {
        let (mut piece, mut count) = ([0; 4096], 0);
        loop {
            match self.read(&mut piece) {
                Ok(0) => return Ok(count),
                Ok(n) => {
                    octets.extend_from_slice(&piece[..n])?;
                    count += n;
                }
                Err(error) if error.kind() == ErrorKind::Interrupted => {}
                Err(error) => return Err(error),
            }
        }
    }
}

pub trait Write {
    fn write(&mut self, octets: &[u8]) -> Result<usize>;
    fn flush(&mut self) -> Result<()>;

    fn write_all(&mut self, mut octets: &[u8]) -> Result<()> {
        while !octets.is_empty() {
            match self.write(octets) {
                Ok(0) => return Err(Error::from(ErrorKind::Other)),
                Ok(n) => octets = &octets[n..],
                Err(error) if error.kind() == ErrorKind::Interrupted => {}
                Err(error) => return Err(error),
            }
        }
        Ok(())
    }
}

impl<T: Read> Read for &mut T {
    fn read(&mut self, piece: &mut [u8]) -> Result<usize> {
        (**self).read(piece)
    }
}

impl<T: Write> Write for &mut T {
    fn write(&mut self, octets: &[u8]) -> Result<usize> {
        (**self).write(octets)
    }

    fn flush(&mut self) -> Result<()> {
        (**self).flush()
    }
}

impl Read for &[u8] {
    fn read(&mut self, piece: &mut [u8]) -> Result<usize> {
        let count = piece.len().min(self.len());
        let (first, rest) = self.split_at(count);
        piece[..count].copy_from_slice(first);
        *self = rest;
        Ok(count)
    }
}

impl Write for Vec<u8> {
    fn write(&mut self, octets: &[u8]) -> Result<usize> {
        self.extend_from_slice(octets)?;
        Ok(octets.len())
    }

    fn flush(&mut self) -> Result<()> {
        Ok(())
    }
}

/// What has a standard output.
pub trait Print {
    fn print<D: fmt::Display>(&self, value: D) -> Result<()>;
    fn println<D: fmt::Display>(&self, value: D) -> Result<()>;
    #[doc(hidden)]
    fn put(&self, octets: &[u8]) -> Result<usize>;
    #[doc(hidden)]
    fn flush_output(&self) -> Result<()>;
}

/// What has a standard error.
pub trait Eprint {
    fn eprint<D: fmt::Display>(&self, value: D) -> Result<()>;
    fn eprintln<D: fmt::Display>(&self, value: D) -> Result<()>;
}

impl<T: Print> Print for &T {
    fn print<D: fmt::Display>(&self, value: D) -> Result<()> {
        (**self).print(value)
    }

    fn println<D: fmt::Display>(&self, value: D) -> Result<()> {
        (**self).println(value)
    }

    fn put(&self, octets: &[u8]) -> Result<usize> {
        (**self).put(octets)
    }

    fn flush_output(&self) -> Result<()> {
        (**self).flush_output()
    }
}

impl<T: Eprint> Eprint for &T {
    fn eprint<D: fmt::Display>(&self, value: D) -> Result<()> {
        (**self).eprint(value)
    }

    fn eprintln<D: fmt::Display>(&self, value: D) -> Result<()> {
        (**self).eprintln(value)
    }
}

/// What has a standard input.
pub trait Input {
    type Reader: Read;
    fn reader(&self) -> Self::Reader;
}

/// The standard output of a runtime as a writer.
pub struct Writer<'a, R: Print>(&'a R);

pub fn writer<R: Print>(rt: &R) -> Writer<'_, R> {
    Writer(rt)
}

impl<R: Print> Write for Writer<'_, R> {
    fn write(&mut self, octets: &[u8]) -> Result<usize> {
        self.0.put(octets)
    }

    fn flush(&mut self) -> Result<()> {
        self.0.flush_output()
    }
}

