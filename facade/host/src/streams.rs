//! The standard streams of the host. What is printed is written in pieces and asks for no memory.
use crate::files::of_rust;
use crate::process::HostRuntime;
use base::io::{self, Eprint, Input, Print, Read};
use core::fmt::{self, Write as _};
use rust::fs::File;
use rust::io::Write as _;
use rust::mem::ManuallyDrop;
use rust::os::fd::FromRawFd;

/// A stream without a buffer of its own: what is written is written at once, as the sources expect.
fn stream(number: i32) -> ManuallyDrop<File> {
    // The stream is open as the program starts, and is not closed here.
    ManuallyDrop::new(unsafe { File::from_raw_fd(number) })
}

/// Words on their way to a stream.
struct Pieces {
    stream: ManuallyDrop<File>,
    octets: [u8; 1024],
    count: usize,
    refused: Option<io::Error>,
}

impl Pieces {
    fn flush(&mut self) -> fmt::Result {
        let written = self.stream.write_all(&self.octets[..self.count]);
        self.count = 0;
        written.map_err(|error| {
            self.refused = Some(of_rust(error));
            fmt::Error
        })
    }
}

impl fmt::Write for Pieces {
    fn write_str(&mut self, text: &str) -> fmt::Result {
        for octet in text.bytes() {
            if self.count == self.octets.len() {
                self.flush()?;
            }
            self.octets[self.count] = octet;
            self.count += 1;
        }
        Ok(())
    }
}

fn put(number: i32, words: fmt::Arguments<'_>) -> io::Result<()> {
    let mut pieces = Pieces { stream: stream(number), octets: [0; 1024], count: 0, refused: None };
    match pieces.write_fmt(words).and_then(|()| pieces.flush()) {
        Ok(()) => Ok(()),
        Err(error) => Err(pieces.refused.unwrap_or(error.into())),
    }
}

impl Print for HostRuntime {
    fn print<D: fmt::Display>(&self, value: D) -> io::Result<()> {
        put(1, format_args!("{value}"))
    }

    fn println<D: fmt::Display>(&self, value: D) -> io::Result<()> {
        put(1, format_args!("{value}\n"))
    }

    fn put(&self, octets: &[u8]) -> io::Result<usize> {
        stream(1).write(octets).map_err(of_rust)
    }

    fn flush_output(&self) -> io::Result<()> {
        Ok(())
    }
}

impl Eprint for HostRuntime {
    fn eprint<D: fmt::Display>(&self, value: D) -> io::Result<()> {
        put(2, format_args!("{value}"))
    }

    fn eprintln<D: fmt::Display>(&self, value: D) -> io::Result<()> {
        put(2, format_args!("{value}\n"))
    }
}

/// Standard input.
pub struct Stdin(ManuallyDrop<File>);

impl Read for Stdin {
    fn read(&mut self, piece: &mut [u8]) -> io::Result<usize> {
        rust::io::Read::read(&mut *self.0, piece).map_err(of_rust)
    }
}

impl Input for HostRuntime {
    type Reader = Stdin;
    fn reader(&self) -> Stdin {
        Stdin(stream(0))
    }
}
