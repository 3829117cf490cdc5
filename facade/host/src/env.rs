//! The words of the command line.
use crate::process::HostRuntime;
use base::alloc::Global;
use base::io;
use base::string::String;
use base::vec::{IntoIter, Vec};

/// The words, of which the first is the name of the program.
pub struct Args(IntoIter<String>);

/// All words; an error where one is no UTF-8, or memory is refused.
pub fn args(_rt: &HostRuntime) -> io::Result<Args> {
    let mut words = Vec::new(Global);
    for word in rust::env::args_os() {
        let text = word.to_str().ok_or(io::Error::from(io::ErrorKind::InvalidInput))?;
        words.push(String::from_str(Global, text)?)?;
    }
    Ok(Args(words.into_iter()))
}

impl Iterator for Args {
    type Item = String;

    fn next(&mut self) -> Option<String> {
        self.0.next()
    }
}
