//! The runtime of a hosted program, as a value that it is given.
use base::alloc::Global;
use base::time::{Clock, Duration};
use base::io;

pub use base::process::{Abort, AllocGlobal};
pub use rust::process::ExitCode;

/// What stands for the runtime: it has the allocator, files, standard streams and clocks, and may end the program.
#[derive(Debug)]
pub struct HostRuntime(());

impl HostRuntime {
    /// The one that `main` or a test is given.
    #[doc(hidden)]
    #[allow(clippy::new_without_default, reason = "`main` or a test is given one, and nothing else makes one")]
    pub fn new() -> HostRuntime {
        HostRuntime(())
    }
}

impl AllocGlobal for HostRuntime {
    fn alloc(&self) -> Global {
        Global
    }
}

impl Abort for HostRuntime {}

impl Clock for HostRuntime {
    fn monotonic(&self) -> io::Result<Duration> {
        static BEGAN: rust::sync::OnceLock<rust::time::Instant> = rust::sync::OnceLock::new();
        Ok(BEGAN.get_or_init(rust::time::Instant::now).elapsed())
    }

    fn since_1970(&self) -> io::Result<Duration> {
        let now = rust::time::SystemTime::now().duration_since(rust::time::UNIX_EPOCH);
        now.map_err(|_| io::Error::from(io::ErrorKind::Other))
    }
}
