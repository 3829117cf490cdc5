//! Clocks.
pub use core::time::Duration;

use crate::io;

/// What has clocks.
pub trait Clock {
    fn monotonic(&self) -> io::Result<Duration>;
    fn since_1970(&self) -> io::Result<Duration>;
}

/// A time of a clock that never goes back.
#[derive(Clone, Copy, Debug, PartialEq, Eq, PartialOrd, Ord)]
pub struct Instant(Duration);

impl Instant {
    pub fn now(clock: &impl Clock) -> io::Result<Instant> {
        Ok(Instant(clock.monotonic()?))
    }

    pub fn duration_since(&self, before: Instant) -> Duration {
        self.0.saturating_sub(before.0)
    }
}
