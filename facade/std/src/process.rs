//! The runtime, as a value that a program is given.
use crate::alloc::Global;

/// What stands for the runtime in the tests of a crate that needs no host: it has the allocator, and may end the program.
#[derive(Debug)]
pub struct HostRuntime(());

impl HostRuntime {
    /// The one that a test is given.
    #[doc(hidden)]
    #[allow(clippy::new_without_default, reason = "a test is given one, and nothing else makes one")]
    pub fn new() -> HostRuntime {
        HostRuntime(())
    }
}

/// What has the allocator of the program.
pub trait AllocGlobal {
    fn alloc(&self) -> Global;
}

impl AllocGlobal for HostRuntime {
    fn alloc(&self) -> Global {
        Global
    }
}

/// What may stop the program.
pub trait Abort {}
impl Abort for HostRuntime {}
impl<T: Abort> Abort for &T {}
