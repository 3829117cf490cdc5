//! The C library: functions as C calls them, with memory of `malloc` and with no way to unwind. It is a module of lagffi, and wants no std.

mod exports;
mod memory;
#[cfg(feature = "pool")]
mod pool;
mod slices;

/// Not reached: the sources are proved to reach no panic. It stops the processor's way, without libc.
#[panic_handler]
fn stop(_why: &core::panic::PanicInfo<'_>) -> ! {
    loop {
        #[cfg(any(target_arch = "x86", target_arch = "x86_64"))]
        unsafe {
            core::arch::asm!("ud2")
        }
        #[cfg(any(target_arch = "arm", target_arch = "aarch64"))]
        unsafe {
            core::arch::asm!("udf #0")
        }
        #[cfg(target_arch = "wasm32")]
        core::arch::wasm32::unreachable()
    }
}
