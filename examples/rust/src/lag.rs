//! One end of link aggregation, by liblag: what `main.rs` needs of `lag.h`, in idiomatic Rust. `raw.rs` declares all of it.

use crate::raw;
use std::fmt;
use std::ptr;

pub use crate::raw::{Config, Port};

/// The octets of a frame that the library makes.
pub const FRAME: usize = raw::NIW_FRAME as usize;

/// Why a call was refused: its status, `NIW_NO_PORT` and so on, and with `NIW_BAD_CONFIG` the reason and the place of
/// `struct niw_made`. Nothing changed.
#[derive(Debug)]
pub struct Refusal {
    pub status: u32,
    pub reason: u32,
    pub place: usize,
}

impl fmt::Display for Refusal {
    fn fmt(&self, f: &mut fmt::Formatter) -> fmt::Result {
        write!(f, "refused with status {} of lag.h", self.status)?;
        match self.reason {
            0 => Ok(()),
            reason => write!(f, ", reason {reason}, place {}", self.place),
        }
    }
}

impl std::error::Error for Refusal {}

fn accepted(status: u32) -> Result<(), Refusal> {
    match status {
        raw::NIW_OK => Ok(()),
        _ => Err(Refusal {
            status,
            reason: 0,
            place: 0,
        }),
    }
}

/// What became of a frame that came, as far as this example looks at it.
pub enum Received {
    /// The peer's marker: this answer is to be sent on the same port.
    Respond([u8; FRAME]),
    /// All else: an LACPDU that was used, a frame that was dropped, and so on.
    Other,
}

/// One end. Each call takes `&mut self`, so one runs at a time, as lag.h wants it. A move leaves no second handle behind, so it is not the
/// copy that lag.h forbids.
pub struct System(raw::System);

// SAFETY: any thread may call, one at a time; the library has no data of its own.
unsafe impl Send for System {}

impl System {
    pub fn new(config: &Config, keys: &[u16], ports: &[Port]) -> Result<System, Refusal> {
        let mut system = System(raw::System {
            live: false,
            at: ptr::null_mut(),
        });
        // SAFETY: the handle is empty, and each list is as long as its count says.
        let made = unsafe {
            raw::lagffi_new(
                &mut system.0,
                config,
                keys.as_ptr(),
                keys.len(),
                ports.as_ptr(),
                ports.len(),
            )
        };
        match made.status {
            raw::NIW_OK => Ok(system),
            status => Err(Refusal {
                status,
                reason: made.reason,
                place: made.place,
            }),
        }
    }

    /// Tells the library whether the link of a port is up.
    pub fn set_link(&mut self, port: u16, up: bool) -> Result<(), Refusal> {
        // SAFETY: the handle came from `new` and is live.
        accepted(unsafe { raw::lagffi_set_link(&mut self.0, port, up) })
    }

    /// 100 ms passed.
    pub fn tick(&mut self) -> Result<(), Refusal> {
        // SAFETY: the handle came from `new` and is live.
        accepted(unsafe { raw::lagffi_tick(&mut self.0) })
    }

    /// Hands over a frame that came on a port.
    pub fn receive(&mut self, port: u16, frame: &[u8]) -> Result<Received, Refusal> {
        let mut response = [0; FRAME];
        // SAFETY: the frame is as long as its length says, and does not overlap `response`.
        let received = unsafe {
            raw::lagffi_receive(
                &mut self.0,
                port,
                frame.as_ptr(),
                frame.len(),
                response.as_mut_ptr(),
                FRAME,
            )
        };
        accepted(received.status)?;
        Ok(match received.what {
            raw::NIW_RECEIVED_RESPOND => Received::Respond(response),
            _ => Received::Other,
        })
    }

    /// The frame that is due on a port, if one is. Call it until it returns `None`.
    pub fn transmit(&mut self, port: u16) -> Result<Option<[u8; FRAME]>, Refusal> {
        let mut frame = [0; FRAME];
        // SAFETY: `frame` has FRAME octets.
        let sent = unsafe { raw::lagffi_transmit(&mut self.0, port, frame.as_mut_ptr(), FRAME) };
        accepted(sent.status)?;
        Ok(sent.is.then_some(frame))
    }

    /// Whether a port distributes.
    pub fn distributes(&mut self, port: u16) -> Result<bool, Refusal> {
        // SAFETY: the handle came from `new` and is live.
        let truth = unsafe { raw::lagffi_distributes(&mut self.0, port) };
        accepted(truth.status)?;
        Ok(truth.is)
    }
}

impl Drop for System {
    fn drop(&mut self) {
        if self.0.live {
            // SAFETY: the handle came from `new` and is live.
            unsafe { raw::lagffi_free(&mut self.0) };
        }
    }
}
