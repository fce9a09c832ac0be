//! An event device for Rust programs, over `libevsched.a`. What `evsched.h` asks of a C program, the types keep here: a port, the device
//! and its control are each used by one thread at a time (`&mut`, `Send`, not `Sync`), come back before the stop, and aren't used after
//! it. Only that nothing is called in the child of a fork stays the program's duty.

mod config;
mod device;
mod event;
mod ffi;
mod room;

pub use config::{Config, PortConf, QueueConf, ATOMIC, ORDERED, PARALLEL, SINGLE_LINK};
pub use device::{Control, Device, Port, PortCounts, QueueCounts, Report};
pub use event::{Event, Left, Op};

use std::fmt;

/// A refusal: a negative number, an errno value or one of `EVSCHED_E_` of `evsched.h`, as `evsched_strerror` reads it.
#[derive(Clone, Copy, Debug, PartialEq, Eq)]
pub struct Error(pub i64);

impl Error {
    pub const NOTHING_HELD: Error = Error(-2);
    pub const TOO_MANY: Error = Error(-7);
    pub const RACED: Error = Error(-11);
    pub const MEMORY: Error = Error(-12);
    pub const INCOMPLETE: Error = Error(-16);
    pub const BAD_QUEUE: Error = Error(-22);
    pub const BACKPRESSURE: Error = Error(-28);
    pub const FULL: Error = Error(-105);
    pub const STOPPED: Error = Error(-108);

    /// The number, where it isn't a refusal.
    fn check(number: i64) -> Result<usize, Error> {
        usize::try_from(number).map_err(|_| Error(number))
    }

    /// Whether the same call may be served later: credits, or room in a ring, are lacking.
    pub fn is_passing(self) -> bool {
        [Error::RACED, Error::BACKPRESSURE, Error::FULL].contains(&self)
    }
}

impl fmt::Display for Error {
    fn fmt(&self, f: &mut fmt::Formatter<'_>) -> fmt::Result {
        let text = match *self {
            Error::NOTHING_HELD => "the port holds no event that could be answered",
            Error::TOO_MANY => "four events were added beside the port's oldest one",
            Error::RACED => "other ports changed the credits meanwhile",
            Error::MEMORY => "memory ran out",
            Error::INCOMPLETE => "a port or the control is away",
            Error::BAD_QUEUE => "there is no such queue",
            Error::BACKPRESSURE => "too few credits are free",
            Error::FULL => "the port's ring is full",
            Error::STOPPED => "the device is shut",
            Error(number) => return write!(f, "refused: {number}"),
        };
        f.write_str(text)
    }
}

impl std::error::Error for Error {}
