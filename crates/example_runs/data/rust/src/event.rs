//! Events, with the layout of `struct rte_event`.

/// What an enqueue asks.
#[derive(Clone, Copy, Debug, PartialEq, Eq)]
pub enum Op {
    New = 0,
    /// Answers the oldest event that the port holds.
    Forward = 1,
    /// Answers the oldest event that the port holds.
    Release = 2,
    /// Adds an event beside the oldest one that the port holds.
    ForwardMore = 3,
}

/// An event: flow (20 bits), sub type (8), event type (4), operation (2), reserved (4), scheduling type (2), queue (8), priority (8) and
/// `impl_opaque` (8), from the lowest bit up; and 64 bits of the program's own.
#[repr(C)]
#[derive(Clone, Copy, Debug, Default, PartialEq, Eq)]
pub struct Event {
    pub word: u64,
    pub payload: u64,
}

impl Event {
    /// A NEW of normal priority; of `flow` the lower 20 bits count.
    pub fn new(queue: u8, flow: u32, payload: u64) -> Event {
        Event {
            word: u64::from(flow & 0xf_ffff) | u64::from(queue) << 40 | 128 << 48,
            payload,
        }
    }

    /// This event as it is enqueued to a queue.
    pub fn with(self, op: Op, queue: u8) -> Event {
        let rest = self.word & !(3 << 32 | 0xff << 40);
        Event {
            word: rest | (op as u64) << 32 | u64::from(queue) << 40,
            ..self
        }
    }

    pub fn flow(&self) -> u32 {
        (self.word & 0xf_ffff) as u32
    }

    pub fn queue(&self) -> u8 {
        (self.word >> 40) as u8
    }

    pub fn priority(&self) -> u8 {
        (self.word >> 48) as u8
    }
}

/// An event that the stop found. Its place: 0 waiting, 1 kept (`lane` is the queue), 2 undelivered, 3 untaken, 4 turned away after the
/// shut (`lane` is the port's, or a flow lane).
#[repr(C)]
#[derive(Clone, Copy, Debug, Default, PartialEq, Eq)]
pub struct Left {
    pub event: Event,
    pub number: u64,
    pub place: u64,
    pub lane: u64,
}
