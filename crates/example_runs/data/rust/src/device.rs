//! The device, its ports and its control. The room of each has a handle as long as it lives.

use crate::ffi::*;
use crate::room::Room;
use crate::{Config, Error, Event, Left};
use std::sync::atomic::{AtomicU64, Ordering};

/// Tells devices apart, so that no part joins another one.
static DEVICES: AtomicU64 = AtomicU64::new(0);

/// The scheduler of a device.
pub struct Device {
    hub: Room,
    number: u64,
    ports: usize,
}

/// A port, for one thread at a time.
pub struct Port {
    room: Room,
    device: u64,
    number: usize,
}

/// What shuts a device; any thread may have it.
pub struct Control {
    room: Room,
    device: u64,
}

/// What the scheduler counted of a queue.
#[derive(Clone, Copy, Debug, Default, PartialEq, Eq)]
pub struct QueueCounts {
    pub rx_new: u64,
    pub rx_forwarded: u64,
    pub tx: u64,
}

/// What a port counted of its calls.
#[derive(Clone, Copy, Debug, Default, PartialEq, Eq)]
pub struct PortCounts {
    pub enqueued: u64,
    pub dequeued: u64,
    pub released: u64,
    pub refused: u64,
}

/// Where the stop found credits and events: in all `nb_events_limit`, but for those that were turned away.
#[derive(Clone, Debug, Default, PartialEq, Eq)]
pub struct Report {
    pub free: u64,
    pub own: u64,
    pub pockets: u64,
    pub held: u64,
    /// All that is left but what ports hold.
    pub left: Vec<Left>,
}

impl Device {
    /// Makes a device, with its ports in their order and its control.
    pub fn new(config: &Config) -> Result<(Device, Vec<Port>, Control), Error> {
        // Each handle's room has its size and alignment, and is filled once, also where the device is refused.
        unsafe {
            let device = Device {
                hub: Room::new(evsched_hub_size()),
                number: DEVICES.fetch_add(1, Ordering::Relaxed),
                ports: config.nb_event_ports as usize,
            };
            evsched_hub_init(device.hub.at(), &config.resolved());
            Error::check(evsched_hub_why(device.hub.at()))?;
            // Of nothing yet: it takes the memory that all sweeps up to the shut need.
            Error::check(evsched_hub_sweep(device.hub.at()))?;
            let mut ports = Vec::with_capacity(device.ports);
            for number in 0..device.ports {
                let room = Room::new(evsched_port_size());
                evsched_hub_port(device.hub.at(), number, room.at());
                ports.push(Port {
                    room,
                    device: device.number,
                    number,
                });
            }
            let room = Room::new(evsched_control_size());
            evsched_hub_control(device.hub.at(), room.at());
            let control = Control {
                room,
                device: device.number,
            };
            Ok((device, ports, control))
        }
    }

    /// One sweep: how many replies it took and events it gave. Where memory ran out nothing has changed.
    pub fn sweep(&mut self) -> Result<usize, Error> {
        Error::check(unsafe { evsched_hub_sweep(self.hub.at()) })
    }

    /// How many events wait, are unanswered or are kept.
    pub fn inside(&self) -> usize {
        Error::check(unsafe { evsched_hub_inside(self.hub.at()) }).unwrap_or(0)
    }

    /// How many NEWs were accepted.
    pub fn accepted(&self) -> u64 {
        let mut counts = [0; 2];
        unsafe { evsched_hub_counts(self.hub.at(), 192, counts.as_mut_ptr(), 2) };
        counts[0]
    }

    pub fn queue_counts(&self, queue: u8) -> QueueCounts {
        let mut counts = [0; 3];
        if queue < 32 {
            unsafe {
                evsched_hub_counts(self.hub.at(), usize::from(queue), counts.as_mut_ptr(), 3)
            };
        }
        QueueCounts {
            rx_new: counts[0],
            rx_forwarded: counts[1],
            tx: counts[2],
        }
    }

    /// Takes the device apart. It doesn't sweep. Where a part is missing, is another device's, or memory ran out, all comes back and
    /// nothing has changed.
    #[allow(clippy::result_large_err)]
    pub fn stop(
        self,
        control: Control,
        ports: Vec<Port>,
    ) -> Result<Report, (Error, Device, Control, Vec<Port>)> {
        let is_ours =
            ports.iter().all(|port| port.device == self.number) && control.device == self.number;
        if !is_ours || ports.len() != self.ports {
            return Err((Error::INCOMPLETE, self, control, ports));
        }
        // All parts are this device's. What came home goes out again; of a device that is stopped each is an empty handle.
        let stopped = unsafe {
            for port in &ports {
                evsched_hub_join(self.hub.at(), port.room.at());
            }
            evsched_hub_join_control(self.hub.at(), control.room.at());
            let stopped = evsched_hub_stop(self.hub.at());
            for port in &ports {
                evsched_hub_port(self.hub.at(), port.number, port.room.at());
            }
            evsched_hub_control(self.hub.at(), control.room.at());
            stopped
        };
        match Error::check(stopped) {
            Ok(_) => Ok(self.report()),
            Err(why) => Err((why, self, control, ports)),
        }
    }

    fn report(&self) -> Report {
        let mut counts = [0; 9];
        unsafe { evsched_hub_report(self.hub.at(), counts.as_mut_ptr(), 9) };
        let most = counts[3] + counts[4] + counts[5] + counts[7] + counts[8];
        let mut left = vec![Left::default(); most as usize];
        let count = unsafe { evsched_hub_left(self.hub.at(), left.as_mut_ptr(), left.len()) };
        left.truncate(Error::check(count).unwrap_or(0));
        Report {
            free: counts[0],
            own: counts[1],
            pockets: counts[2],
            held: counts[6],
            left,
        }
    }
}

impl Port {
    /// Enqueues the events up to the first that is refused: how many, and why the next one was.
    pub fn enqueue(&mut self, events: &[Event]) -> (usize, Result<(), Error>) {
        let mut done = 0;
        loop {
            let part = &events[done..events.len().min(done + 64)];
            let taken = unsafe { evsched_port_enqueue(self.room.at(), part.as_ptr(), part.len()) };
            let taken = Error::check(taken).unwrap_or(0);
            done += taken;
            if taken < part.len() || done == events.len() {
                let why = unsafe { evsched_port_why(self.room.at()) };
                return (done, Error::check(why).map(|_| ()));
            }
        }
    }

    /// Dequeues what is there, at most as many as there is room for, 64, and the port may hold: how many. With implicit release all that
    /// is held is released first.
    pub fn dequeue(&mut self, into: &mut [Event]) -> Result<usize, Error> {
        Error::check(unsafe { evsched_port_dequeue(self.room.at(), into.as_mut_ptr(), into.len()) })
    }

    /// How many events it holds.
    pub fn held(&self) -> usize {
        Error::check(unsafe { evsched_port_held(self.room.at()) }).unwrap_or(0)
    }

    pub fn counts(&self) -> PortCounts {
        let mut counts = [0; 11];
        unsafe { evsched_port_counts(self.room.at(), counts.as_mut_ptr(), 11) };
        PortCounts {
            enqueued: counts[0],
            dequeued: counts[1],
            released: counts[2],
            refused: counts[3..10].iter().sum(),
        }
    }
}

impl Control {
    /// From now on no port brings a NEW in.
    pub fn shut(&mut self) {
        unsafe { evsched_control_shut(self.room.at()) };
    }
}

impl Drop for Device {
    fn drop(&mut self) {
        unsafe { evsched_hub_clear(self.hub.at()) }
    }
}

impl Drop for Port {
    fn drop(&mut self) {
        unsafe { evsched_port_clear(self.room.at()) }
    }
}

impl Drop for Control {
    fn drop(&mut self) {
        unsafe { evsched_control_clear(self.room.at()) }
    }
}
