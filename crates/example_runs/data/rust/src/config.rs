//! The configuration: the structs of `evsched.h`, where each field is explained.

/// `schedule_type` of a queue.
pub const ORDERED: u8 = 0;
pub const ATOMIC: u8 = 1;
pub const PARALLEL: u8 = 2;

/// `event_queue_cfg` of a queue to which one port is linked: a parallel one.
pub const SINGLE_LINK: u32 = 1 << 1;

#[repr(C)]
#[derive(Clone, Copy, Debug)]
pub struct QueueConf {
    pub nb_atomic_flows: u32,
    pub nb_atomic_order_sequences: u32,
    pub event_queue_cfg: u32,
    pub schedule_type: u8,
    pub priority: u8,
    pub rsvd: u16,
}

#[repr(C)]
#[derive(Clone, Copy, Debug)]
pub struct PortConf {
    /// 0: by the limit, as `evsched.h` says.
    pub new_event_threshold: u32,
    pub dequeue_depth: u16,
    pub enqueue_depth: u16,
    pub event_port_cfg: u32,
    /// Bit q: linked to queue q.
    pub links: u32,
}

#[repr(C)]
#[derive(Clone, Copy, Debug)]
pub struct Config {
    pub nb_events_limit: u32,
    pub nb_event_queues: u32,
    pub nb_event_ports: u32,
    pub credit_quanta: u32,
    pub sched_quanta: u32,
    pub event_dev_cfg: u32,
    pub queue: [QueueConf; 32],
    pub port: [PortConf; 32],
}

impl Config {
    /// The defaults of `evsched_dev_default_config`: atomic queues, 4096 credits; no port is linked yet.
    pub fn new(nb_event_queues: u32, nb_event_ports: u32) -> Config {
        let queue = QueueConf {
            nb_atomic_flows: 64.min(128 / nb_event_queues.max(1)),
            nb_atomic_order_sequences: 256,
            event_queue_cfg: 0,
            schedule_type: ATOMIC,
            priority: 128,
            rsvd: 0,
        };
        let port = PortConf {
            new_event_threshold: 0,
            dequeue_depth: 32,
            enqueue_depth: 64,
            event_port_cfg: 0,
            links: 0,
        };
        Config {
            nb_events_limit: 4096,
            nb_event_queues,
            nb_event_ports,
            credit_quanta: 32,
            sched_quanta: 64,
            event_dev_cfg: 0,
            queue: [queue; 32],
            port: [port; 32],
        }
    }

    /// What the threshold of a port without links leaves to those that add events.
    fn reserve(&self) -> u32 {
        let ports = self.port.iter().take(self.nb_event_ports as usize);
        let held: u32 = ports
            .filter(|port| port.links != 0)
            .map(|port| u32::from(port.dequeue_depth))
            .sum();
        (self.nb_events_limit / 10)
            .max(4 * held)
            .min(self.nb_events_limit / 2)
    }

    /// The configuration as the library takes it: with the thresholds that are 0 by the limit, and single-link queues parallel.
    pub(crate) fn resolved(&self) -> Config {
        let mut config = *self;
        let (limit, quanta) = (self.nb_events_limit, self.credit_quanta);
        let producers = (limit - self.reserve()).max(quanta).min(limit);
        for port in &mut config.port {
            if port.new_event_threshold == 0 {
                port.new_event_threshold = if port.links == 0 { producers } else { limit };
            }
        }
        for queue in &mut config.queue {
            if queue.event_queue_cfg == SINGLE_LINK {
                queue.schedule_type = PARALLEL;
            }
        }
        config
    }
}
