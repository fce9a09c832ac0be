//! The functions of the library, as `evsched_lib.h` declares them.

use crate::{Config, Event, Left};

extern "C" {
    pub fn evsched_hub_size() -> usize;
    pub fn evsched_port_size() -> usize;
    pub fn evsched_control_size() -> usize;
    pub fn evsched_hub_init(at: *mut u8, config: *const Config);
    pub fn evsched_hub_port(at: *mut u8, number: usize, port: *mut u8);
    pub fn evsched_hub_control(at: *mut u8, control: *mut u8);
    pub fn evsched_hub_join(at: *mut u8, port: *mut u8) -> i64;
    pub fn evsched_hub_join_control(at: *mut u8, control: *mut u8) -> i64;
    pub fn evsched_hub_sweep(at: *mut u8) -> i64;
    pub fn evsched_hub_inside(at: *mut u8) -> i64;
    pub fn evsched_hub_why(at: *mut u8) -> i64;
    pub fn evsched_hub_stop(at: *mut u8) -> i64;
    pub fn evsched_hub_report(at: *mut u8, counts: *mut u64, n: usize) -> i64;
    pub fn evsched_hub_left(at: *mut u8, left: *mut Left, n: usize) -> i64;
    pub fn evsched_hub_counts(at: *mut u8, what: usize, counts: *mut u64, n: usize) -> i64;
    pub fn evsched_control_shut(at: *mut u8) -> i64;
    pub fn evsched_port_counts(at: *mut u8, counts: *mut u64, n: usize) -> i64;
    pub fn evsched_port_enqueue(at: *mut u8, events: *const Event, n: usize) -> i64;
    pub fn evsched_port_dequeue(at: *mut u8, events: *mut Event, n: usize) -> i64;
    pub fn evsched_port_why(at: *mut u8) -> i64;
    pub fn evsched_port_held(at: *mut u8) -> i64;
    pub fn evsched_hub_clear(at: *mut u8);
    pub fn evsched_port_clear(at: *mut u8);
    pub fn evsched_control_clear(at: *mut u8);
}
