//! Events through two atomic queues, by threads: a producer (port 0), two workers (ports 1 and 2), and the main thread, which sweeps. Each
//! event goes into queue 0, is forwarded to queue 1 and released there; the workers check that the events of a flow come in order.
//!
//!     flows [EVENTS]

use evsched::{Config, Device, Error, Event, Op, Port};
use std::sync::atomic::{AtomicBool, AtomicU64, Ordering};
use std::{env, process, thread};

const FLOWS: u64 = 64;

/// Which of each flow's events comes next to each queue. That a flow is with one port at a time is all that guards it: a load and a store.
struct Next([[AtomicU64; FLOWS as usize]; 2]);

impl Next {
    fn is_next(&self, event: &Event) -> bool {
        let next = &self.0[usize::from(event.queue())][event.flow() as usize];
        let expected = next.load(Ordering::Relaxed);
        next.store(expected + 1, Ordering::Relaxed);
        expected == event.payload
    }
}

/// Enqueues them all: it tries again where the device has no room just now.
fn enqueue_all(port: &mut Port, mut events: &[Event]) -> Result<(), Error> {
    loop {
        let (taken, end) = port.enqueue(events);
        events = &events[taken..];
        match end {
            Ok(()) => return Ok(()),
            Err(why) if why.is_passing() => thread::yield_now(),
            Err(why) => return Err(why),
        }
    }
}

fn produce(mut port: Port, events: u64) -> Result<Port, Error> {
    let all: Vec<u64> = (0..events).collect();
    for burst in all.chunks(200) {
        let burst: Vec<Event> = burst
            .iter()
            .map(|i| Event::new(0, (i % FLOWS) as u32, i / FLOWS))
            .collect();
        enqueue_all(&mut port, &burst)?;
    }
    Ok(port)
}

/// Handles events until all is over: the port, how many there were, and how many came out of order.
fn work(mut port: Port, next: &Next, is_over: &AtomicBool) -> Result<(Port, u64, u64), Error> {
    let (mut handled, mut misordered) = (0, 0);
    let mut events = [Event::default(); 32];
    while !is_over.load(Ordering::SeqCst) {
        let count = port.dequeue(&mut events)?;
        for event in &mut events[..count] {
            misordered += u64::from(!next.is_next(event));
            let op = if event.queue() == 0 {
                Op::Forward
            } else {
                Op::Release
            };
            *event = event.with(op, 1);
        }
        enqueue_all(&mut port, &events[..count])?;
        handled += count as u64;
        if count == 0 {
            thread::yield_now();
        }
    }
    Ok((port, handled, misordered))
}

fn run(events: u64) -> Result<bool, Error> {
    let mut config = Config::new(2, 3);
    config.port[1].links = 3;
    config.port[2].links = 3;
    let (mut device, ports, mut control) = Device::new(&config)?;
    let Ok([source, first, second]) = <[Port; 3]>::try_from(ports) else {
        unreachable!("there are as many ports as are configured");
    };
    let (next, is_over) = (
        Next(std::array::from_fn(|_| {
            std::array::from_fn(|_| AtomicU64::new(0))
        })),
        AtomicBool::new(false),
    );
    let (source, first, second) = thread::scope(|scope| {
        let source = scope.spawn(|| produce(source, events));
        let first = scope.spawn(|| work(first, &next, &is_over));
        let second = scope.spawn(|| work(second, &next, &is_over));
        while device.accepted() < events || device.inside() > 0 {
            match device.sweep() {
                Ok(0) => thread::yield_now(),
                Ok(_) => (),
                Err(why) => {
                    eprintln!("flows: sweep: {why}");
                    process::exit(1);
                }
            }
        }
        is_over.store(true, Ordering::SeqCst);
        let joined = "a thread ends";
        (
            source.join().expect(joined),
            first.join().expect(joined),
            second.join().expect(joined),
        )
    });
    let (source, (first, some, early), (second, others, late)) = (source?, first?, second?);
    control.shut();
    for queue in 0..2 {
        println!("queue {queue}: {:?}", device.queue_counts(queue));
    }
    for port in [&source, &first, &second] {
        println!("{:?}", port.counts());
    }
    let report = device
        .stop(control, vec![second, source, first])
        .map_err(|(why, ..)| why)?;
    let credits = report.free + report.own + report.pockets;
    println!(
        "{} events, {} out of order, {credits} credits are back",
        some + others,
        early + late
    );
    Ok(early + late == 0
        && some + others == 2 * events
        && credits == u64::from(config.nb_events_limit)
        && report.left.is_empty())
}

fn main() {
    let events = env::args()
        .nth(1)
        .map_or(Ok(1_000_000), |text| text.parse());
    let Ok(events) = events else {
        eprintln!("usage: flows [EVENTS]");
        process::exit(2);
    };
    match run(events) {
        Ok(true) => (),
        Ok(false) => process::exit(1),
        Err(why) => {
            eprintln!("flows: {why}");
            process::exit(1);
        }
    }
}
