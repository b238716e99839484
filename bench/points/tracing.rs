//! What an event of the crate `tracing` costs its thread, where a subscriber writes its bytes into a ring of the thread's own. No clock
//! is read. Words and lines as in point.c.

use std::cell::RefCell;
use std::fmt::Debug;
use tracing::field::{Field, Visit};
use tracing::span::{Attributes, Id, Record};
use tracing::{Event, Metadata, Subscriber};

struct Ring {
    bytes: Vec<u8>,
    at: usize,
}

impl Ring {
    fn write(&mut self, payload: &[u8]) {
        let end = self.at + 10 + payload.len();
        let (at, end) = if end > self.bytes.len() { (0, 10 + payload.len()) } else { (self.at, end) };
        self.bytes[at..at + 2].copy_from_slice(&(payload.len() as u16).to_be_bytes());
        self.bytes[at + 10..end].copy_from_slice(payload);
        self.at = end;
    }
}

thread_local! { static RING: RefCell<Ring> = RefCell::new(Ring { bytes: Vec::new(), at: 0 }) }

struct IntoRing;

impl Visit for IntoRing {
    fn record_str(&mut self, _field: &Field, value: &str) {
        RING.with(|ring| ring.borrow_mut().write(value.as_bytes()));
    }
    fn record_debug(&mut self, _field: &Field, _value: &dyn Debug) {}
}

struct Rings;

impl Subscriber for Rings {
    fn enabled(&self, _metadata: &Metadata<'_>) -> bool {
        true
    }
    fn new_span(&self, _span: &Attributes<'_>) -> Id {
        Id::from_u64(1)
    }
    fn record(&self, _span: &Id, _values: &Record<'_>) {}
    fn record_follows_from(&self, _span: &Id, _follows: &Id) {}
    fn event(&self, event: &Event<'_>) {
        event.record(&mut IntoRing);
    }
    fn enter(&self, _span: &Id) {}
    fn exit(&self, _span: &Id) {}
}

fn processor_time() -> f64 {
    let mut t = libc::timespec { tv_sec: 0, tv_nsec: 0 };
    unsafe { libc::clock_gettime(libc::CLOCK_THREAD_CPUTIME_ID, &mut t) };
    t.tv_sec as f64 * 1e9 + t.tv_nsec as f64
}

fn writes(payload: &str, room: usize, points: usize, begins: &std::sync::Barrier) -> f64 {
    RING.with(|ring| *ring.borrow_mut() = Ring { bytes: vec![1; room], at: 0 });
    begins.wait();
    let from = processor_time();
    for _ in 0..points {
        tracing::info!(payload);
    }
    processor_time() - from
}

fn main() {
    let words: Vec<String> = std::env::args().collect();
    let number = |i: usize| words[i].parse::<usize>().unwrap();
    let (threads, room, reps) = (number(2), number(3) * number(4), number(5));
    tracing::subscriber::set_global_default(Rings).unwrap();
    for bytes in (6..words.len()).map(number) {
        let payload = "7".repeat(bytes);
        let points = (4 * room / (bytes + 10)).max(200_000);
        for rep in 0..=reps {
            let begins = std::sync::Barrier::new(threads);
            let all: f64 = std::thread::scope(|scope| {
                let made: Vec<_> = (0..threads).map(|_| scope.spawn(|| writes(&payload, room, points, &begins))).collect();
                made.into_iter().map(|thread| thread.join().unwrap()).sum()
            });
            if rep > 0 {
                let mib = room as f64 / 1048576.0;
                let each = all / points as f64 / threads as f64;
                println!("{} {} {} {:.2} {:.2} {} 0 0", words[1], threads, bytes, mib, each, points * threads);
            }
        }
    }
}
