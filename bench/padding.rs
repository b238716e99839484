//! A model of a ring with eight chunks: its counts and entries side by side, or each on cache lines of its own. Four threads draw and
//! one gives, and each call is timed by itself.

use std::cell::UnsafeCell;
use std::env;
use std::hint;
use std::process::ExitCode;
use std::sync::atomic::{AtomicBool, AtomicU64, Ordering};
use std::thread;
use std::time::Instant;

const CHUNKS: u64 = 8;
const ENTRIES: usize = 16;
const DRAWS: u64 = 65_536;

/// What a draw adds: the drawn numbers stand in the upper half of the counts, the published ones in the lower.
const DRAWN: u64 = 1 << 32;

/// How many turns a thread rests behind a draw that got a chunk.
const RESTS: u32 = 64;

/// A call that took so many nanoseconds was kept from its processor, and is not counted.
const LATE: u128 = 10_000;

/// As large as a chunk: four words.
type Chunk = [u64; 4];

#[derive(Default)]
struct Entry {
    full: AtomicU64,
    chunk: UnsafeCell<Chunk>,
}

#[derive(Default)]
#[repr(align(128))]
struct Apart<T>(T);

/// Where counts and entries stand.
trait Ring: Sync + Default {
    fn counts(&self) -> &AtomicU64;
    fn entry(&self, number: u64) -> &Entry;
}

#[derive(Default)]
struct Close {
    counts: AtomicU64,
    entries: [Entry; ENTRIES],
}

#[derive(Default)]
struct Wide {
    counts: Apart<AtomicU64>,
    entries: [Apart<Entry>; ENTRIES],
}

// An entry's chunk is touched by the one whose number stands for it.
unsafe impl Sync for Close {}
unsafe impl Sync for Wide {}

impl Ring for Close {
    fn counts(&self) -> &AtomicU64 {
        &self.counts
    }
    fn entry(&self, number: u64) -> &Entry {
        &self.entries[number as usize % ENTRIES]
    }
}

impl Ring for Wide {
    fn counts(&self) -> &AtomicU64 {
        &self.counts.0
    }
    fn entry(&self, number: u64) -> &Entry {
        &self.entries[number as usize % ENTRIES].0
    }
}

/// A ring all of whose chunks wait.
fn full<R: Ring>() -> R {
    let ring = R::default();
    for number in 0..CHUNKS {
        ring.entry(number).full.store(1, Ordering::SeqCst);
    }
    ring.counts().store(CHUNKS, Ordering::SeqCst);
    ring
}

#[inline(never)]
fn draw<R: Ring>(ring: &R) -> Option<Chunk> {
    let counts = ring.counts().fetch_add(DRAWN, Ordering::SeqCst);
    let (drawn, published) = (counts >> 32, counts % DRAWN);
    if published <= drawn {
        return None;
    }
    let entry = ring.entry(drawn);
    let chunk = unsafe { *entry.chunk.get() };
    entry.full.store(0, Ordering::SeqCst);
    Some(chunk)
}

/// Whether the chunk is in the ring: not where its number was drawn before, or its entry is not yet empty.
#[inline(never)]
fn give<R: Ring>(ring: &R, number: &mut u64, chunk: Chunk) -> bool {
    let entry = ring.entry(*number);
    if entry.full.load(Ordering::SeqCst) != 0 {
        return false;
    }
    unsafe { *entry.chunk.get() = chunk };
    entry.full.store(1, Ordering::SeqCst);
    let counts = ring.counts().fetch_add(1, Ordering::SeqCst);
    *number += 1;
    let missed = counts >> 32 > counts % DRAWN;
    if missed {
        entry.full.store(0, Ordering::SeqCst);
    }
    !missed
}

#[derive(Default)]
struct Spent {
    calls: u64,
    nanos: u128,
}

impl Spent {
    fn add(&mut self, start: Instant) {
        let nanos = start.elapsed().as_nanos();
        if nanos < LATE {
            self.calls += 1;
            self.nanos += nanos;
        }
    }

    fn each(&self) -> f64 {
        self.nanos as f64 / self.calls.max(1) as f64
    }
}

/// One thread's way to the one that gives: a place for each chunk there is.
#[derive(Default)]
struct Way {
    places: [Apart<(AtomicBool, UnsafeCell<Chunk>)>; CHUNKS as usize],
}

unsafe impl Sync for Way {}

fn draw_all<R: Ring>(ring: &R, way: &Way) -> Spent {
    let mut spent = Spent::default();
    let mut sent = 0;
    for _ in 0..DRAWS {
        let start = Instant::now();
        let Some(chunk) = draw(ring) else {
            thread::yield_now();
            continue;
        };
        spent.add(start);
        let (is_full, place) = &way.places[sent % CHUNKS as usize].0;
        unsafe { *place.get() = chunk };
        is_full.store(true, Ordering::Release);
        sent += 1;
        for _ in 0..RESTS {
            hint::spin_loop();
        }
    }
    spent
}

fn give_all<R: Ring>(ring: &R, ways: &[Way], over: &AtomicU64) -> Spent {
    let mut spent = Spent::default();
    let mut number = CHUNKS;
    let mut came = vec![0; ways.len()];
    loop {
        let last = over.load(Ordering::SeqCst) == ways.len() as u64;
        let mut idle = true;
        for (way, came) in ways.iter().zip(&mut came) {
            let (is_full, place) = &way.places[*came % CHUNKS as usize].0;
            if !is_full.load(Ordering::Acquire) {
                continue;
            }
            let chunk = unsafe { *place.get() };
            is_full.store(false, Ordering::Release);
            *came += 1;
            idle = false;
            let mut start = Instant::now();
            while !give(ring, &mut number, chunk) {
                start = Instant::now();
            }
            spent.add(start);
        }
        if last && idle {
            return spent;
        }
    }
}

/// What draws and gives take with four threads that draw and one that gives.
fn together<R: Ring>() -> (f64, f64) {
    let ring: R = full();
    let ways: [Way; 4] = Default::default();
    let over = AtomicU64::new(0);
    thread::scope(|threads| {
        let giver = threads.spawn(|| give_all(&ring, &ways, &over));
        let drawers = ways.each_ref().map(|way| {
            let (ring, over) = (&ring, &over);
            threads.spawn(move || {
                let spent = draw_all(ring, way);
                over.fetch_add(1, Ordering::SeqCst);
                spent
            })
        });
        let mut drawn = Spent::default();
        for drawer in drawers {
            let spent = drawer.join().unwrap();
            drawn.calls += spent.calls;
            drawn.nanos += spent.nanos;
        }
        (drawn.each(), giver.join().unwrap().each())
    })
}

/// What a draw and a give take in one thread.
fn alone<R: Ring>() -> f64 {
    let ring: R = full();
    let mut number = CHUNKS;
    let mut given = 0u32;
    let start = Instant::now();
    for _ in 0..DRAWS * 64 {
        if let Some(chunk) = draw(&ring) {
            given += u32::from(give(&ring, &mut number, chunk));
        }
    }
    start.elapsed().as_nanos() as f64 / f64::from(given.max(1))
}

fn main() -> ExitCode {
    let Some(times) = env::args().nth(1).and_then(|word| word.parse::<u32>().ok()) else {
        eprintln!("how many times?");
        return ExitCode::FAILURE;
    };
    for _ in 0..times {
        println!("alone: {:.1} ns a draw and a give, apart {:.1}", alone::<Close>(), alone::<Wide>());
        let (close, wide) = (together::<Close>(), together::<Wide>());
        println!(
            "with four and one: {:.1} ns a draw and {:.1} a give, apart {:.1} and {:.1}",
            close.0, close.1, wide.0, wide.1
        );
    }
    ExitCode::SUCCESS
}
