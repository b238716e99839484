//! What a draw and a give of a ring cannot do without, in Rust: a fetch-and-add each on one word. In one thread, and with four
//! threads that draw and one that gives.

use std::env;
use std::process::ExitCode;
use std::sync::atomic::{AtomicU64, Ordering};
use std::thread;
use std::time::{Duration, Instant};

/// What a draw adds: the drawn numbers stand in the upper half of the word, the published ones in the lower.
const DRAWN: u64 = 1 << 32;

/// Draws and gives so often, in one thread.
fn alone(word: &AtomicU64, rounds: u32) -> Duration {
    let start = Instant::now();
    for _ in 0..rounds {
        word.fetch_add(DRAWN, Ordering::SeqCst);
        word.fetch_add(1, Ordering::SeqCst);
    }
    start.elapsed()
}

/// Draws so often in each of four threads, and gives as often as all of them in a fifth.
fn together(word: &AtomicU64, rounds: u32) -> Duration {
    let start = Instant::now();
    thread::scope(|threads| {
        for _ in 0..4 {
            threads.spawn(|| {
                for _ in 0..rounds {
                    word.fetch_add(DRAWN, Ordering::SeqCst);
                }
            });
        }
        threads.spawn(|| {
            for _ in 0..4 * u64::from(rounds) {
                word.fetch_add(1, Ordering::SeqCst);
            }
        });
    });
    start.elapsed()
}

fn per(time: Duration, pairs: u64) -> f64 {
    time.as_nanos() as f64 / pairs.max(1) as f64
}

fn main() -> ExitCode {
    let Some(rounds) = env::args().nth(1).and_then(|word| word.parse().ok()) else {
        eprintln!("how many rounds?");
        return ExitCode::FAILURE;
    };
    let word = AtomicU64::new(0);
    println!("alone: {:.1} ns a draw and a give", per(alone(&word, rounds), rounds.into()));
    println!(
        "with four drawers and a giver: {:.1} ns a draw and a give",
        per(together(&word, rounds), 4 * u64::from(rounds))
    );
    ExitCode::SUCCESS
}
