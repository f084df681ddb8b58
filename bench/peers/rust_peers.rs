//! What a pair costs at Rust's lock for readers and writers, which is taken to read and given up, and what by bare atomic steps: a word is
//! counted up by a compare-exchange, and down again by one step. By one thread, and by several at one lock and at one word.
//!
//! For each number of threads it prints the least and the median of ten rounds, a line each: `a_pair`, `peers`, the threads, what it is, and
//! the nanoseconds that a pair takes a thread.
use std::hint::black_box;
use std::sync::atomic::{AtomicU64, Ordering};
use std::sync::{Barrier, RwLock};
use std::thread;
use std::time::Instant;

const ROUNDS: usize = 10;

const TURNS: u32 = 100_000;

/// What pairs are made on.
trait Peer: Sync {
    fn name(&self) -> &'static str;

    /// Makes one pair. What it saw keeps the compiler from leaving it out.
    fn pair(&self) -> u64;

    /// Whether all pairs are over.
    fn is_over(&self) -> bool;
}

impl Peer for RwLock<u64> {
    fn name(&self) -> &'static str {
        "rust_rwlock"
    }

    fn pair(&self) -> u64 {
        *self.read().unwrap()
    }

    fn is_over(&self) -> bool {
        self.try_write().is_ok()
    }
}

impl Peer for AtomicU64 {
    fn name(&self) -> &'static str {
        "bare_steps"
    }

    fn pair(&self) -> u64 {
        let mut found = self.load(Ordering::SeqCst);
        while let Err(other) =
            self.compare_exchange(found, found + 1, Ordering::SeqCst, Ordering::SeqCst)
        {
            found = other;
        }
        self.fetch_sub(1, Ordering::SeqCst)
    }

    fn is_over(&self) -> bool {
        self.load(Ordering::SeqCst) == 0
    }
}

/// What a thread does: so many pairs, once all threads are there. The nanoseconds that they took.
fn pairs<P: Peer>(peer: &P, gate: &Barrier) -> u128 {
    gate.wait();
    let began = Instant::now();
    let seen = (0..TURNS).fold(0u64, |seen, _| seen.wrapping_add(peer.pair()));
    black_box(seen);
    began.elapsed().as_nanos()
}

/// A round of so many threads: the nanoseconds of a pair in the thread that took longest.
fn timed<P: Peer>(peer: &P, threads: usize) -> f64 {
    let gate = Barrier::new(threads);
    let longest = thread::scope(|scope| {
        let others: Vec<_> = (1..threads)
            .map(|_| scope.spawn(|| pairs(peer, &gate)))
            .collect();
        let mine = pairs(peer, &gate);
        others
            .into_iter()
            .map(|other| other.join().unwrap())
            .fold(mine, u128::max)
    });
    assert!(peer.is_over(), "a pair isn't over");
    longest as f64 / f64::from(TURNS)
}

/// All rounds of so many threads. As the median the upper of the two in the middle is told.
fn tell<P: Peer>(peer: &P, threads: usize) {
    let mut rounds: Vec<f64> = (0..ROUNDS).map(|_| timed(peer, threads)).collect();
    rounds.sort_by(f64::total_cmp);
    let name = peer.name();
    println!("a_pair peers {threads} {name}_least {:.1}", rounds[0]);
    println!(
        "a_pair peers {threads} {name}_median {:.1}",
        rounds[ROUNDS / 2]
    );
}

fn main() {
    for threads in [1, 2, 4] {
        tell(&RwLock::new(0), threads);
        tell(&AtomicU64::new(0), threads);
    }
}
