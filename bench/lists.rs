//! Times updates that are asked for one at a time and by the list: of the proved store (the program bench/programs/bench_lists), of a mutex, of
//! classic node replication. All threads begin at once.

use crate::classic::Classic;
use crate::proved::{Proved, programs};
use crate::rounds::{Spread, in_turn};
use crate::twins::{Caller, Locked, Mix, Sizes, Twin, call_often};
use std::hint::black_box;
use std::sync::Barrier;
use std::thread;
use std::time::{Duration, Instant};

// How long a round is at least.
const ROUND: Duration = Duration::from_millis(150);

// Updates of a thread by which the length of a round is chosen.
const TRIAL: u64 = 16_000;

const SIZES: Sizes = Sizes { window: 4_096, entries: 64, value: 8 };

// So many threads, which share so many nodes evenly.
#[derive(Clone, Copy)]
struct Crowd {
    threads: usize,
    nodes: usize,
}

impl Crowd {
    // Millions of updates a second, of all threads, if `time` makes so many on each. First it finds out how many a round has.
    fn rate(self, mut time: impl FnMut(u64) -> Duration) -> f64 {
        let trial = time(TRIAL).as_secs_f64();
        let lists = (ROUND.as_secs_f64() / trial).clamp(1.0, 1_000.0);
        let updates = (TRIAL as f64 * lists) as u64 / 16 * 16;
        (self.threads as u64 * updates) as f64 / time(updates).as_secs_f64() / 1e6
    }

    // How long all threads take, if each does `work`.
    fn time(self, work: impl Fn(Caller) -> u64 + Sync) -> Duration {
        let (barrier, work) = (&Barrier::new(self.threads + 1), &work);
        let begun = thread::scope(|scope| {
            for thread in 0..self.threads {
                let caller = Caller { node: thread % self.nodes, slot: thread / self.nodes };
                scope.spawn(move || {
                    barrier.wait();
                    black_box(work(caller))
                });
            }
            barrier.wait();
            Instant::now()
        });
        begun.elapsed()
    }

    fn twin_rate(self, twin: &impl Twin) -> f64 {
        self.rate(|times| self.time(|caller| call_often(twin, caller, Mix { reads: 0, times })))
    }

    fn mutex_rate(self, list: u64) -> f64 {
        let locked = Locked::new(programs(), SIZES);
        self.rate(|times| self.time(|_| locked.update_by_lists(times, list)))
    }

    // By calls of one update (`invoke`, `update`), or by lists (`each`). The time to start the threads is taken off.
    fn proved_rate(self, path: &str, word: &str, list: usize) -> f64 {
        let threads = self.threads / self.nodes;
        let mut proved = Proved::start_lists(path, self.nodes, threads, list, SIZES);
        let mut timed = |times| {
            let start = Instant::now();
            proved.calls(word, times);
            start.elapsed()
        };
        timed(TRIAL);
        let begun = timed(0);
        let rate = self.rate(|times| timed(times).saturating_sub(begun));
        proved.end();
        rate
    }
}

const NAMES: [&str; 9] = ["invoke", "update", "4 at once", "8", "16", "mutex, 1", "4", "16 a lock", "classic"];

// Millions of updates a second, in the order of the names. A node has at most 16 slots, so four threads of one node have lists of 4 at most.
fn measured(path: &str, crowd: Crowd) -> [Spread; 9] {
    let most = 16 * crowd.nodes / crowd.threads;
    in_turn(|| {
        let lists = [4, 8, 16].map(|list| if list > most { f64::NAN } else { crowd.proved_rate(path, "each", list) });
        [
            crowd.proved_rate(path, "invoke", 1),
            crowd.proved_rate(path, "update", 1),
            lists[0],
            lists[1],
            lists[2],
            crowd.mutex_rate(1),
            crowd.mutex_rate(4),
            crowd.mutex_rate(16),
            crowd.twin_rate(&Classic::new(programs(), SIZES, crowd.nodes)),
        ]
    })
}

/// Prints how many updates a second each way makes, by threads and nodes: medians, and half the spread of the rounds.
pub fn print(path: &str) {
    print!("{:<28}", "millions of updates a second");
    NAMES.iter().for_each(|name| print!("{name:>14}"));
    println!();
    for (threads, nodes) in [(1, 1), (2, 1), (2, 2), (4, 1), (4, 2)] {
        print!("{:<28}", format!("{threads} threads, {nodes} nodes"));
        for spread in measured(path, Crowd { threads, nodes }) {
            if spread.median.is_nan() { print!("{:>14}", "-") } else { print!("{spread:>14}") }
        }
        println!();
    }
}
