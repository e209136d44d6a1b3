//! Times the proved store beside four stores in plain Rust on 1, 2 and 4 threads and 1 and 2 nodes, with none, 90 and all of 100 calls
//! reads, and prints how many calls a second each makes. All threads begin at once, and a round is long enough that they run beside each
//! other.

use crate::classic::Classic;
use crate::proved::{Proved, programs};
use crate::rounds::{Spread, in_turn};
use crate::twins::{APART, Caller, EXCHANGED, Locked, Mix, PLAIN, ReadersWriter, Replicated, Sizes, Twin, call_often};
use std::hint::black_box;
use std::sync::Barrier;
use std::thread;
use std::time::{Duration, Instant};

// How long a round is at least.
const ROUND: Duration = Duration::from_millis(200);

// Calls of a thread by which the length of a round is chosen.
const TRIAL: u64 = 20_000;

const SIZES: Sizes = Sizes { window: 4_096, entries: 64, value: 8 };

/// So many threads, which go round the nodes, and how many of 100 calls are reads.
#[derive(Clone, Copy)]
struct Load {
    threads: usize,
    nodes: usize,
    reads: u64,
}

impl Load {
    fn millions(&self, calls: u64, time: Duration) -> f64 {
        (self.threads as u64 * calls) as f64 / time.as_secs_f64() / 1e6
    }
}

// How long the threads take for so many calls each, from when all of them are there.
fn twin_time(twin: &impl Twin, load: Load, times: u64) -> Duration {
    let barrier = Barrier::new(load.threads + 1);
    let begun = thread::scope(|scope| {
        for thread in 0..load.threads {
            let caller = Caller { node: thread % load.nodes, slot: thread / load.nodes };
            let barrier = &barrier;
            scope.spawn(move || {
                barrier.wait();
                black_box(call_often(twin, caller, Mix { reads: load.reads, times }))
            });
        }
        barrier.wait();
        Instant::now()
    });
    begun.elapsed()
}

// Calls of a thread that take at least a round.
fn calls_in_round(trial: Duration) -> u64 {
    (TRIAL as f64 * (ROUND.as_secs_f64() / trial.as_secs_f64()).clamp(1.0, 1_000.0)) as u64
}

fn twin_rate(twin: &impl Twin, load: Load) -> f64 {
    let calls = calls_in_round(twin_time(twin, load, TRIAL));
    load.millions(calls, twin_time(twin, load, calls))
}

fn proved_time(proved: &mut Proved, reads: u64, times: u64) -> Duration {
    let start = Instant::now();
    proved.calls(&format!("threads {reads}"), times);
    start.elapsed()
}

// A store of its own for each round; the time to start the threads is taken off.
fn proved_rate(path: &str, load: Load) -> f64 {
    let mut proved = Proved::start(path, load.nodes, load.threads.div_ceil(load.nodes), SIZES);
    let trial = proved_time(&mut proved, load.reads, TRIAL);
    let calls = calls_in_round(trial);
    let idle = proved_time(&mut proved, load.reads, 0);
    let time = proved_time(&mut proved, load.reads, calls).saturating_sub(idle);
    proved.end();
    load.millions(calls, time)
}

// Millions of calls a second: the proved store, the same design unproved, classic node replication, the readers-writer lock, the mutex; and the
// same design where a put is an exchange, and where the value lies apart too.
fn compared(path: &str, load: Load) -> [Spread; 7] {
    in_turn(|| {
        [
            proved_rate(path, load),
            twin_rate(&Replicated::<PLAIN>::new(programs(), SIZES, load.nodes), load),
            twin_rate(&Classic::new(programs(), SIZES, load.nodes), load),
            twin_rate(&ReadersWriter::new(programs(), SIZES), load),
            twin_rate(&Locked::new(programs(), SIZES), load),
            twin_rate(&Replicated::<EXCHANGED>::new(programs(), SIZES, load.nodes), load),
            twin_rate(&Replicated::<APART>::new(programs(), SIZES, load.nodes), load),
        ]
    })
}

/// Prints how many calls a second each store makes, by threads, nodes and reads: medians, and half the spread of the rounds.
pub fn print(path: &str) {
    println!("\n{:<32}{:>13}{:>13}{:>13}{:>13}{:>13}{:>9}{:>9}", "millions of calls a second", "proved", "unproved", "classic", "readers", "mutex", "to unpr.", "to mutex");
    let mut by_table = String::new();
    for reads in [0, 90, 100] {
        for (nodes, threads) in [(1, 1), (1, 2), (1, 4), (2, 2), (2, 4)] {
            let [proved, replicated, classic, readers_writer, locked, exchanged, apart] = compared(path, Load { threads, nodes, reads });
            let name = format!("{reads} % reads, {threads} threads, {nodes} nodes");
            let to = |other: Spread| proved.median / other.median;
            println!("{name:<32}{proved:>13}{replicated:>13}{classic:>13}{readers_writer:>13}{locked:>13}{:>9.2}{:>9.2}", to(replicated), to(locked));
            by_table += &format!("{name:<32}{exchanged:>13}{:>11.2}{apart:>13}{:>11.2}\n", to(exchanged), to(apart));
        }
    }
    println!("\n{:<32}{:>13}{:>11}{:>13}{:>11}\n{by_table}", "unproved, by its table", "exchanges", "proved to", "apart too", "proved to");
}
