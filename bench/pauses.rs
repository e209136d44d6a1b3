//! The longest pause of an update by the bytes of the maps and the window: calls are made one at a time over the proved store's pipe, and
//! the longest of them is told beside the pipe's own, and beside that of the same design in plain Rust. And the pause in which the store is
//! closed and opened again on the state that it ends in.

use crate::proved::{Proved, programs};
use crate::rounds::in_turn;
use crate::twins::{Caller, PLAIN, Replicated, Sizes, Twin};
use std::hint::black_box;
use std::time::Instant;

// The longest of so many, in microseconds.
fn longest(times: usize, mut call: impl FnMut() -> u64) -> f64 {
    let mut longest = 0.0f64;
    for _ in 0..times {
        let start = Instant::now();
        black_box(call());
        longest = longest.max(start.elapsed().as_nanos() as f64 / 1e3);
    }
    longest
}

fn proved_pauses(path: &str, sizes: Sizes, times: usize) -> [f64; 2] {
    let mut proved = Proved::start(path, 1, 1, sizes);
    proved.calls("update", 1);
    let pipe = longest(times, || proved.calls("update", 0));
    let call = longest(times, || proved.calls("update", 1));
    proved.end();
    [pipe, call]
}

// How long it takes to close a store of so many nodes and to open one on its state, in microseconds.
fn reopening(path: &str, nodes: usize, sizes: Sizes) -> f64 {
    let mut proved = Proved::start(path, nodes, 1, sizes);
    proved.calls("update", 100);
    let start = Instant::now();
    proved.calls("reopen", 0);
    let pause = start.elapsed().as_nanos() as f64 / 1e3;
    proved.calls("update", 1);
    proved.end();
    pause
}

/// Prints the longest pause of an update, in microseconds, while two windows of updates are made.
pub fn print(path: &str) {
    println!("\n{:<10}{:>8}{:>18}{:>18}{:>18}", "maps", "window", "an empty call, us", "proved update", "unproved");
    for (name, entries, value) in [("1 KiB", 64, 8), ("1 MiB", 65_536, 8), ("16 MiB", 65_536, 248)] {
        for window in [64, 4_096] {
            let sizes = Sizes { window, entries, value };
            let times = 2 * window + 100;
            let [pipe, proved, unproved] = in_turn(|| {
                let [pipe, proved] = proved_pauses(path, sizes, times);
                let twin = Replicated::<PLAIN>::new(programs(), sizes, 1);
                let unproved = longest(times, || twin.update(Caller { node: 0, slot: 0 }, [1, 0, 0, 0]));
                [pipe, proved, unproved]
            });
            println!("{name:<10}{window:>8}{pipe:>18}{proved:>18}{unproved:>18}");
        }
    }
    println!("\n{:<10}{:>26}{:>18}", "maps", "reopened, us: one node", "four nodes");
    for (name, entries, value) in [("1 KiB", 64, 8), ("1 MiB", 65_536, 8), ("16 MiB", 65_536, 248)] {
        let sizes = Sizes { window: 64, entries, value };
        let [one, four] = in_turn(|| [1, 4].map(|nodes| reopening(path, nodes, sizes)));
        println!("{name:<10}{one:>26}{four:>18}");
    }
}
