//! What a snapshot of large maps takes beside a copy of as many bytes, and what two nodes lose while a third one takes one after another.

use crate::proved::Proved;
use crate::rounds::in_turn;
use crate::twins::Sizes;
use std::hint::black_box;
use std::time::Instant;

const SIZES: Sizes = Sizes { window: 4_096, entries: 65_536, value: 248 };
const BYTES: usize = 16 << 20;

// How many snapshots are timed.
const TIMES: u64 = 20;

// What two of three nodes do while the third takes snapshots: so many calls each, of which so many in 100 are reads; and so many looks of the third
// between two snapshots. Ten million looks take some 50 ms.
const BESIDE: [(&str, u64, u64, u32); 3] = [
    ("100,000 updates each", 100_000, 0, 0),
    ("2,000,000 with pauses", 2_000_000, 0, 10_000_000),
    ("2,000,000 reads each", 2_000_000, 100, 0),
];

// How long this takes, in milliseconds.
fn milliseconds(call: impl FnOnce() -> u64) -> f64 {
    let start = Instant::now();
    black_box(call());
    start.elapsed().as_nanos() as f64 / 1e6
}

fn copied(from: &[u8], into: &mut [u8]) -> u64 {
    for _ in 0..TIMES {
        black_box(&mut *into).copy_from_slice(black_box(from));
    }
    0
}

// How long two of three nodes take for their calls, of which so many in 100 are reads, and how many snapshots the third one took.
fn beside(path: &str, words: &str, calls: u64) -> [f64; 2] {
    let mut proved = Proved::start(path, 3, 1, SIZES);
    proved.calls("update", 1);
    let mut taken = 0;
    let time = milliseconds(|| {
        taken = proved.calls(words, calls);
        taken
    });
    proved.end();
    [time, taken as f64]
}

/// Prints both, in milliseconds.
pub fn print(path: &str) {
    let (from, mut into) = (vec![1u8; BYTES], vec![0u8; BYTES]);
    let mut proved = Proved::start(path, 1, 1, SIZES);
    proved.calls("update", 1);
    proved.calls("snapshot", 1);
    let [room, taken, plain] = in_turn(|| {
        let room = milliseconds(|| proved.calls("snapshot", 1));
        let taken = milliseconds(|| proved.calls("snapshot", 1 + TIMES));
        [room, (taken - room) / TIMES as f64, milliseconds(|| copied(&from, &mut into)) / TIMES as f64]
    });
    proved.end();
    println!("\n{:<28}{:>18}{:>18}{:>22}", "16 MiB of maps, ms", "a snapshot", "a memcpy", "room and a snapshot");
    println!("{:<28}{taken:>18}{plain:>18}{room:>22}", "one node");
    println!("\n{:<28}{:>18}{:>22}{:>14}", "two of three nodes, ms", "the third idle", "it takes snapshots", "so many");
    for (name, calls, reads, pause) in BESIDE {
        let [idle, taking, taken] = in_turn(|| {
            let idle = beside(path, &format!("busy 2 {reads}"), calls);
            let taking = beside(path, &format!("beside {pause} 2 {reads}"), calls);
            [idle[0], taking[0], taking[1]]
        });
        println!("{name:<28}{idle:>18}{taking:>22}{:>14.0}", taken.median);
    }
}
