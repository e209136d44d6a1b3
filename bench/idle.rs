//! What an update of the proved store costs on two nodes whose maps are large, and what it costs beside a third node that makes no call: two
//! threads update, one on each of the two nodes, and the time to start them is taken off.

use crate::proved::Proved;
use crate::rounds::in_turn;
use crate::twins::Sizes;
use std::time::Instant;

// Updates of each thread in a round.
const UPDATES: u64 = 32_768;

// Nanoseconds an update, of all that both threads make.
fn update_time(path: &str, nodes: usize, window: usize) -> f64 {
    let mut proved = Proved::start(path, nodes, 1, Sizes { window, entries: 65_536, value: 248 });
    let mut timed = |times| {
        let start = Instant::now();
        proved.calls("busy 2 0", times);
        start.elapsed()
    };
    timed(1_000);
    let begun = timed(0);
    let made = timed(UPDATES).saturating_sub(begun);
    proved.end();
    made.as_nanos() as f64 / (2 * UPDATES) as f64
}

/// Prints what an update costs on two nodes, and beside a third that is idle.
pub fn print(path: &str) {
    println!("\n{:<32}{:>18}{:>18}{:>10}", "ns an update, 16 MiB, window", "two nodes", "a third, idle", "ratio");
    for window in [64, 4_096] {
        let [two, three] = in_turn(|| [2, 3].map(|nodes| update_time(path, nodes, window)));
        println!("{window:<32}{two:>18}{three:>18}{:>10.2}", three.median / two.median);
    }
}
