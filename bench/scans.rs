//! A scan of a whole hash, so many entries a call: of the proved store, and beside it what copying them out of a vector takes, under a mutex that
//! is taken for each call.

use crate::proved::Proved;
use crate::rounds::in_turn;
use crate::twins::Sizes;
use std::hint::black_box;
use std::sync::Mutex;
use std::time::Instant;

const KEYS: u32 = 65_536;
const PAGE: usize = 16;

// How long this takes, in milliseconds.
fn milliseconds(call: impl FnOnce() -> u64) -> f64 {
    let start = Instant::now();
    black_box(call());
    start.elapsed().as_nanos() as f64 / 1e6
}

// The sum of the keys and values that are given, call by call.
fn copied(entries: &Mutex<Vec<(u32, u32)>>) -> u64 {
    let (mut page, mut from, mut sum) = ([(0, 0); PAGE], 0, 0);
    loop {
        let entries = entries.lock().expect("no thread fails");
        let given = (entries.len() - from).min(PAGE);
        page[..given].copy_from_slice(&entries[from..from + given]);
        drop(entries);
        sum += black_box(&page)[..given].iter().map(|(key, value)| u64::from(*key) + u64::from(*value)).sum::<u64>();
        from += given;
        if given < PAGE {
            return sum;
        }
    }
}

/// Prints how long a scan takes in all, and what an entry of it does.
pub fn print(path: &str) {
    let sizes = Sizes { window: 4_096, entries: 64, value: 8 };
    let mut proved = Proved::start_with_hash(path, sizes, KEYS);
    assert_eq!(proved.calls("put", KEYS.into()), 0, "there is room for each key");
    let vector = Mutex::new((0..KEYS).map(|key| (key, key)).collect());
    assert_eq!(proved.calls("scan", 1), copied(&vector), "each key is given once");
    let [pipe, scan, plain] = in_turn(|| {
        [milliseconds(|| proved.calls("scan", 0)), milliseconds(|| proved.calls("scan", 1)), milliseconds(|| copied(&vector))]
    });
    proved.end();
    println!("\n{:<28}{:>18}{:>18}{:>18}{:>10}", "65,536 keys, 16 a call", "an empty call, ms", "a scan, ms", "a vector, ms", "ns a key");
    println!("{:<28}{pipe:>18}{scan:>18}{plain:>18}{:>10.1}", "a hash", (scan.median - pipe.median) * 1e6 / f64::from(KEYS));
}
