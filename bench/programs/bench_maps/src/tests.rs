//! What the helpers answer to four keys, added up, in a map that three of them are put into with the numbers 0 to 2.

use super::{Job, bench_keys};
use std::alloc::Global;

const KEYS: [u8; 16] = [1, 0, 0, 0, 2, 0, 0, 0, 3, 0, 0, 0, 4, 0, 0, 0];

fn sum(alloc: Global, work: u32, to: usize, times: u64) -> u64 {
    let job = Job {
        size: 4,
        entries: 4,
        fill: 3,
        from: 0,
        to,
        work,
        times,
    };
    bench_keys(alloc, &KEYS, &job)
}

// The numbers once more at the end, and a lookup of the fourth key adds 1.
#[test]
fn looks_up(rt: HostRuntime) {
    assert_eq!(rt; sum(rt.alloc(), 0, 4, 2), 11);
}

#[test]
fn updates(rt: HostRuntime) {
    assert_eq!(rt; sum(rt.alloc(), 1, 4, 2), 3);
}

// The fourth key is not there at first: ENOENT is 2.
#[test]
fn deletes_and_inserts(rt: HostRuntime) {
    assert_eq!(rt; sum(rt.alloc(), 2, 4, 2), 1);
}

#[test]
fn answers_nothing_where_there_are_too_few_keys(rt: HostRuntime) {
    assert_eq!(rt; sum(rt.alloc(), 0, 5, 2), 0);
}
