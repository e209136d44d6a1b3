//! Times the proved store (the program bench/programs/bench_store, whose path is the first word) beside stores in plain Rust. On one thread it
//! checks that all give the same replies, and prints what an update and a ready read cost, an update by the bytes of the maps and the
//! window, the longest pause of one, and what a scan of a hash and a snapshot cost; then it prints how many calls a second several threads make, what an
//! update costs beside a node that is idle, and what memory the store has as its history grows: the last two, and the snapshots, with the word
//! `idle`, `endless`, `threads` or `snapshots` after the path alone. With `lists` it times updates by the list (bench/programs/bench_lists). With `replicated` or `locked`, `update` or `read`, and a number in place of the path it makes so many
//! calls of that twin alone, for a tool that counts processor instructions.

mod classic;
mod endless;
mod host;
mod idle;
mod interpreter;
mod lists;
mod pauses;
mod proved;
mod rounds;
mod scans;
mod snapshots;
mod threads;
mod twins;

use proved::{BUMP, PEEK, Proved, bytes, programs};
use std::hint::black_box;
use std::time::{Duration, Instant};
use twins::{Caller, Locked, Mix, PLAIN, Replicated, Sizes, Twin, call_often};

unsafe extern "C" {
    // Runs a program so often on an array of so many counters: see bench/programs/bench_machine.
    fn bench_run(code: *const u8, code_len: usize, argument: *const u8, argument_len: usize, entries: u32, times: u64) -> u64;
}

// Many short rounds, of which the best counts, so that other work of the machine matters less.
const ROUNDS: usize = 24;

#[derive(Clone, Copy)]
enum Call {
    Update,
    Read,
}

// The word of the proved store's program for it.
fn word(call: Call) -> &'static str {
    match call {
        Call::Update => "update",
        Call::Read => "read",
    }
}

// The sum of the replies of so many calls of one kind.
fn twin_calls(twin: &impl Twin, call: Call, times: u64) -> u64 {
    let reads = match call {
        Call::Update => 0,
        Call::Read => 100,
    };
    call_often(twin, Caller { node: 0, slot: 0 }, Mix { reads, times })
}

fn timed(f: impl FnOnce() -> u64) -> (u64, Duration) {
    let start = Instant::now();
    let sum = f();
    (sum, start.elapsed())
}

/// Nanoseconds a call of the proved store, of the same design unproved, and of the mutex: the best of some rounds.
fn compared(path: &str, sizes: Sizes, call: Call, times: u64) -> [f64; 3] {
    let mut proved = Proved::start(path, 1, 1, sizes);
    let replicated = Replicated::<PLAIN>::new(programs(), sizes, 1);
    let locked = Locked::new(programs(), sizes);
    // So that reads have counts to tell.
    let counted = proved.calls(word(Call::Update), 1_000);
    assert!(counted == twin_calls(&replicated, Call::Update, 1_000) && counted == twin_calls(&locked, Call::Update, 1_000), "the replies differ");
    let mut best = [Duration::MAX; 4];
    for _ in 0..ROUNDS {
        let measured = [
            timed(|| proved.calls(word(call), 0)),
            timed(|| proved.calls(word(call), times)),
            timed(|| twin_calls(&replicated, call, times)),
            timed(|| twin_calls(&locked, call, times)),
        ];
        assert!(measured[2..].iter().all(|m| m.0 == measured[1].0), "the replies differ");
        for (best, (_, time)) in best.iter_mut().zip(measured) {
            *best = (*best).min(time);
        }
    }
    proved.end();
    let [idle, proved, replicated, locked] = best.map(|time| time.as_nanos() as f64 / times as f64);
    [proved - idle, replicated, locked]
}

/// Nanoseconds a run of a program alone, in the proved machine and in the twins' interpreter.
fn machines(code: &str) -> [f64; 2] {
    let (code, argument, entries, times) = (bytes(code), [3u8, 0, 0, 0], 64, 100_000);
    let instructions = interpreter::decode(&code);
    let mut best = [Duration::MAX; 2];
    for _ in 0..ROUNDS {
        let mut array = interpreter::Array { values: vec![0; 8 * 64], entries };
        let proved = timed(|| unsafe { bench_run(code.as_ptr(), code.len(), argument.as_ptr(), argument.len(), entries, times) });
        let plain = timed(|| {
            (0..times).fold(0u64, |sum, _| {
                sum.wrapping_add(interpreter::run::<false>(black_box(&instructions), &mut array, black_box(&argument)).expect("a good program").0)
            })
        });
        assert_eq!(proved.0, plain.0, "the replies differ");
        best = [best[0].min(proved.1), best[1].min(plain.1)];
    }
    best.map(|time| time.as_nanos() as f64 / times as f64)
}

fn print_calls(path: &str) {
    println!("{:<28}{:>9}{:>12}{:>9}{:>10}{:>10}", "ns, 1 KiB, window 4096", "proved", "unproved", "mutex", "to unpr.", "to mutex");
    for (name, code) in [("a run of bump alone", BUMP), ("a run of peek alone", PEEK)] {
        let [proved, plain] = machines(code);
        println!("{name:<28}{proved:>9.1}{plain:>12.1}{plain:>9.1}{:>10.2}{:>10.2}", proved / plain, proved / plain);
    }
    for (name, call) in [("an update", Call::Update), ("a ready read", Call::Read)] {
        let [proved, replicated, locked] = compared(path, Sizes { window: 4_096, entries: 64, value: 8 }, call, 28_672);
        println!("{name:<28}{proved:>9.1}{replicated:>12.1}{locked:>9.1}{:>10.2}{:>10.2}", proved / replicated, proved / locked);
    }
}

fn print_sizes(path: &str) {
    println!("\n{:<10}{:>8}{:>14}{:>12}{:>12}{:>10}", "maps", "window", "bytes/window", "proved ns", "unproved", "to unpr.");
    for (name, entries, value, times) in [("1 KiB", 64, 8, 28_672), ("1 MiB", 65_536, 8, 28_672), ("16 MiB", 65_536, 248, 4_096)] {
        for window in [64, 4_096] {
            let sizes = Sizes { window, entries, value };
            let [proved, replicated, _] = compared(path, sizes, Call::Update, times);
            println!("{name:<10}{window:>8}{:>14}{proved:>12.1}{replicated:>12.1}{:>10.2}", sizes.bytes() / window, proved / replicated);
        }
    }
}

// So many calls of one twin, for a counter of processor instructions.
fn alone(twin: &str, call: &str, times: u64) {
    let sizes = Sizes { window: 4_096, entries: 64, value: 8 };
    let call = if call == "update" { Call::Update } else { Call::Read };
    let sum = match twin {
        "replicated" => twin_calls(&Replicated::<PLAIN>::new(programs(), sizes, 1), call, times),
        _ => twin_calls(&Locked::new(programs(), sizes), call, times),
    };
    println!("{sum}");
}

fn main() {
    let words: Vec<String> = std::env::args().collect();
    match &words[..] {
        [_, path] => {
            host::print();
            print_calls(path);
            print_sizes(path);
            pauses::print(path);
            scans::print(path);
            snapshots::print(path);
            threads::print(path);
            idle::print(path);
            endless::print(path);
        }
        [_, path, part] if part == "idle" => {
            host::print();
            idle::print(path);
        }
        [_, path, part] if part == "threads" => {
            host::print();
            threads::print(path);
        }
        [_, path, part] if part == "snapshots" => {
            host::print();
            snapshots::print(path);
        }
        [_, path, part] if part == "lists" => {
            host::print();
            lists::print(path);
        }
        [_, path, part] if part == "endless" => {
            host::print();
            endless::print(path);
        }
        [_, twin, call, times] => alone(twin, call, times.parse().expect("a number")),
        _ => panic!("the path of bench_store"),
    }
}
