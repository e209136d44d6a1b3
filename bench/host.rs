//! Which machine this is, and whether it is quiet: printed above each run's tables.

use std::fs::read_to_string;
use std::thread::available_parallelism;

// What other programs may keep busy of one processor, on the mean of the last minute, on a machine that is called quiet.
const QUIET: f64 = 0.5;

fn model() -> Option<String> {
    let text = read_to_string("/proc/cpuinfo").ok()?;
    let line = text.lines().find(|line| line.starts_with("model name"))?;
    Some(line.split_once(": ")?.1.to_string())
}

fn load() -> Option<f64> {
    read_to_string("/proc/loadavg").ok()?.split(' ').next()?.parse().ok()
}

pub fn print() {
    let processors = available_parallelism().map_or(0, usize::from);
    let model = model().unwrap_or_else(|| String::from("unknown"));
    match load() {
        Some(load) => println!("{processors} processors, {model}; load average {load:.1}: {}\n", if load < QUIET { "quiet" } else { "busy" }),
        None => println!("{processors} processors, {model}; load average unknown\n"),
    }
}
