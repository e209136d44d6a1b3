//! Times the helpers on a proved hash map beside `HashMap` (with its own hasher) and `BTreeMap` on the same keys, and checks that all
//! answer the same. With the bytes of a key, a fill, a kind of work, a map and a number it goes so often through the keys of that map alone,
//! for a tool that counts processor instructions.

mod host;
mod keys;

use keys::{Asked, Keys, Random};
use std::collections::{BTreeMap, HashMap};
use std::hash::Hash;
use std::hint::black_box;
use std::time::{Duration, Instant};

/// What to do, and how often: see bench/programs/bench_maps.
#[repr(C)]
struct Job {
    size: u32,
    entries: u32,
    fill: usize,
    from: usize,
    to: usize,
    work: u32,
    times: u64,
}

unsafe extern "C" {
    // Opens a hash map, puts `fill` keys into it, works, and answers the sum of the answers and of the numbers under the first keys.
    fn bench_keys(keys: *const u8, keys_len: usize, job: &Job) -> u64;
}

const ENTRIES: u32 = 65_536;

// 1, 50 and 100 %.
const FILLS: [usize; 3] = [655, 32_768, ENTRIES as usize];

// How many keys are asked for that are not there.
const MISSES: usize = 1_000;

/// What is done with each key.
#[derive(Clone, Copy, PartialEq)]
enum Work {
    Lookup = 0,
    Update = 1,
    Replace = 2,
}

/// A map of plain Rust, with what the helpers do on one.
trait Plain<K> {
    fn number(&self, key: &K) -> Option<u64>;
    fn put(&mut self, key: K, number: u64);
    fn take(&mut self, key: &K);
}

impl<K: Hash + Eq> Plain<K> for HashMap<K, u64> {
    fn number(&self, key: &K) -> Option<u64> {
        self.get(key).copied()
    }
    fn put(&mut self, key: K, number: u64) {
        self.insert(key, number);
    }
    fn take(&mut self, key: &K) {
        self.remove(key);
    }
}

impl<K: Ord> Plain<K> for BTreeMap<K, u64> {
    fn number(&self, key: &K) -> Option<u64> {
        self.get(key).copied()
    }
    fn put(&mut self, key: K, number: u64) {
        self.insert(key, number);
    }
    fn take(&mut self, key: &K) {
        self.remove(key);
    }
}

// The keys that a row works on: those that are put in at first, and the part of all that is gone through.
struct Row<'a> {
    keys: &'a Asked,
    from: usize,
    to: usize,
    work: Work,
}

impl Row<'_> {
    // How often the keys are gone through: about a million keys a round.
    fn times(&self) -> u64 {
        (1_000_000 / (self.to - self.from) as u64).clamp(8, 100_000)
    }

    // The sum of the proved map.
    fn proved(&self, times: u64) -> u64 {
        let (bytes, size) = (&self.keys.bytes, self.keys.size as u32);
        let job = Job { size, entries: ENTRIES, fill: self.keys.fill, from: self.from, to: self.to, work: self.work as u32, times };
        unsafe { bench_keys(bytes.as_ptr(), bytes.len(), &job) }
    }

    // The sum of the proved map, and the times of a run without work and of one with it.
    fn timed_proved(&self) -> (u64, [Duration; 2]) {
        let start = Instant::now();
        black_box(self.proved(0));
        let idle = start.elapsed();
        let start = Instant::now();
        let sum = self.proved(self.times());
        (sum, [idle, start.elapsed()])
    }

    // The sum of a map of plain Rust, and the time of the work.
    fn timed_plain<const N: usize>(&self, map: &mut impl Plain<[u8; N]>, times: u64) -> (u64, Duration) {
        let keys = self.keys.arrays::<N>();
        for (i, key) in keys[..self.keys.fill].iter().enumerate() {
            map.put(*key, i as u64);
        }
        let asked = &keys[self.from..self.to];
        let mut sum = 0u64;
        let start = Instant::now();
        for _ in 0..times {
            for (i, key) in asked.iter().enumerate() {
                sum = sum.wrapping_add(work_on(map, black_box(key), (self.from + i) as u64, self.work));
            }
        }
        let time = start.elapsed();
        for key in &keys[..self.keys.fill] {
            sum = sum.wrapping_add(map.number(key).unwrap_or(1));
        }
        (sum, time)
    }

    // Nanoseconds for each key of the proved map, `HashMap` and `BTreeMap`: the best of five rounds. Of the proved map's time that of
    // opening, filling and reading back is taken off.
    fn timed<const N: usize>(&self) -> [f64; 3] {
        let mut best = [Duration::MAX; 4];
        for _ in 0..5 {
            let (proved, [idle, proved_time]) = self.timed_proved();
            let (hashed, hashed_time) = self.timed_plain::<N>(&mut HashMap::with_capacity(ENTRIES as usize), self.times());
            let (sorted, sorted_time) = self.timed_plain::<N>(&mut BTreeMap::new(), self.times());
            assert!(proved == hashed && proved == sorted, "the answers differ");
            for (best, time) in best.iter_mut().zip([idle, proved_time, hashed_time, sorted_time]) {
                *best = (*best).min(time);
            }
        }
        let keys = (self.times() * (self.to - self.from) as u64) as f64;
        let [idle, proved, hashed, sorted] = best.map(|time| time.as_nanos() as f64 / keys);
        [proved - idle, hashed, sorted]
    }
}

fn work_on<const N: usize>(map: &mut impl Plain<[u8; N]>, key: &[u8; N], number: u64, work: Work) -> u64 {
    match work {
        Work::Lookup => return map.number(key).unwrap_or(1),
        Work::Update => map.put(*key, number),
        Work::Replace => {
            map.take(key);
            map.put(*key, number);
        }
    }
    0
}

// A row for each kind of work.
fn rows(keys: &Asked) -> [(&'static str, Row<'_>); 4] {
    let row = |from, to, work| Row { keys, from, to, work };
    let hit = |work| row(keys.fill, keys.fill + keys.hits, work);
    let missing = keys.fill + keys.hits;
    [
        ("hit", hit(Work::Lookup)),
        ("miss", row(missing, missing + keys.misses, Work::Lookup)),
        ("update", hit(Work::Update)),
        ("delete and insert", hit(Work::Replace)),
    ]
}

fn print_rows<const N: usize>(label: &str, keys: &Asked) {
    for (name, row) in rows(keys) {
        let [proved, hashed, sorted] = row.timed::<N>();
        let (to_hashed, to_sorted) = (proved / hashed, proved / sorted);
        println!("{N:<4}{label:<11}{:>7}  {name:<18}{proved:>9.1}{hashed:>9.1}{sorted:>9.1}{to_hashed:>9.2}{to_sorted:>9.2}", keys.fill);
    }
}

fn print_size<const N: usize>(random: &mut Random) {
    let any = Keys::any(N, ENTRIES as usize + MISSES, random);
    let chosen = Keys::of_one_bucket(N, ENTRIES as usize + MISSES, random);
    for (label, keys) in [("any", &any), ("one bucket", &chosen)] {
        for fill in FILLS {
            let misses = MISSES.min(keys.len() - fill);
            print_rows::<N>(label, &keys.asked(fill, misses, random));
        }
    }
    print_rows::<N>("one path", &Keys::on_one_path(N, random).deepest());
}

// One map alone, with keys that nobody chose: the sum of what it answers.
fn alone<const N: usize>(fill: usize, work: &str, map: &str, times: u64) -> u64 {
    let mut random = Random(0x1234_5678_9abc_def1);
    let keys = Keys::any(N, ENTRIES as usize + MISSES, &mut random).asked(fill, MISSES, &mut random);
    let rows = rows(&keys);
    let (_, row) = rows.iter().find(|row| row.0 == work).expect("a kind of work");
    match map {
        "proved" => row.proved(times),
        "hashed" => row.timed_plain::<N>(&mut HashMap::with_capacity(ENTRIES as usize), times).0,
        _ => row.timed_plain::<N>(&mut BTreeMap::new(), times).0,
    }
}

fn main() {
    let words: Vec<String> = std::env::args().collect();
    if let [_, size, fill, work, map, times] = &words[..] {
        let (fill, times) = (fill.parse().expect("a number"), times.parse().expect("a number"));
        let sum = if size == "4" { alone::<4>(fill, work, map, times) } else { alone::<64>(fill, work, map, times) };
        return println!("{sum}");
    }
    let mut random = Random(0x1234_5678_9abc_def1);
    host::print();
    println!("{:<4}{:<11}{:>7}  {:<18}{:>9}{:>9}{:>9}{:>9}{:>9}", "key", "keys", "fill", "ns for each", "proved", "HashMap", "BTreeMap", "to Hash", "to BTree");
    print_size::<4>(&mut random);
    print_size::<64>(&mut random);
}
