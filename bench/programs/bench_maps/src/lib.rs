//! The helpers on a hash map for a program of another language to time: see bench/.
#![tactic(auto)]

ghost use Rattle.std.specs.Prelude.{◌≡◌, ◌+◌, ◌*◌, ◌≤◌, [], ◌∷◌, length, ℕ, IfSome};
ghost use Rattle.maps.specs.declared.shapes.Shape.TheVariants.{Hash};
ghost use Rattle.maps.specs.MapSets.{stored_shapes};

#[cfg(test)]
mod tests;

use helpers::{delete, lookup, update};
use maps::{MapSet, Shape, shapes_ok};
use std::alloc::Global;

// What a key that isn't there adds to the sum.
const ABSENT: u64 = 1;

/// What to do, and how often. Keys have `size` bytes and stand one after another.
#[derive(Drop)]
#[repr(C)]
pub struct Job {
    /// The bytes of a key.
    pub size: u32,
    /// How many entries the map may have.
    pub entries: u32,
    /// How many keys are put in at first, each with its number as the value.
    pub fill: usize,
    /// The first key that is worked on.
    pub from: usize,
    /// Behind the last key that is worked on.
    pub to: usize,
    /// 0 looks each key up, 1 puts its number under it, and another deletes it and puts it in again.
    pub work: u32,
    /// How often they are all gone through.
    pub times: u64,
}

// A key of the flat keys.
fn key_at(keys: &[u8], size: usize, i: usize) -> &[u8]
    requires { (i + 1) * size ≤ length keys.now }
    ensures { length result.now ≡ size }
{
    &keys[i * size..i * size + size]
}

// The number under a key.
fn found(maps: &MapSet, key: &[u8]) -> u64
    requires map { (entries : ℕ) × (stored_shapes maps.now ≡ Hash (length key.now) 8 entries ∷ []) }
{
    match lookup(maps, 0, key) {
        Some(entry) => {
            let value = maps.value(entry);
            u64::from_le_bytes([
                value[0], value[1], value[2], value[3], value[4], value[5], value[6], value[7],
            ])
        }
        None => ABSENT,
    }
}

// Puts a number under a key.
fn put(maps: &mut MapSet, key: &[u8], number: usize) -> u64
    requires map { (entries : ℕ) × (stored_shapes maps.old ≡ Hash (length key.now) 8 entries ∷ []) }
    ensures shapes { stored_shapes maps.new ≡ stored_shapes maps.old }
{
    update(maps, 0, key, &(number as u64).to_le_bytes(), 0)
}

// What is asked for, with one key.
fn work(maps: &mut MapSet, key: &[u8], number: usize, kind: u32) -> u64
    requires map { (entries : ℕ) × (stored_shapes maps.old ≡ Hash (length key.now) 8 entries ∷ []) }
    ensures shapes { stored_shapes maps.new ≡ stored_shapes maps.old }
{
    match kind {
        0 => found(maps, key),
        1 => put(maps, key, number),
        _ => {
            let deleted = delete(maps, 0, key);
            deleted.wrapping_add(put(maps, key, number))
        }
    }
}

fn opened(alloc: Global, job: &Job) -> Option<MapSet>
    ensures shapes { IfSome result (λ c. stored_shapes c ≡ Hash job.now.size 8 job.now.entries ∷ []) }
{
    let shapes = [Shape::Hash {
        key: job.size,
        value: 8,
        entries: job.entries,
    }];
    MapSet::open(alloc, &shapes).ok()
}

/// Opens a hash map of numbers, puts keys into it, works on keys, and answers the sum of what was answered and of the numbers
/// under the first keys at the end, modulo 2^64; 0 where the map or a number of the job is refused.
#[unsafe(no_mangle)]
pub extern "C" fn bench_keys(alloc: Global, keys: &[u8], job: &Job) -> u64 {
    let Some(mut maps) = opened(alloc, job) else {
        return 0;
    };
    let size = job.size as usize;
    if size == 0 || job.fill > keys.len() / size || job.to > keys.len() / size {
        return 0;
    }
    let mut sum = 0u64;
    for i in 0..job.fill {
        sum = sum.wrapping_add(put(&mut maps, key_at(keys, size, i), i));
    }
    for _ in 0..job.times {
        for i in job.from..job.to {
            sum = sum.wrapping_add(work(&mut maps, key_at(keys, size, i), i, job.work));
        }
    }
    for i in 0..job.fill {
        sum = sum.wrapping_add(found(&maps, key_at(keys, size, i)));
    }
    sum
}
