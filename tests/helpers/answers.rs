//! What the helper functions answer to many keys, at random and chosen. Errors are told by their negatives modulo 2^64: ENOENT 2, EEXIST 17.
//! Each answer by itself is in tests/rows.

use helpers::{delete, update};
use maps::{MapSet, Shape};
use std::test::Fail;

const WIDE: Shape = Shape::Hash {
    key: 8,
    value: 8,
    entries: 65_536,
};

/// The inverse of 0xff51_afd7_ed55_8ccd modulo 2^64.
const INVERSE: u64 = 0x4f74_430c_22a5_4005;

/// A key, by its number. Those that are chosen against the index share one bucket: its hash begins with
/// 0x9e37_79b9_7f4a_7c15 and multiplies by the odd number whose inverse stands here.
fn key_of(number: u64, chosen: bool) -> [u8; 8] {
    if chosen {
        (0x9e37_79b9_7f4a_7c15 ^ number.wrapping_mul(INVERSE)).to_le_bytes()
    } else {
        number.wrapping_mul(0x9e37_79b9_7f4a_7c15).to_le_bytes()
    }
}

/// How many answers are wrong of 131,072 updates with NOEXIST and deletes of keys at random, in a map whose keys are told
/// beside it.
fn wrong_answers(maps: &mut MapSet, present: &mut Vec<bool>, chosen: bool) -> u32 {
    let mut wrong = 0u32;
    let mut random = 1u64;
    for _ in 0..131_072 {
        random = random
            .wrapping_mul(6364136223846793005)
            .wrapping_add(1442695040888963407);
        let number = (random >> 48) % 65_536;
        let key = key_of(number, chosen);
        let was = present[number as usize];
        let put = random >> 47 & 1 == 0;
        let (answer, want) = if put {
            let refused = if was { 18446744073709551599 } else { 0 };
            (update(maps, 0, &key, &key, 1), refused)
        } else {
            let refused = if was { 0 } else { 18446744073709551614 };
            (delete(maps, 0, &key), refused)
        };
        present[number as usize] = put;
        if answer != want {
            wrong = wrong.saturating_add(1);
        }
    }
    wrong
}

#[test]
fn keys_at_random(rt: HostRuntime) -> Result<(), Fail> {
    let mut maps = MapSet::open(rt.alloc(), &[WIDE]).expect(&rt, "open");
    let mut present = vec![in rt.alloc(); false; 65_536]?;
    assert_eq!(rt; wrong_answers(&mut maps, &mut present, false), 0);
    Ok(())
}

#[test]
fn keys_that_share_a_bucket(rt: HostRuntime) -> Result<(), Fail> {
    let mut maps = MapSet::open(rt.alloc(), &[WIDE]).expect(&rt, "open");
    let mut present = vec![in rt.alloc(); false; 65_536]?;
    assert_eq!(rt; wrong_answers(&mut maps, &mut present, true), 0);
    Ok(())
}
