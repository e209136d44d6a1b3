//! The lock, with a list that threads append to and a running sum that follows it.

use example_sums::{append, append_both, open_two};
use ownlock::OpenError;
use std::marker::Brand;
use std::test::Fail;

#[test]
fn two_threads_append_a_thousand_each(rt: HostRuntime) {
    let appended = append_both(&rt, rt.alloc(), 1000).expect(&rt, "memory");
    let sum = &appended.sum;
    assert_eq!(rt;
        (appended.list.items.len(), sum.tail, sum.sum),
        (2000, 2000, 999_000)
    );
}

// The second sum wraps.
#[test]
fn the_sum_follows_both_sessions(rt: HostRuntime) {
    let (shelf, mut seat, mut other) = open_two(rt.alloc()).expect(&rt, "memory");
    let first = append(&rt, &shelf, &mut seat, 7).expect(&rt, "memory");
    let second = append(&rt, &shelf, &mut other, u64::MAX).expect(&rt, "memory");
    let third = append(&rt, &shelf, &mut seat, 5).expect(&rt, "memory");
    assert_eq!(rt; [first, second, third], [7, 6, 11]);
}

#[test]
fn the_completed_tail_rises_alone(rt: HostRuntime) {
    let (shelf, mut seat, mut other) = open_two(rt.alloc()).expect(&rt, "memory");
    let before = shelf.done::<Brand>(&mut other);
    append(&rt, &shelf, &mut seat, 7).expect(&rt, "memory");
    shelf.raise(&mut seat, 0);
    let after = shelf.done::<Brand>(&mut other);
    assert_eq!(rt; [before, after], [0, 1]);
}

#[test]
fn a_refused_shelf_names_its_number(rt: HostRuntime) -> Result<(), Fail> {
    let error = OpenError::NoMemory;
    let shown = format!(in rt.alloc(); "{error}")?;
    assert_eq!(rt;
        shown.as_str(),
        "K1: no memory for the shelf and its seat; free memory, or open a shelf of fewer places"
    );
    Ok(())
}
