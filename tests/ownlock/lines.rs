//! A line of two places, the list's and its sum's: what a session finds there if the line is free, if a place is held, and if it is won; and two threads,
//! each of which wins the line if it can.

use example_sums::{Appended, FOLLOWER, Value, append, close_two, open_two};
use ownlock::{LEADER, Seat, Shelf};
use std::alloc::Global;
use std::marker::Brand;
use std::sync::Wait;
use std::thread;
use std::thread::Threads;

// What a session gets just now: the line, the list, the sum. It gives each back at once.
fn gets(shelf: &Shelf<Value>, seat: &mut Seat<Value>, session: usize) -> [bool; 3] {
    let mut got = [false; 3];
    if let Some(line) = shelf.try_win(seat, shelf.leader(), session) {
        shelf.let_go(seat, line);
        got[0] = true;
    }
    for place in [LEADER, FOLLOWER] {
        if let Some(held) = shelf.try_take(seat, place) {
            shelf.put::<Brand>(seat, held);
            got[1 + place] = true;
        }
    }
    got
}

#[test]
fn a_free_line_is_won(rt: HostRuntime) {
    let (shelf, mut seat, mut other) = open_two(rt.alloc()).expect(&rt, "memory");
    let first = gets(&shelf, &mut seat, 0);
    let second = gets(&shelf, &mut other, 1);
    assert_eq!(rt; [first, second], [[true; 3]; 2]);
}

#[test]
fn a_line_with_a_held_place_is_not_won(rt: HostRuntime) {
    let (shelf, mut seat, mut other) = open_two(rt.alloc()).expect(&rt, "memory");
    let list = shelf.take(&rt, &mut seat, LEADER);
    let beside_list = gets(&shelf, &mut other, 1);
    shelf.put::<Brand>(&mut seat, list);
    let sum = shelf.take(&rt, &mut seat, FOLLOWER);
    let beside_sum = gets(&shelf, &mut other, 1);
    shelf.put::<Brand>(&mut seat, sum);
    let after = gets(&shelf, &mut other, 1);
    assert_eq!(rt;
        [beside_list, beside_sum, after],
        [[false, false, true], [false, true, false], [true; 3]]
    );
}

#[test]
fn of_a_won_line_no_other_session_gets_a_place(rt: HostRuntime) {
    let (shelf, mut seat, mut other) = open_two(rt.alloc()).expect(&rt, "memory");
    let line = shelf
        .try_win(&mut seat, shelf.leader(), 0)
        .expect(&rt, "a free line");
    let before = gets(&shelf, &mut other, 1);
    let list = shelf
        .try_take_by(&mut seat, shelf.leader(), Some(&line))
        .expect(&rt, "a place of the own line");
    let meanwhile = gets(&shelf, &mut other, 1);
    shelf.put_by::<Brand>(&mut seat, list, Some(&line));
    let behind = gets(&shelf, &mut other, 1);
    shelf.let_go(&mut seat, line);
    let after = gets(&shelf, &mut other, 1);
    assert_eq!(rt;
        [before, meanwhile, behind, after],
        [[false; 3], [false; 3], [false; 3], [true; 3]]
    );
}

// Appends to the list and adds to its sum, by looks if the session wins the line of both. Whether it did.
fn append_by_line<R: Wait>(
    rt: &R,
    shelf: &Shelf<Value>,
    seat: &mut Seat<Value>,
    session: usize,
    item: u64,
) -> bool {
    let Some(line) = shelf.try_win(seat, shelf.leader(), session) else {
        let _sum = append(rt, shelf, seat, item);
        return false;
    };
    let Some(mut follower) = shelf.try_take_by(seat, shelf.spot(FOLLOWER), Some(&line)) else {
        unreachable!()
    };
    let Some(mut leader) = shelf.try_take_by(seat, shelf.leader(), Some(&line)) else {
        unreachable!()
    };
    let mut tail = 0;
    if let (Value::Sum(sum), Value::List(list)) = (&mut follower.value, &mut leader.value) {
        if let Ok(()) = list.items.push(item) {
            sum.sum = sum.sum.wrapping_add(item);
            sum.tail += 1;
        }
        tail = sum.tail;
    }
    shelf.put_by::<Brand>(seat, leader, Some(&line));
    shelf.raise(seat, tail);
    shelf.put_by::<Brand>(seat, follower, Some(&line));
    shelf.let_go(seat, line);
    true
}

// Appends the numbers below `count` so, and how often it won the line.
fn append_many<R: Wait>(
    rt: &R,
    shelf: &Shelf<Value>,
    mut seat: Seat<Value>,
    session: usize,
    count: u64,
) -> (Seat<Value>, u64) {
    let mut wins = 0;
    for item in 0..count {
        if append_by_line(rt, shelf, &mut seat, session, item) {
            wins += 1;
        }
    }
    (seat, wins)
}

// Two threads append, and each wins the line if it can.
fn race<R: Threads + Wait + Sync>(rt: &R, alloc: Global, count: u64) -> Option<(Appended, u64)> {
    let (shelf, one, other) = open_two(alloc).ok()?;
    let lent = &shelf;
    let (one, other) = thread::join(
        rt,
        move || { append_many(rt, lent, one, 0, count) },
        move || { append_many(rt, lent, other, 1, count) },
    );
    let wins = one.1 + other.1;
    Some((close_two(shelf, one.0, other.0, count), wins))
}

#[test]
fn two_threads_that_win_and_wait_lose_nothing(rt: HostRuntime) {
    let (appended, wins) = race(&rt, rt.alloc(), 2_000).expect(&rt, "memory");
    let sum = &appended.sum;
    assert_eq!(rt;
        (appended.list.items.len(), sum.tail, sum.sum),
        (4_000, 4_000, 3_998_000)
    );
    assert!(rt; wins > 0);
}
