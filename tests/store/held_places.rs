//! What goes on while a session holds the log, or the replica of another node.

use crate::store::single_store::{ZERO, counter};
use crate::store::two_nodes::last_of;
use crossbeam_utils::Backoff;
use oplog::Config;
use ownlock::{LEADER, Seat};
use readpath::ReadAnswer;
use std::alloc::Global;
use std::marker::Brand;
use std::sync::Wait;
use std::sync::atomic::{AtomicBool, Ordering};
use std::thread;
use std::thread::Threads;
use store::{Answer, Session, Store, StoreRefused};
use store_steps::{Caller, Here, Question, Shared, Value, look_waiting};

// A session's seat, and its slot.
#[derive(Drop)]
struct Own {
    seat: Seat<Value>,
    caller: Caller,
}

// Two sessions of one node: one that holds the replica, and one that looks at the desk.
#[derive(Drop)]
struct Pair {
    holding: Own,
    watching: Own,
}

// What the threads have come to.
#[derive(Drop)]
struct Flags {
    held: AtomicBool,
    claimed: AtomicBool,
    answered: AtomicBool,
}

// What an update and a read were told.
#[derive(Drop)]
struct Calls {
    update: Result<Answer, StoreRefused>,
    read: Result<ReadAnswer, StoreRefused>,
}

// What was seen in time, and what the others were told.
#[derive(Drop)]
struct Told {
    in_time: (bool, bool),
    calls: Calls,
    asked: Result<Answer, StoreRefused>,
}

// A store of so many nodes and slots for a counter and so many records, and its sessions.
pub(crate) fn opened(
    alloc: Global,
    nodes: u32,
    slots: u32,
    limit: u32,
) -> Option<(Store, Vec<Session>)> {
    let catalogue = counter(alloc)?;
    let config = Config {
        nodes,
        slots,
        window: 16,
        limit,
        spare: 0,
    };
    Store::open(alloc, config, catalogue).ok()
}

// Raises and reads the completed tail, and reads on the replica, which is ready.
fn ready_read<R: Wait>(
    rt: &R,
    shared: Shared<'_>,
    mut seat: Seat<Value>,
    caller: Caller,
) -> (u64, ReadAnswer) {
    shared.shelf.raise(&mut seat, 0);
    let done = shared.shelf.done::<Brand>(&mut seat);
    let mut question = Question {
        program: 1,
        argument: &ZERO,
    };
    (
        done,
        look_waiting(rt, Here { shared, caller }, &mut seat, &mut question),
    )
}

// The log is held by one session while the other reads on a thread of its own.
fn read_beside<R: Wait + Threads + Sync>(
    rt: &R,
    store: &Store,
    one: Session,
    other: Session,
) -> (u64, ReadAnswer) {
    let shared = store.shared();
    let (mut one, _) = one.into_parts();
    let (other, caller) = other.into_parts();
    let log = shared.shelf.take(rt, &mut one, LEADER);
    let ((), answers) = thread::join(
        rt,
        move || {},
        move || { ready_read(rt, shared, other, caller) },
    );
    shared.shelf.put::<Brand>(&mut one, log);
    answers
}

// Whether somebody combines at the desk of the caller's node.
fn sees_combiner<R: Wait>(
    rt: &R,
    shared: Shared<'_>,
    seat: &mut Seat<Value>,
    caller: Caller,
) -> bool {
    let desk = shared.shelf.take(rt, seat, 1 + shared.nodes + caller.node);
    let claimed = match &desk.value {
        Value::Desk(desk) => desk.claimed(),
        _ => false,
    };
    shared.shelf.put::<Brand>(seat, desk);
    claimed
}

// Looks until somebody combines there. It gives up after ten million looks.
fn waits_for_combiner<R: Wait>(rt: &R, shared: Shared<'_>, own: Own) -> bool {
    let Own { mut seat, caller } = own;
    let backoff = Backoff::new();
    for _ in 0..10_000_000 {
        if sees_combiner(rt, shared, &mut seat, caller) {
            return true;
        }
        backoff.snooze();
    }
    false
}

// Waits until the flag is up. It gives up after ten million looks.
fn waits_for(flag: &AtomicBool) -> bool {
    let backoff = Backoff::new();
    for _ in 0..10_000_000 {
        if flag.load(Ordering::SeqCst) {
            return true;
        }
        backoff.snooze();
    }
    false
}

// An update, once the replica is held.
fn update<R: Wait>(
    rt: &R,
    store: &Store,
    session: &mut Session,
    flags: &Flags,
) -> Result<Answer, StoreRefused> {
    waits_for(&flags.held);
    session.invoke(rt, store, 0, &ZERO)
}

// An update and a read, once somebody combines at the other node.
fn update_and_read<R: Wait>(rt: &R, store: &Store, session: &mut Session, flags: &Flags) -> Calls {
    waits_for(&flags.claimed);
    let update = session.invoke(rt, store, 0, &ZERO);
    let read = session.read(rt, store, 1, &ZERO);
    flags.answered.store(true, Ordering::SeqCst);
    Calls { update, read }
}

// Holds the replica of its node until somebody combines there, and the calls of the other node are answered. Says whether either
// came in time.
fn hold<R: Wait>(rt: &R, shared: Shared<'_>, pair: Pair, flags: &Flags) -> (bool, bool) {
    let Pair { holding, watching } = pair;
    let Own { mut seat, caller } = holding;
    let replica = shared.shelf.take(rt, &mut seat, 1 + caller.node);
    flags.held.store(true, Ordering::SeqCst);
    let claimed = waits_for_combiner(rt, shared, watching);
    flags.claimed.store(true, Ordering::SeqCst);
    let answered = waits_for(&flags.answered);
    shared.shelf.put::<Brand>(&mut seat, replica);
    (claimed, answered)
}

// The replica of one node is held while a session of the other node works on a thread of its own.
fn beside_held<R: Wait + Threads + Sync>(
    rt: &R,
    store: &Store,
    beside: &mut Session,
    pair: Pair,
    flags: &Flags,
) -> (Calls, (bool, bool)) {
    let shared = store.shared();
    thread::join(
        rt,
        move || { update_and_read(rt, store, beside, flags) },
        move || { hold(rt, shared, pair, flags) },
    )
}

// And besides, another session of the first node updates.
fn two_nodes<R: Wait + Threads + Sync>(
    rt: &R,
    store: &Store,
    asking: &mut Session,
    beside: &mut Session,
    pair: Pair,
) -> Told {
    let flags = Flags {
        held: AtomicBool::new(false),
        claimed: AtomicBool::new(false),
        answered: AtomicBool::new(false),
    };
    let flags = &flags;
    let (asked, (calls, in_time)) = thread::join(
        rt,
        move || { update(rt, store, asking, flags) },
        move || { beside_held(rt, store, beside, pair, flags) },
    );
    Told {
        in_time,
        calls,
        asked,
    }
}

// A session's parts.
fn own_of(store: &Store, session: Session) -> Own {
    let _shared = store.shared();
    let (seat, caller) = session.into_parts();
    Own { seat, caller }
}

#[test]
fn reads_while_the_log_is_held(rt: HostRuntime) {
    let (store, mut sessions) = opened(rt.alloc(), 1, 2, 100).expect(&rt, "store");
    let other = last_of(&store, &mut sessions);
    let one = last_of(&store, &mut sessions);
    sessions.destroy_empty();
    let (done, answer) = read_beside(&rt, &store, one, other);
    assert_eq!(rt; (done, answer.point, answer.reply), (0, 0, 0));
}

// The sessions of two nodes of three slots, of which the second holds its replica.
fn beside_a_held_replica<R: Wait + Threads + Sync>(
    rt: &R,
    store: &Store,
    mut sessions: Vec<Session>,
) -> Told {
    let _ = last_of(store, &mut sessions).into_parts();
    let _ = last_of(store, &mut sessions).into_parts();
    let mut beside = last_of(store, &mut sessions);
    let watching = own_of(store, last_of(store, &mut sessions));
    let mut asking = last_of(store, &mut sessions);
    let holding = own_of(store, last_of(store, &mut sessions));
    sessions.destroy_empty();
    let pair = Pair { holding, watching };
    let told = two_nodes(rt, store, &mut asking, &mut beside, pair);
    let _ = asking.into_parts();
    let _ = beside.into_parts();
    told
}

#[test]
fn goes_on_while_a_replica_is_held(rt: HostRuntime) {
    let (store, sessions) = opened(rt.alloc(), 2, 3, 100).expect(&rt, "store");
    let told = beside_a_held_replica(&rt, &store, sessions);
    let calls = (told.calls.update, told.calls.read, told.asked);
    let first = Ok(Answer { index: 0, reply: 1 });
    let second = Ok(Answer { index: 1, reply: 2 });
    let read = Ok(ReadAnswer { point: 1, reply: 1 });
    assert_eq!(rt;
        (told.in_time, calls),
        ((true, true), (first, read, second))
    );
}
