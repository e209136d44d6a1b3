//! What a run of `stress` leaves beside its transcript: the history of its calls in real time, the state that it ends in, and its counts.

use crate::stress::sessions::{Programs, given};
use dumps::{Unwatched, dump};
use oplog::Config;
use std::alloc::Global;
use std::io;
use std::rt::Clock;
use std::sync::Wait;
use std::sync::atomic::{AtomicU64, Ordering};
use std::thread::Threads;
use std::time::Duration;
use stress::{OpenGate, Stress, Stressed};

// A clock that goes on by a microsecond each time that it is read.
#[derive(Drop)]
struct Ticking {
    microseconds: AtomicU64,
}

impl Clock for Ticking {
    fn monotonic(&self) -> io::Result<Duration> {
        Ok(Duration::from_micros(self.microseconds.fetch_add(1, Ordering::SeqCst)))
    }

    fn since_1970(&self) -> io::Result<Duration> {
        self.monotonic()
    }
}

// What one session's calls leave on a state.
fn left_by<R: Threads + Wait + Sync>(
    rt: &R,
    alloc: Global,
    script: &[u8],
    state: &[u8],
) -> Option<Stressed> {
    let clock = Ticking {
        microseconds: AtomicU64::new(0),
    };
    let command = Stress {
        rt,
        config: Config {
            nodes: 1,
            slots: 1,
            window: 64,
            limit: 3,
            spare: 0,
        },
        together: 1,
        gate: &OpenGate,
        has_history: true,
        clock: Some(&clock),
        watcher: &Unwatched,
    };
    let folder = Programs;
    let mut inputs = given(&folder, script, state);
    command.prepare(alloc, &mut inputs).ok()
}

#[test]
fn one_session_is_numbered_in_its_order(rt: HostRuntime) {
    let script = b"bump 00000000\nbump 00000000\n".as_slice();
    let left = left_by(&rt, rt.alloc(), script, b"").expect(&rt, "run");
    assert_eq!(rt;
        (left.reply.text.as_slice(), left.history.as_slice()),
        (
            b"u 0 bump 00000000 1\nu 1 bump 00000000 2\n".as_slice(),
            b"0 1 0 1\n0 2 2 3\n".as_slice()
        )
    );
    let counts = left.counts;
    assert_eq!(rt; (counts.updates, counts.reads, counts.ended), (2, 0, 0));
    assert_eq!(rt; counts.longest_wait, 1000);
}

#[test]
fn calls_go_on_from_a_state(rt: HostRuntime) {
    let script = b"# two\nbump 00000000\nbump 01000000\n".as_slice();
    let state = b"0 00000000 0500000000000000\n".as_slice();
    let left = left_by(&rt, rt.alloc(), script, state).expect(&rt, "run");
    assert_eq!(rt;
        (left.reply.text.as_slice(), left.history.as_slice()),
        (
            b"u 0 bump 00000000 6\nu 1 bump 01000000 1\n".as_slice(),
            b"0 2 0 1\n0 3 2 3\n".as_slice()
        )
    );
    let state = left.state.expect(&rt, "state");
    let text = dump(rt.alloc(), &state).expect(&rt, "text");
    assert_eq!(rt;
        text.as_slice(),
        b"0 00000000 0600000000000000\n0 01000000 0100000000000000\n".as_slice()
    );
}

#[test]
fn a_refused_state_is_answered_alone(rt: HostRuntime) {
    let script = b"bump 00000000\n".as_slice();
    let state = b"0 00000000 0000000000000000\n".as_slice();
    let left = left_by(&rt, rt.alloc(), script, state).expect(&rt, "run");
    assert_eq!(rt;
        (
            left.reply.text.as_slice(),
            left.history.len(),
            left.state.is_none()
        ),
        (b"line 1: E6\n".as_slice(), 0, true)
    );
}
