// Each read and each write of a command fails in turn.

use crate::commands::ended;
use crate::served::{COUNTER, Command, FIVE_CALLS, may_have_written, written};
use crate::streams::{Narrow, Programs, Slow, Turns};
use dumps::Unwatched;
use engine::{Inputs, MapSizes, Notes, Status, perform};
use running::Run;
use std::alloc::Global;
use std::sync::Wait;
use std::thread::Threads;

/// How many reads and writes failed.
#[derive(Clone, Copy)]
pub struct Tried {
    pub reads: u64,
    pub writes: u64,
}

// Where this read fails, nothing is written but what `serve` has answered, and no further read is made.
fn stops_at_read<R: Threads + Wait + Sync>(
    rt: &R,
    alloc: Global,
    command: Command,
    fails_at: u64,
) -> bool {
    let reads = Turns::new(fails_at);
    let writes = Turns::new(0);
    let mut out = Narrow::new(&writes, true);
    let status = ended(rt, alloc, command, &reads, &mut out);
    let is_last = reads.made() == fails_at;
    let is_all = writes.made() == out.text().len() as u64;
    status == Status::CannotRead && is_last && is_all && may_have_written(command, out.text())
}

// Where this write fails, or takes nothing, what was written before stands and no further write is made.
fn stops_at_write<R: Threads + Wait + Sync>(
    rt: &R,
    alloc: Global,
    command: Command,
    fails_at: u64,
    is_error: bool,
) -> bool {
    let reads = Turns::new(0);
    let writes = Turns::new(fails_at);
    let mut out = Narrow::new(&writes, is_error);
    let status = ended(rt, alloc, command, &reads, &mut out);
    let is_beginning = written(command).as_bytes().starts_with(out.text());
    let is_all_before = out.text().len() as u64 + 1 == fails_at;
    status == Status::CannotWrite && writes.made() == fails_at && is_beginning && is_all_before
}

// How many reads and writes the command makes, where none fails and its answer is the ordinary one.
fn unhindered<R: Threads + Wait + Sync>(rt: &R, alloc: Global, command: Command) -> Option<Tried> {
    let reads = Turns::new(0);
    let writes = Turns::new(0);
    let mut out = Narrow::new(&writes, true);
    let status = ended(rt, alloc, command, &reads, &mut out);
    if status != Status::Good || out.text() != written(command).as_bytes() {
        return None;
    }
    Some(Tried {
        reads: reads.made(),
        writes: writes.made(),
    })
}

/// How many reads and writes failed in turn; none where the command once answered otherwise than it must.
pub fn failed_in_turn<R: Threads + Wait + Sync>(
    rt: &R,
    alloc: Global,
    command: Command,
) -> Option<Tried> {
    let tried = unhindered(rt, alloc, command)?;
    for fails_at in 1..=tried.reads {
        if !stops_at_read(rt, alloc, command, fails_at) {
            return None;
        }
    }
    for fails_at in 1..=tried.writes {
        let stops = stops_at_write(rt, alloc, command, fails_at, true);
        if !stops || !stops_at_write(rt, alloc, command, fails_at, false) {
            return None;
        }
    }
    Some(tried)
}

/// `run` on five calls of the counter.
pub fn counted(alloc: Global, out: &mut Narrow<'_>) -> Status {
    let reads = Turns::new(0);
    let mut inputs = Inputs {
        sizes: MapSizes::Standard,
        folder: &Programs { turns: &reads },
        manifest: Some(Slow::new(COUNTER, &reads)),
        file: Some(Slow::new(FIVE_CALLS, &reads)),
        state: None,
        history: None,
    };
    let command = Run {
        is_signed: false,
        watcher: &Unwatched,
    };
    perform(alloc, &command, &mut inputs, &mut Notes::none(alloc), out)
}
