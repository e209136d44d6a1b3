// The commands, each run once over readers, a folder and a writer in memory.

use crate::endings::{Ending, judged};
use crate::schedules::SIZES;
use crate::served::{
    BUMP_LINE, BUMP_TEXT, CALLS, Command, MANIFEST, SCRIPT, STEPS, TRANSCRIPT, may_have_written,
    written,
};
use crate::streams::{Narrow, Programs, Slow, Turns};
use console::{Assemble, Check, Disassemble};
use dumps::Unwatched;
use engine::{Answering, Inputs, MapSizes, Notes, Status};
use oplog::Config;
use replaying::Replay;
use running::Run;
use scheduling::Schedule;
use serving::{ServeOptions, Server};
use std::alloc::Global;
use std::sync::Wait;
use std::thread::Threads;
use stress::{NoClock, OpenGate, Stress};

// Sizes of one session: with no other beside it, its calls have the same places each time.
const ONE_SESSION: Config = Config {
    nodes: 1,
    slots: 1,
    window: 16,
    limit: 100,
    spare: 0,
};

// `stress` on the manifest and its calls.
fn stressed<R: Threads + Wait + Sync>(
    rt: &R,
    alloc: Global,
    reads: &Turns,
    out: &mut Narrow<'_>,
) -> Status {
    let command = Stress {
        rt,
        config: ONE_SESSION,
        together: 1,
        gate: &OpenGate,
        has_history: false,
        clock: None::<&NoClock>,
        watcher: &Unwatched,
    };
    let mut inputs = Inputs {
        sizes: MapSizes::Standard,
        folder: &Programs { turns: reads },
        manifest: Some(Slow::new(MANIFEST, reads)),
        file: Some(Slow::new(CALLS, reads)),
        state: None,
        history: None,
    };
    command.perform(alloc, &mut inputs, out)
}

// `serve` on the manifest and its script, on a new state.
fn served(alloc: Global, reads: &Turns, out: &mut Narrow<'_>) -> Status {
    let mut inputs = Inputs {
        sizes: MapSizes::Standard,
        folder: &Programs { turns: reads },
        manifest: Some(Slow::new(MANIFEST, reads)),
        file: None,
        state: None,
        history: None,
    };
    let mut lines = Slow::new(SCRIPT, reads);
    let options = ServeOptions {
        spare: 4,
        has_values: false,
    };
    let server = Server {
        watcher: &Unwatched,
    };
    server
        .serve(alloc, options, &mut inputs, &mut lines, out)
        .status
}

// The texts that a command reads, where it reads them.
#[derive(Clone, Copy)]
struct Given {
    manifest: Option<&'static str>,
    file: Option<&'static str>,
}

// The manifest, and this text beside it.
fn with_manifest(file: &'static str) -> Given {
    Given {
        manifest: Some(MANIFEST),
        file: Some(file),
    }
}

// The text alone, without a manifest.
fn only_file(file: &'static str) -> Given {
    Given {
        manifest: None,
        file: Some(file),
    }
}

// A text that comes slowly, where there is one.
fn slow_text<'a>(text: Option<&'static str>, reads: &'a Turns) -> Option<Slow<'a>> {
    match text {
        Some(text) => Some(Slow::new(text, reads)),
        None => None,
    }
}

// A command on these texts.
fn answered<C: engine::Command>(
    alloc: Global,
    command: &C,
    texts: Given,
    reads: &Turns,
    out: &mut Narrow<'_>,
) -> Status
where
    C::Made: Answering,
{
    let mut inputs = Inputs {
        sizes: MapSizes::Standard,
        folder: &Programs { turns: reads },
        manifest: slow_text(texts.manifest, reads),
        file: slow_text(texts.file, reads),
        state: None,
        history: None,
    };
    engine::perform(alloc, command, &mut inputs, &mut Notes::none(alloc), out)
}

/// A command on the texts that it is served.
pub fn ended<R: Threads + Wait + Sync>(
    rt: &R,
    alloc: Global,
    command: Command,
    reads: &Turns,
    out: &mut Narrow<'_>,
) -> Status {
    match command {
        Command::Check => {
            let manifest = Given {
                manifest: Some(MANIFEST),
                file: None,
            };
            answered(alloc, &Check, manifest, reads, out)
        }
        Command::Run => {
            let command = Run {
                is_signed: false,
                watcher: &Unwatched,
            };
            answered(alloc, &command, with_manifest(SCRIPT), reads, out)
        }
        Command::Assemble => {
            let command = Assemble {
                is_elsewhere: false,
            };
            answered(alloc, &command, only_file(BUMP_TEXT), reads, out)
        }
        Command::Disassemble => {
            let command = Disassemble { has_slots: false };
            answered(alloc, &command, only_file(BUMP_LINE), reads, out)
        }
        Command::Slots => {
            let command = Disassemble { has_slots: true };
            answered(alloc, &command, only_file(BUMP_LINE), reads, out)
        }
        Command::Schedule => {
            let command = Schedule {
                config: SIZES,
                watcher: &Unwatched,
            };
            answered(alloc, &command, with_manifest(STEPS), reads, out)
        }
        Command::Replay => {
            let command = Replay {
                spare: 4,
                watcher: &Unwatched,
            };
            answered(alloc, &command, with_manifest(TRANSCRIPT), reads, out)
        }
        Command::Stress => stressed(rt, alloc, reads, out),
        Command::Serve => served(alloc, reads, out),
    }
}

// Whether it is said last that no memory is left.
fn wants_memory(command: Command, text: &[u8]) -> bool {
    match text.strip_suffix(b"no memory\n".as_slice()) {
        Some(before) => may_have_written(command, before),
        None => false,
    }
}

/// How a command ends where nothing but memory may fail.
pub fn ending<R: Threads + Wait + Sync>(rt: &R, alloc: Global, command: Command) -> Ending {
    let reads = Turns::new(0);
    let writes = Turns::new(0);
    let mut out = Narrow::new(&writes, true);
    match ended(rt, alloc, command, &reads, &mut out) {
        Status::Good => judged(out.text() == written(command).as_bytes()),
        Status::NoMemory if wants_memory(command, out.text()) => Ending::NoMemory,
        _ => Ending::Other,
    }
}
