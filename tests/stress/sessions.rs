//! The sessions of `stress` run side by side: two of them wait for each other before they make their first calls.

ghost use Rattle.std.specs.Prelude.{⊤};

use dumps::Unwatched;
use engine::{Folder, Inputs, MapSizes, Notes, perform};
use oplog::Config;
use replaying::Replay;
use std::sync::atomic::{AtomicU64, Ordering};
use std::thread;
use stress::{Gate, NoClock, Stress};

const BUMP: &[u8] =
    b"bf12000000000000 1851000000000000 0000000000000000 8500000001000000 1500050000000000 7906000000000000 0706000001000000 7b60000000000000 bf60000000000000 9500000000000000 b7000000ffffffff 9500000000000000";

pub(crate) const MANIFEST: &[u8] = b"map array 8 16\nprogram bump update 4 bump.hex\n";

const SCRIPT: &[u8] =
    b"bump 00000000\nbump 00000000\nbump 00000000\nbump 00000000\nbump 00000000\nbump 00000000\nbump 00000000\nbump 00000000\n";

// A session waits at most so many turns.
const TURNS: u64 = 10_000_000;

// The folder of the one program.
#[derive(Drop)]
pub(crate) struct Programs;

impl Folder for Programs {
    type File = &'static [u8];

    ghost can_fail = { λ _ _. ⊤ };

    fn open(&self, _name: &str) -> Option<&'static [u8]> {
        Some(BUMP)
    }
}

// The manifest of the one program, a text, and a state, a new one where its text is empty.
pub(crate) fn given<'a>(
    folder: &'a Programs,
    file: &'a [u8],
    state: &'a [u8],
) -> Inputs<'a, Programs, &'a [u8]> {
    Inputs {
        sizes: MapSizes::Standard,
        folder,
        manifest: Some(MANIFEST),
        file: Some(file),
        state: Some(state),
        history: None,
    }
}

// How many calls sessions 0 and 1 have begun, and how many of the two saw the other.
#[derive(Drop)]
struct Meeting {
    first: AtomicU64,
    second: AtomicU64,
    met: AtomicU64,
}

impl Meeting {
    // Says that a session is there, and waits for the other one before its first call.
    fn wait(&self, own: &AtomicU64, other: &AtomicU64) {
        if own.fetch_add(1, Ordering::SeqCst) > 0 {
            return;
        }
        for _ in 0..TURNS {
            if other.load(Ordering::SeqCst) > 0 {
                self.met.fetch_add(1, Ordering::SeqCst);
                return;
            }
            thread::yield_now();
        }
    }
}

impl Gate for Meeting {
    fn before(&self, session: u64) {
        match session {
            0 => self.wait(&self.first, &self.second),
            1 => self.wait(&self.second, &self.first),
            _ => {}
        }
    }
}

#[test]
fn two_sessions_wait_for_each_other(rt: HostRuntime) {
    let meeting = Meeting {
        first: AtomicU64::new(0),
        second: AtomicU64::new(0),
        met: AtomicU64::new(0),
    };
    let command = Stress {
        rt: &rt,
        config: Config {
            nodes: 2,
            slots: 2,
            window: 64,
            limit: 1000,
            spare: 0,
        },
        together: 1,
        gate: &meeting,
        has_history: false,
        clock: None::<&NoClock>,
        watcher: &Unwatched,
    };
    let folder = Programs;
    let mut inputs = given(&folder, SCRIPT, b"");
    let mut transcript = Vec::new(rt.alloc());
    let status = command.perform(rt.alloc(), &mut inputs, &mut transcript);
    assert_eq!(rt; (status.code(), meeting.met.load(Ordering::SeqCst)), (0, 2));
    let mut inputs = given(&folder, transcript.as_slice(), b"");
    let mut found = Vec::new(rt.alloc());
    let mut notes = Notes::none(rt.alloc());
    let command = Replay {
        spare: 4,
        watcher: &Unwatched,
    };
    let status = perform(rt.alloc(), &command, &mut inputs, &mut notes, &mut found);
    assert_eq!(rt;
        (status.code(), found.as_slice()),
        (0, b"good 8 0 0\n".as_slice())
    );
}
