// A store: opened, called and closed. Once it is open nothing takes memory.

ghost use Rattle.std.specs.Prelude.{◌≡◌, ◌≤◌, [], vec_capacity};
ghost use Rattle.store.specs.Sessions.{IsOf};

use crate::endings::{Ending, judged};
use crate::served::{BUMP_LINE, MANIFEST, PEEK_LINE};
use loader::{Catalogue, StoreState, load_manifest};
use oplog::{Config, MIN_WINDOW, OpenError};
use readpath::ReadAnswer;
use std::alloc::Global;
use std::sync::Wait;
use store::{Answer, Session, Store};

const KEY: [u8; 4] = [0; 4];

/// The counter's catalogue; none where it had no memory.
pub fn catalogue(alloc: Global) -> Option<Catalogue> {
    let files = [("bump.hex", BUMP_LINE), ("peek.hex", PEEK_LINE)];
    load_manifest(alloc, MANIFEST, &files).ok()
}

// Whether an update and a read of a new store are answered as ever.
fn answers<R: Wait>(rt: &R, store: &Store, session: &mut Session) -> bool
    requires own { IsOf store.now session.old }
    ensures own { IsOf store.now session.new }
{
    let first = session.invoke(rt, store, 0, &KEY);
    let seen = session.read(rt, store, 1, &KEY);
    let is_first = first == Ok(Answer { index: 0, reply: 1 });
    let is_seen = seen == Ok(ReadAnswer { point: 1, reply: 1 });
    is_first && is_seen
}

// Whether the store gives back a log of one update.
fn closes(store: Store, session: Session, mut sessions: Vec<Session>) -> bool
    requires own { IsOf store session }
    requires one { (store.config.nodes ≡ 1) × (store.config.slots ≡ 1) }
    requires room { (sessions.items ≡ []) × (1 ≤ vec_capacity sessions) }
{
    sessions.push_reserved(session);
    match store.close(sessions) {
        Ok(closed) => closed.log().tail() == 1,
        Err(_) => unreachable!(),
    }
}

// The sizes of a store of one node of one slot.
fn config() -> Config
    ensures { (result.nodes ≡ 1) × (result.slots ≡ 1) }
{
    Config {
        nodes: 1,
        slots: 1,
        window: MIN_WINDOW as u32,
        limit: 100,
        spare: 0,
    }
}

// Whether a new store answers its only session as ever, and gives back its log.
fn serves<R: Wait>(rt: &R, store: Store, mut session: Session, sessions: Vec<Session>) -> bool
    requires own { IsOf store session }
    requires one { (store.config.nodes ≡ 1) × (store.config.slots ≡ 1) }
    requires room { (sessions.items ≡ []) × (1 ≤ vec_capacity sessions) }
{
    let is_answered = answers(rt, &store, &mut session);
    let is_closed = closes(store, session, sessions);
    is_answered && is_closed
}

// How it ends if no store is opened.
fn refused(why: OpenError) -> Ending {
    match why {
        OpenError::NoMemory => Ending::NoMemory,
        _ => Ending::Other,
    }
}

/// A store of one node of one slot.
pub fn opened<R: Wait>(rt: &R, alloc: Global) -> Ending {
    let Some(catalogue) = catalogue(alloc) else {
        return Ending::NotReached;
    };
    match Store::open(alloc, config(), catalogue) {
        Ok((store, mut sessions)) => {
            let Some(session) = sessions.pop() else {
                unreachable!()
            };
            judged(serves(rt, store, session, sessions))
        }
        Err(why) => refused(why),
    }
}

/// `opened`, but on a state, which is a new one.
pub fn opened_on<R: Wait>(rt: &R, alloc: Global) -> Ending {
    let Some(catalogue) = catalogue(alloc) else {
        return Ending::NotReached;
    };
    let Ok(state) = StoreState::open(alloc, &catalogue) else {
        return Ending::NotReached;
    };
    match Store::open_on(alloc, config(), catalogue, &state) {
        Ok((store, mut sessions)) => {
            let Some(session) = sessions.pop() else {
                unreachable!()
            };
            judged(serves(rt, store, session, sessions))
        }
        Err(why) => refused(why),
    }
}
