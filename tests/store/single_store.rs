//! A store of one node of one slot, call by call.

use loader::{Catalogue, load_manifest};
use oplog::Config;
use readpath::ReadAnswer;
use std::alloc::Global;
use store::{Answer, Closed, Mode, NO_PLACE, NO_PROGRAM, Session, Store, StoreRefused};

const BUMP: &str =
    "bf12000000000000 1851000000000000 0000000000000000 8500000001000000 1500050000000000 7906000000000000 0706000001000000 7b60000000000000 bf60000000000000 9500000000000000 b7000000ffffffff 9500000000000000";

const PEEK: &str =
    "bf12000000000000 1851000000000000 0000000000000000 8500000001000000 1500020000000000 7900000000000000 9500000000000000 b7000000ffffffff 9500000000000000";

const MANIFEST: &str =
    "map array 8 16\nprogram bump update 4 bump.hex\nprogram peek read 4 peek.hex\n";

pub(crate) const ZERO: [u8; 4] = [0; 4];

// The bytes of a program without an argument that replies 5.
const FIVE: [u8; 16] = [0xb7, 0, 0, 0, 5, 0, 0, 0, 0x95, 0, 0, 0, 0, 0, 0, 0];

pub(crate) fn counter(alloc: Global) -> Option<Catalogue> {
    let files = [("bump.hex", BUMP), ("peek.hex", PEEK)];
    load_manifest(alloc, MANIFEST, &files).ok()
}

pub(crate) fn single(window: u32, limit: u32, spare: u32) -> Config {
    Config {
        nodes: 1,
        slots: 1,
        window,
        limit,
        spare,
    }
}

// A store of one session: it, the session, and the list that this came in, which has room to take it back.
pub(crate) fn open_one(
    alloc: Global,
    config: Config,
    catalogue: Catalogue,
) -> Option<(Store, Session, Vec<Session>)> {
    let (store, mut sessions) = Store::open(alloc, config, catalogue).ok()?;
    let Some(session) = sessions.pop() else {
        unreachable!()
    };
    Some((store, session, sessions))
}

// Ends the store, once its session is back.
pub(crate) fn close(store: Store, session: Session, mut room: Vec<Session>) -> Closed {
    room.push_reserved(session);
    match store.close(room) {
        Ok(closed) => closed,
        Err(_) => unreachable!(),
    }
}

#[test]
fn one_update_at_most(rt: HostRuntime) {
    let catalogue = counter(rt.alloc()).expect(&rt, "catalogue");
    let opened = open_one(rt.alloc(), single(16, 1, 0), catalogue);
    let (store, mut session, sessions) = opened.expect(&rt, "store");
    let first = Answer { index: 0, reply: 1 };
    assert_eq!(rt; session.invoke(&rt, &store, 0, &ZERO), Ok(first));
    let short = session.invoke(&rt, &store, 0, &[0]);
    let reader = session.invoke(&rt, &store, 1, &ZERO);
    let unknown = session.invoke(&rt, &store, 2, &[]);
    let ended = session.invoke(&rt, &store, 0, &ZERO);
    assert_eq!(rt; short, Err(StoreRefused::ArgumentLength));
    assert_eq!(rt; reader, Err(StoreRefused::WrongMode));
    assert_eq!(rt; unknown, Err(StoreRefused::UnknownProgram));
    assert_eq!(rt; ended, Err(StoreRefused::Ended));
    assert_eq!(rt;
        session.read(&rt, &store, 0, &ZERO),
        Err(StoreRefused::WrongMode)
    );
    let seen = ReadAnswer { point: 1, reply: 1 };
    assert_eq!(rt; session.read(&rt, &store, 1, &ZERO), Ok(seen));
    let Err((store, sessions)) = store.close(sessions) else {
        unreachable!()
    };
    sessions.destroy_empty();
    let room = Vec::with_capacity(rt.alloc(), 1).expect(&rt, "room");
    assert_eq!(rt; close(store, session, room).log().tail(), 1);
}

// The log keeps sixteen records: it moves its base twice.
#[test]
fn forty_updates_in_a_window_of_sixteen(rt: HostRuntime) {
    let catalogue = counter(rt.alloc()).expect(&rt, "catalogue");
    let opened = open_one(rt.alloc(), single(16, 40, 0), catalogue);
    let (store, mut session, room) = opened.expect(&rt, "store");
    for index in 0..40 {
        let want = Answer {
            index,
            reply: index + 1,
        };
        assert_eq!(rt; session.invoke(&rt, &store, 0, &ZERO), Ok(want));
    }
    let ended = session.invoke(&rt, &store, 0, &ZERO);
    assert_eq!(rt; ended, Err(StoreRefused::Ended));
    let closed = close(store, session, room);
    assert_eq!(rt; (closed.log().base(), closed.log().tail()), (32, 40));
}

// The place behind the catalogue's two programs is empty, and then has one.
#[test]
fn a_program_is_installed(rt: HostRuntime) {
    let catalogue = counter(rt.alloc()).expect(&rt, "catalogue");
    let opened = open_one(rt.alloc(), single(16, 40, 1), catalogue);
    let (store, mut session, room) = opened.expect(&rt, "store");
    let early = session.invoke(&rt, &store, 2, &[]);
    let installed = session.install(&rt, &store, Mode::Update, 0, &FIVE);
    let called = session.invoke(&rt, &store, 2, &[]);
    assert_eq!(rt;
        early,
        Ok(Answer {
            index: 0,
            reply: NO_PROGRAM
        })
    );
    assert_eq!(rt; installed, Ok(Answer { index: 1, reply: 2 }));
    assert_eq!(rt; called, Ok(Answer { index: 2, reply: 5 }));
    assert_eq!(rt; close(store, session, room).log().tail(), 3);
}

// A second one finds no place, which is an operation; one that is too large is none.
#[test]
fn no_place_is_left(rt: HostRuntime) {
    let catalogue = counter(rt.alloc()).expect(&rt, "catalogue");
    let opened = open_one(rt.alloc(), single(16, 40, 0), catalogue);
    let (store, mut session, room) = opened.expect(&rt, "store");
    let full = session.install(&rt, &store, Mode::Read, 64, &FIVE);
    let large = session.install(&rt, &store, Mode::Read, 65, &FIVE);
    assert_eq!(rt;
        full,
        Ok(Answer {
            index: 0,
            reply: NO_PLACE
        })
    );
    assert_eq!(rt; large, Err(StoreRefused::TooLarge));
    assert_eq!(rt; close(store, session, room).log().tail(), 1);
}
