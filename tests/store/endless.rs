//! Stores whose history has no end, or as good as none.

use crate::store::single_store::{ZERO, close, counter};
use loader::Catalogue;
use oplog::{Config, ENDLESS, OpenError, Sizes};
use std::alloc::Global;
use store::{Answer, Store};

// One node of one slot and a window of sixteen.
fn sized(limit: u64) -> Sizes {
    Sizes {
        nodes: 1,
        slots: 1,
        window: 16,
        limit,
        spare: 0,
        long: 0,
    }
}

// Why there is no store of these sizes.
fn fault_of(alloc: Global, sizes: Sizes, catalogue: Catalogue) -> OpenError {
    match Store::open_sized(alloc, sizes, catalogue) {
        Err(error) => error,
        Ok(_) => unreachable!(),
    }
}

// Why there is none of this configuration.
fn fault_in(alloc: Global, config: Config, catalogue: Catalogue) -> OpenError {
    match Store::open(alloc, config, catalogue) {
        Err(error) => error,
        Ok(_) => unreachable!(),
    }
}

#[test]
fn a_limit_of_none(rt: HostRuntime) {
    let catalogue = counter(rt.alloc()).expect(&rt, "catalogue");
    assert_eq!(rt;
        fault_of(rt.alloc(), sized(0), catalogue),
        OpenError::OutOfLimits
    );
}

#[test]
fn a_limit_beyond_the_last(rt: HostRuntime) {
    let catalogue = counter(rt.alloc()).expect(&rt, "catalogue");
    assert_eq!(rt;
        fault_of(rt.alloc(), sized(ENDLESS + 1), catalogue),
        OpenError::OutOfLimits
    );
}

// A configuration has the limits that it had.
#[test]
fn a_configuration_of_a_million_and_one(rt: HostRuntime) {
    let catalogue = counter(rt.alloc()).expect(&rt, "catalogue");
    let config = Config {
        nodes: 1,
        slots: 1,
        window: 16,
        limit: 1_000_001,
        spare: 0,
    };
    assert_eq!(rt;
        fault_in(rt.alloc(), config, catalogue),
        OpenError::OutOfLimits
    );
}

// More updates than the history of any configuration has.
#[test]
fn a_million_and_twenty_updates(rt: HostRuntime) {
    let catalogue = counter(rt.alloc()).expect(&rt, "catalogue");
    let room = Vec::with_capacity(rt.alloc(), 1).expect(&rt, "room");
    let opened = Store::open_sized(rt.alloc(), sized(ENDLESS), catalogue);
    let (store, mut sessions) = opened.expect(&rt, "store");
    let mut session = sessions.pop().expect(&rt, "session");
    sessions.destroy_empty();
    for _index in 0..1_000_019 {
        assert!(&rt; session.invoke(&rt, &store, 0, &ZERO).is_ok());
    }
    let last = Answer {
        index: 1_000_019,
        reply: 1_000_020,
    };
    assert_eq!(rt; session.invoke(&rt, &store, 0, &ZERO), Ok(last));
    let closed = close(store, session, room);
    assert_eq!(rt;
        (closed.log().base(), closed.log().tail()),
        (1_000_016, 1_000_020)
    );
}
