//! A replica, as it opens and as it follows a base.

use loader::{Installed, StoreState};
use maps::{MapSet, Shape, shapes_ok};
use replica::{Replica, Replies};
use std::alloc::Global;

pub(crate) const SHAPES: [Shape; 1] = [Shape::Array {
    value: 8,
    entries: 4,
}];

// A new state of these maps, in which one program may be installed.
pub(crate) fn new_state(alloc: Global) -> Option<StoreState> {
    if shapes_ok(&SHAPES).is_err() {
        return None;
    }
    let Ok(maps) = MapSet::open(alloc, &SHAPES) else {
        return None;
    };
    let Ok(programs) = Installed::open(alloc, &SHAPES, 1, 0) else {
        return None;
    };
    Some(StoreState::of(maps, programs))
}

// A new replica of it.
fn opened_replica(alloc: Global) -> Option<Replica> {
    let state = new_state(alloc)?;
    Some(Replica::open(state))
}

#[test]
fn opens(rt: HostRuntime) {
    let replica = opened_replica(rt.alloc()).expect(&rt, "replica");
    assert_eq!(rt; (replica.tail(), replica.maps().len(0)), (0, 4));
}

#[test]
fn nothing_is_replayed_yet(rt: HostRuntime) {
    let replies = Replies::new(7, 2);
    assert_eq!(rt; replies.get(1), None);
}

#[test]
fn follows_a_base(rt: HostRuntime) {
    let mut behind = opened_replica(rt.alloc()).expect(&rt, "replica");
    let other = opened_replica(rt.alloc()).expect(&rt, "other");
    behind.rebase(16, other.maps(), other.programs());
    assert_eq!(rt; (behind.tail(), behind.maps().len(0)), (16, 4));
}
