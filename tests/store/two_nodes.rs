//! A store of two nodes of one slot each, call by call.

use crate::store::single_store::{ZERO, counter};
use oplog::Config;
use readpath::ReadAnswer;
use store::{Answer, Closed, Session, Store};

// The last of the sessions.
pub(crate) fn last_of(store: &Store, sessions: &mut Vec<Session>) -> Session {
    let Some(last) = sessions.pop() else {
        unreachable!()
    };
    last
}

// Ends the store, once both sessions are back.
fn close_both(store: Store, one: Session, other: Session, mut sessions: Vec<Session>) -> Closed {
    sessions.push_reserved(one);
    sessions.push_reserved(other);
    match store.close(sessions) {
        Ok(closed) => closed,
        Err(_) => unreachable!(),
    }
}

#[test]
fn two_nodes_of_one_slot(rt: HostRuntime) {
    let catalogue = counter(rt.alloc()).expect(&rt, "catalogue");
    let room = Vec::with_capacity(rt.alloc(), 2).expect(&rt, "room");
    let config = Config {
        nodes: 2,
        slots: 1,
        window: 16,
        limit: 100,
        spare: 0,
    };
    let opened = Store::open(rt.alloc(), config, catalogue);
    let (store, mut sessions) = opened.expect(&rt, "store");
    let mut other = last_of(&store, &mut sessions);
    let mut one = last_of(&store, &mut sessions);
    sessions.destroy_empty();
    let first = one.invoke(&rt, &store, 0, &ZERO);
    let second = other.invoke(&rt, &store, 0, &ZERO);
    let seen = one.read(&rt, &store, 1, &ZERO);
    let closed = close_both(store, one, other, room);
    assert_eq!(rt; first, Ok(Answer { index: 0, reply: 1 }));
    assert_eq!(rt; second, Ok(Answer { index: 1, reply: 2 }));
    assert_eq!(rt; seen, Ok(ReadAnswer { point: 2, reply: 2 }));
    let tails = [0, 1, 2].map(|node| closed.replica(node).map(|replica| replica.tail()));
    assert_eq!(rt; (closed.log().tail(), tails), (2, [Some(2), Some(2), None]));
}
