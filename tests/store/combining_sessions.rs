//! A session that is answered by another of its node.

use crate::store::held_places::opened;
use crate::store::single_store::ZERO;
use crate::store::two_nodes::last_of;
use std::sync::Wait;
use store::{Answer, Polled, Session, Store, StoreRefused};

// What the other session is told, and then the first, which posts before the other asks. `None` where the first was held up.
fn answered_by_other<R: Wait>(
    rt: &R,
    store: &Store,
    first: Session,
    other: &mut Session,
) -> Option<(Result<Answer, StoreRefused>, Result<Answer, StoreRefused>)> {
    let mut first = Polled::new(first);
    if first.is_waiting() {
        return None;
    }
    let Ok(Some(())) = first.try_post(store, 0, &ZERO) else {
        return None;
    };
    let answer = other.invoke(rt, store, 0, &ZERO);
    if !first.is_waiting() {
        return None;
    }
    let last = first.try_complete(store)?;
    Some((answer, last))
}

#[test]
fn is_answered_by_another(rt: HostRuntime) {
    let (store, mut sessions) = opened(rt.alloc(), 1, 2, 100).expect(&rt, "store");
    let mut other = last_of(&store, &mut sessions);
    let first = last_of(&store, &mut sessions);
    sessions.destroy_empty();
    let answers = answered_by_other(&rt, &store, first, &mut other);
    let _ = Polled::new(other);
    let last = Ok(Answer { index: 1, reply: 2 });
    assert_eq!(rt; answers, Some((last, Ok(Answer { index: 0, reply: 1 }))));
}

// The history has its last record in the middle of a batch of two.
#[test]
fn ends_within_a_batch(rt: HostRuntime) {
    let (store, mut sessions) = opened(rt.alloc(), 1, 2, 1).expect(&rt, "store");
    let mut other = last_of(&store, &mut sessions);
    let first = last_of(&store, &mut sessions);
    sessions.destroy_empty();
    let answers = answered_by_other(&rt, &store, first, &mut other);
    let _ = Polled::new(other);
    let ended = Err(StoreRefused::Ended);
    assert_eq!(rt; answers, Some((ended, Ok(Answer { index: 0, reply: 1 }))));
}
