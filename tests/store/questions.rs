//! Several reads of a store at one point.

use crate::store::single_store::{ZERO, close, counter, open_one, single};
use store::{Question, QuestionRefused, StoreRefused};

const ONE: [u8; 4] = [1, 0, 0, 0];

// What the counter under the key is.
fn peek(key: &[u8]) -> Question<'_> {
    Question {
        program: 1,
        argument: key,
    }
}

// Of two counters the first was counted once.
#[test]
fn two_reads_at_one_point(rt: HostRuntime) {
    let catalogue = counter(rt.alloc()).expect(&rt, "catalogue");
    let opened = open_one(rt.alloc(), single(16, 3, 0), catalogue);
    let (store, mut session, room) = opened.expect(&rt, "store");
    let _first = session.invoke(&rt, &store, 0, &ZERO);
    let mut replies = [9; 2];
    let asked = [peek(&ZERO), peek(&ONE)];
    let point = session.read_each(&rt, &store, &asked, &mut replies);
    let _closed = close(store, session, room);
    assert_eq!(rt; point, Ok(1));
    assert_eq!(rt; replies, [1, 0]);
}

// Where nothing is asked, the point is told.
#[test]
fn no_question(rt: HostRuntime) {
    let catalogue = counter(rt.alloc()).expect(&rt, "catalogue");
    let opened = open_one(rt.alloc(), single(16, 3, 0), catalogue);
    let (store, mut session, room) = opened.expect(&rt, "store");
    let _first = session.invoke(&rt, &store, 0, &ZERO);
    let point = session.read_each(&rt, &store, &[], &mut []);
    let _closed = close(store, session, room);
    assert_eq!(rt; point, Ok(1));
}

// The second and the third question have arguments of another length: the second is named, and none is answered.
#[test]
fn the_first_that_is_refused(rt: HostRuntime) {
    let catalogue = counter(rt.alloc()).expect(&rt, "catalogue");
    let opened = open_one(rt.alloc(), single(16, 3, 0), catalogue);
    let (store, mut session, room) = opened.expect(&rt, "store");
    let mut replies = [9; 3];
    let asked = [peek(&ZERO), peek(&ONE[..3]), peek(&[])];
    let told = session.read_each(&rt, &store, &asked, &mut replies);
    let closed = close(store, session, room);
    let second = QuestionRefused {
        number: 1,
        refused: StoreRefused::ArgumentLength,
    };
    assert_eq!(rt; told, Err(second));
    assert_eq!(rt; replies, [9; 3]);
    assert_eq!(rt; closed.catalogue().number("peek"), Some(1));
}
