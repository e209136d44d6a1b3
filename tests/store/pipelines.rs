//! Several updates of one node's sessions at once.

use crate::store::held_places::opened;
use crate::store::single_store::ZERO;
use crate::store::two_nodes::last_of;
use combiner::Reply;
use std::sync::Wait;
use std::thread;
use std::thread::Threads;
use store::{Answer, Pipeline, Polled, Session, Store, StoreRefused};
use store_steps::{EachRoom, Member, Question};

fn member_of(session: Session) -> Member {
    let (seat, caller) = session.into_parts();
    Member { seat, caller }
}

// Two updates of the counter at once, so many times. `None` where an answer has no index, or the indexes of two answers don't ascend.
fn pairs_at_once<R: Wait>(
    rt: &R,
    store: &Store,
    room: &mut EachRoom,
    members: &mut [Member],
    rounds: usize,
) -> Option<[u64; 2]> {
    let calls = [Question {
        program: 0,
        argument: &ZERO,
    }; 2];
    let mut last = [0; 2];
    for _ in 0..rounds {
        let mut replies = [Reply::Ended; 2];
        room.ask(rt, store.shared(), members, &calls, &mut replies);
        last = match replies {
            [
                Reply::Placed { index: first, .. },
                Reply::Placed { index: second, .. },
            ] => [first, second],
            _ => return None,
        };
        if last[1] <= last[0] {
            return None;
        }
    }
    Some(last)
}

// So many updates of the counter by a session of its own.
fn updates<R: Wait>(rt: &R, store: &Store, session: &mut Session, rounds: usize) -> bool {
    for _ in 0..rounds {
        if session.invoke(rt, store, 0, &ZERO).is_err() {
            return false;
        }
    }
    true
}

#[test]
fn answers_have_ascending_indexes(rt: HostRuntime) {
    let (store, mut sessions) = opened(rt.alloc(), 1, 2, 100).expect(&rt, "store");
    let last = member_of(last_of(&store, &mut sessions));
    let first = member_of(last_of(&store, &mut sessions));
    sessions.destroy_empty();
    let mut members = [first, last];
    let mut room = EachRoom::open(rt.alloc()).expect(&rt, "room");
    assert_eq!(rt;
        pairs_at_once(&rt, &store, &mut room, &mut members, 3),
        Some([4, 5])
    );
}

// The history has its last record in the middle of the two.
#[test]
fn ends_within_the_calls(rt: HostRuntime) {
    let (store, mut sessions) = opened(rt.alloc(), 1, 2, 1).expect(&rt, "store");
    let last = member_of(last_of(&store, &mut sessions));
    let first = member_of(last_of(&store, &mut sessions));
    sessions.destroy_empty();
    let mut members = [first, last];
    let mut replies = [Reply::Ended; 2];
    let calls = [Question {
        program: 0,
        argument: &ZERO,
    }; 2];
    let mut room = EachRoom::open(rt.alloc()).expect(&rt, "room");
    room.ask(&rt, store.shared(), &mut members, &calls, &mut replies);
    let placed = Reply::Placed { index: 0, reply: 1 };
    assert_eq!(rt; replies, [placed, Reply::Ended]);
}

// Two sessions ask at once while a third one of their node updates on a thread of its own. All have got an index, each its own.
#[test]
fn ask_beside_a_session(rt: HostRuntime) {
    let (store, mut sessions) = opened(rt.alloc(), 1, 3, 1000).expect(&rt, "store");
    let mut other = last_of(&store, &mut sessions);
    let last = member_of(last_of(&store, &mut sessions));
    let first = member_of(last_of(&store, &mut sessions));
    sessions.destroy_empty();
    let mut members = [first, last];
    let mut room = EachRoom::open(rt.alloc()).expect(&rt, "room");
    let (beside, reader) = (&mut other, &store);
    let (pairs, done) = thread::join(
        &rt,
        || { pairs_at_once(&rt, reader, &mut room, &mut members, 50) },
        || { updates(&rt, reader, beside, 50) },
    );
    let seen = other.read(&rt, &store, 1, &ZERO).map(|answer| answer.reply);
    let _ = Polled::new(other);
    assert_eq!(rt; (pairs.is_some(), done), (true, true));
    assert_eq!(rt; seen.ok(), Some(150));
}

// What is bumped: the counter under the key.
fn bump(key: &[u8]) -> Question<'_> {
    Question {
        program: 0,
        argument: key,
    }
}

// Whether four updates of the counter have the replies that their indexes ask for, and indexes that ascend, so many times.
fn fours<R: Wait>(rt: &R, store: &Store, pipeline: &mut Pipeline, rounds: usize) -> bool {
    let mut answers = [Err(StoreRefused::Ended); 4];
    for _ in 0..rounds {
        if pipeline
            .invoke_each(rt, store, &[bump(&ZERO); 4], &mut answers)
            .is_err()
        {
            return false;
        }
        let mut last = None;
        for answer in answers {
            match answer {
                Ok(Answer { index, reply }) if reply == index + 1 && last < Some(index) => {
                    last = Some(index);
                }
                _ => return false,
            }
        }
    }
    true
}

// Four sessions of one node ask on a thread, and four of another node on another: each answer has its index, and no other.
#[test]
fn two_pipelines_on_threads(rt: HostRuntime) {
    let (store, mut sessions) = opened(rt.alloc(), 2, 4, 10_000).expect(&rt, "store");
    let mut others = Vec::with_capacity(rt.alloc(), 8).expect(&rt, "room");
    for _ in 0..4 {
        others.push_reserved(sessions.remove(0));
    }
    let mut first = match Pipeline::of(rt.alloc(), &store, others) {
        Ok(pipeline) => pipeline,
        Err(_) => unreachable!(),
    };
    let mut second = match Pipeline::of(rt.alloc(), &store, sessions) {
        Ok(pipeline) => pipeline,
        Err(_) => unreachable!(),
    };
    let shared = &store;
    let (one, other) = thread::join(
        &rt,
        || { fours(&rt, shared, &mut first, 200) },
        || { fours(&rt, shared, &mut second, 200) },
    );
    let mut back = first.into_sessions();
    let mut rest = second.into_sessions();
    for _ in 0..4 {
        back.push_reserved(rest.remove(0));
    }
    rest.destroy_empty();
    let closed = match store.close(back) {
        Ok(closed) => closed,
        Err(_) => unreachable!(),
    };
    assert_eq!(rt; (one, other, closed.log().tail()), (true, true, 1_600));
}
