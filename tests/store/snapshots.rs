//! States that are taken while a store runs, and the value under one key.

use crate::store::held_places::opened;
use crate::store::single_store::{ZERO, counter, single};
use crate::store::two_nodes::last_of;
use loader::{StoreState, load_manifest};
use std::alloc::Global;
use std::sync::Wait;
use std::thread;
use std::thread::Threads;
use store::{
    Answer, Beginning, GetRefused, Lookup, MapKey, Polled, Question, QuestionRefused, Scan,
    ScanRefused, Session, Store,
};

// How often each of two threads counts, and how many states a third one takes.
const TIMES: u64 = 20_000;

const STATES: u32 = 200;

// The number under the key 0 of the first map.
fn count_in(state: &StoreState) -> Option<u64> {
    let maps = state.maps();
    if maps.count() == 0 || maps.shape(0).key_bytes() != 4 {
        return None;
    }
    let entry = maps.lookup(0, &ZERO)?;
    let bytes = maps.value(entry).first_chunk::<8>()?;
    Some(u64::from_le_bytes(*bytes))
}

// Counts.
fn count<R: Wait>(rt: &R, store: &Store, session: &mut Session) {
    for _ in 0..TIMES {
        let _ = session.invoke(rt, store, 0, &ZERO);
    }
}

// What was seen of the states that were taken.
#[derive(Drop)]
struct Taken {
    // How many have counted as far as their point, which is not below the one before.
    right: u32,
    // The last point, and the state there.
    last: u64,
    state: StoreState,
}

// Takes states.
fn take<R: Wait>(rt: &R, store: &Store, session: &mut Session, mut state: StoreState) -> Taken {
    let mut right = 0u32;
    let mut last = 0;
    for _ in 0..STATES {
        let point = session.snapshot(rt, store, &mut state);
        if last <= point && count_in(&state) == Some(point) {
            right = right.saturating_add(1);
        }
        last = point;
    }
    Taken { right, last, state }
}

// A session counts on a thread of its own, and another one takes states meanwhile.
fn take_beside<R: Wait + Threads + Sync>(
    rt: &R,
    store: &Store,
    counting: &mut Session,
    taking: &mut Session,
    state: StoreState,
) -> Taken {
    let ((), taken) = thread::join(
        rt,
        move || { count(rt, store, counting) },
        move || { take(rt, store, taking, state) },
    );
    taken
}

// What the first update is told of a store that opens on a state.
fn first_on<R: Wait>(rt: &R, alloc: Global, state: &StoreState) -> Option<Answer> {
    let catalogue = counter(alloc)?;
    let (store, mut sessions) = Store::open_on(alloc, single(16, 3, 0), catalogue, state).ok()?;
    let mut session = last_of(&store, &mut sessions);
    sessions.destroy_empty();
    let told = session.invoke(rt, &store, 0, &ZERO);
    let _ = session.into_parts();
    told.ok()
}

// Each state has counted as far as its point. A store that opens on the last goes on from it.
#[test]
fn states_beside_counters(rt: HostRuntime) {
    let (store, mut sessions) = opened(rt.alloc(), 3, 1, 100_000).expect(&rt, "store");
    let state = StoreState::open(rt.alloc(), store.catalogue()).expect(&rt, "state");
    let mut third = last_of(&store, &mut sessions);
    let mut other = last_of(&store, &mut sessions);
    let mut one = last_of(&store, &mut sessions);
    sessions.destroy_empty();
    let (run, shared) = (&rt, &store);
    let (counting, beside, taking) = (&mut one, &mut other, &mut third);
    let ((), taken) = thread::join(
        run,
        move || { count(run, shared, counting) },
        move || { take_beside(run, shared, beside, taking, state) },
    );
    let _ = one.into_parts();
    let _ = other.into_parts();
    let _ = third.into_parts();
    assert_eq!(rt; taken.right, STATES);
    let (index, reply) = (0, taken.last.saturating_add(1));
    assert_eq!(rt;
        first_on(&rt, rt.alloc(), &taken.state),
        Some(Answer { index, reply })
    );
}

// A snapshot, if the state has the store's sizes.
fn take_if_sized<R: Wait>(
    rt: &R,
    store: &Store,
    session: &mut Session,
    into: &mut StoreState,
) -> Option<u64> {
    if !into.is_sized_for(store.catalogue()) {
        return None;
    }
    Some(session.snapshot(rt, store, into))
}

// A state of other maps, and one with another number of places, stay as they were.
#[test]
fn states_of_other_sizes(rt: HostRuntime) {
    let (store, mut sessions) = opened(rt.alloc(), 1, 1, 100).expect(&rt, "store");
    let mut session = last_of(&store, &mut sessions);
    sessions.destroy_empty();
    let other = load_manifest(rt.alloc(), "map array 8 17\n", &[]).expect(&rt, "manifest");
    let mut maps = StoreState::open(rt.alloc(), &other).expect(&rt, "state");
    let same = counter(rt.alloc()).expect(&rt, "catalogue").with_places(1);
    let mut places = StoreState::open(rt.alloc(), &same).expect(&rt, "state");
    let mut state = StoreState::open(rt.alloc(), store.catalogue()).expect(&rt, "state");
    let _ = session.invoke(&rt, &store, 0, &ZERO);
    let other_maps = take_if_sized(&rt, &store, &mut session, &mut maps);
    let more_places = take_if_sized(&rt, &store, &mut session, &mut places);
    let same_sizes = take_if_sized(&rt, &store, &mut session, &mut state);
    let _ = session.into_parts();
    assert_eq!(rt;
        (other_maps, more_places, same_sizes),
        (None, None, Some(1))
    );
    let counts = (count_in(&maps), count_in(&places), count_in(&state));
    assert_eq!(rt; counts, (Some(0), Some(0), Some(1)));
}

fn at(map: usize, key: &[u8]) -> MapKey<'_> {
    MapKey { map, key }
}

// What stands under a key, and under an index that the map has not; there is no map 1, no key of 3 bytes, and no value of 7.
#[test]
fn values_under_keys(rt: HostRuntime) {
    let (store, mut sessions) = opened(rt.alloc(), 1, 1, 100).expect(&rt, "store");
    let mut session = last_of(&store, &mut sessions);
    sessions.destroy_empty();
    let _ = session.invoke(&rt, &store, 0, &ZERO);
    let (mut value, mut other) = ([9; 8], [9; 8]);
    let first = session.get(&rt, &store, at(0, &ZERO), &mut value);
    let none = session.get(&rt, &store, at(0, &[16, 0, 0, 0]), &mut other);
    let map = session.get(&rt, &store, at(1, &ZERO), &mut other);
    let key = session.get(&rt, &store, at(0, &[0; 3]), &mut other);
    let room = session.get(&rt, &store, at(0, &ZERO), &mut [0; 7]);
    let _ = session.into_parts();
    let (point, found) = (1, true);
    assert_eq!(rt; first, Ok(Lookup { point, found }));
    let found = false;
    assert_eq!(rt; none, Ok(Lookup { point, found }));
    assert_eq!(rt; (value, other), ([1, 0, 0, 0, 0, 0, 0, 0], [9; 8]));
    let wanted = [
        GetRefused::UnknownMap,
        GetRefused::KeyLength,
        GetRefused::ValueLength,
    ];
    assert_eq!(rt; [map, key, room], wanted.map(Err));
    assert_eq!(rt; wanted.map(|refused| refused.number()), [9, 11, 12]);
}

// What calls that wait for nobody tell.
#[derive(Drop)]
struct Told {
    got: Result<Option<Lookup>, GetRefused>,
    read: Result<Option<u64>, QuestionRefused>,
    replies: [u64; 1],
    scan: Result<Option<Scan>, ScanRefused>,
    taken: Option<u64>,
}

// One after another; `None` where an update is out.
fn look_at_once(
    store: &Store,
    session: Session,
    value: &mut [u8; 8],
    state: &mut StoreState,
) -> Option<Told> {
    let mut polled = Polled::new(session);
    if polled.is_waiting() {
        return None;
    }
    let question = Question {
        program: 1,
        argument: &ZERO,
    };
    let begin = Beginning { map: 0, from: 15 };
    let mut replies = [0; 1];
    let got = polled.try_get(store, at(0, &ZERO), value);
    let read = polled.try_read_each(store, &[question], &mut replies);
    let scan = polled.try_scan(store, begin, &mut [0; 4], &mut [0; 8]);
    let taken = polled.try_snapshot(store, state);
    Some(Told {
        got,
        read,
        replies,
        scan,
        taken,
    })
}

// The same of calls that wait for nobody.
#[test]
fn looks_that_wait_for_nobody(rt: HostRuntime) {
    let (store, mut sessions) = opened(rt.alloc(), 1, 1, 100).expect(&rt, "store");
    let mut state = StoreState::open(rt.alloc(), store.catalogue()).expect(&rt, "state");
    let mut session = last_of(&store, &mut sessions);
    sessions.destroy_empty();
    let _ = session.invoke(&rt, &store, 0, &ZERO);
    let mut value = [9; 8];
    let told = look_at_once(&store, session, &mut value, &mut state).expect(
        &rt,
        "no update is out",
    );
    let (point, found, count, next) = (1, true, 1, None);
    assert_eq!(rt; told.got, Ok(Some(Lookup { point, found })));
    assert_eq!(rt;
        (value, told.replies, told.read),
        ([1, 0, 0, 0, 0, 0, 0, 0], [1], Ok(Some(1)))
    );
    assert_eq!(rt; told.scan, Ok(Some(Scan { point, count, next })));
    assert_eq!(rt; (told.taken, count_in(&state)), (Some(1), Some(1)));
}
