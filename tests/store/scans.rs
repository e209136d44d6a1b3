//! Scans of a store's map, page by page.

use crate::store::single_store::{ZERO, close, counter, open_one, single};
use store::{Beginning, Scan, ScanRefused};

fn from(map: usize, from: u32) -> Beginning {
    Beginning { map, from }
}

// An array of sixteen counters, of which the first stands at 1: five of them, and then the others.
#[test]
fn pages_of_an_array(rt: HostRuntime) {
    let catalogue = counter(rt.alloc()).expect(&rt, "catalogue");
    let opened = open_one(rt.alloc(), single(16, 3, 0), catalogue);
    let (store, mut session, room) = opened.expect(&rt, "store");
    let _first = session.invoke(&rt, &store, 0, &ZERO);
    let (mut keys, mut values) = ([0; 20], [9; 47]);
    let page = session.scan(&rt, &store, from(0, 0), &mut keys, &mut values);
    let rest = session.scan(&rt, &store, from(0, 5), &mut [0; 64], &mut [9; 128]);
    let _closed = close(store, session, room);
    let (five, others) = (
        Scan {
            point: 1,
            count: 5,
            next: Some(5),
        },
        Scan {
            point: 1,
            count: 11,
            next: None,
        },
    );
    assert_eq!(rt; page, Ok(five));
    assert!(&rt; keys == [0, 0, 0, 0, 1, 0, 0, 0, 2, 0, 0, 0, 3, 0, 0, 0, 4, 0, 0, 0]);
    assert_eq!(rt; (values[0], values[1], values[8], values[40]), (1, 0, 0, 9));
    assert_eq!(rt; rest, Ok(others));
}

// No room gives nothing; there is no map 1, and no place 16.
#[test]
fn scans_that_give_nothing(rt: HostRuntime) {
    let catalogue = counter(rt.alloc()).expect(&rt, "catalogue");
    let opened = open_one(rt.alloc(), single(16, 3, 0), catalogue);
    let (store, mut session, room) = opened.expect(&rt, "store");
    let nothing = session.scan(&rt, &store, from(0, 7), &mut [0; 3], &mut [0; 8]);
    let unknown_map = session.scan(&rt, &store, from(1, 0), &mut [0; 4], &mut [0; 8]);
    let unknown_place = session.scan(&rt, &store, from(0, 16), &mut [0; 4], &mut [0; 8]);
    let _closed = close(store, session, room);
    let there = Scan {
        point: 0,
        count: 0,
        next: Some(7),
    };
    assert_eq!(rt; nothing, Ok(there));
    assert_eq!(rt; unknown_map, Err(ScanRefused::UnknownMap));
    assert_eq!(rt; unknown_place, Err(ScanRefused::UnknownPlace));
    let numbers = (
        ScanRefused::UnknownMap.number(),
        ScanRefused::UnknownPlace.number(),
    );
    assert_eq!(rt; numbers, (9, 10));
}
