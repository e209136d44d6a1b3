//! Scans of a hash, page by page. At one point they give each key once. A removal between two pages may move a key, which is passed by then, or
//! given twice: the pages tell by their points that they are of two states.

use crate::store::single_store::{close, open_one, single};
use loader::{Catalogue, load_manifest};
use std::alloc::Global;
use std::sync::Wait;
use store::{Beginning, Session, Store};

// Puts a key of one byte and its value into the hash.
const PUT: &str =
    "bf12000000000000 bf13000000000000 0703000001000000 1851000000000000 0000000000000000 b704000000000000 8500000002000000 9500000000000000";

// Takes a key out.
const TAKE: &str =
    "bf12000000000000 1851000000000000 0000000000000000 8500000003000000 9500000000000000";

const MANIFEST: &str =
    "map hash 1 1 8\nprogram put update 2 put.hex\nprogram take update 1 take.hex\n";

// What a scan gives where there is room for two entries; a key that it doesn't give is 99.
#[derive(Clone, Copy, Debug, PartialEq, Eq)]
struct Page {
    point: u64,
    count: usize,
    next: Option<u32>,
    keys: [u8; 2],
}

fn hash(alloc: Global) -> Option<Catalogue> {
    let files = [("put.hex", PUT), ("take.hex", TAKE)];
    load_manifest(alloc, MANIFEST, &files).ok()
}

fn put_each<R: Wait>(rt: &R, store: &Store, session: &mut Session, keys: &[u8]) {
    for key in keys {
        let _told = session.invoke(rt, store, 0, &[*key, 7]);
    }
}

fn page_from<R: Wait>(rt: &R, store: &Store, session: &mut Session, from: u32) -> Option<Page> {
    let mut keys = [99; 2];
    let begin = Beginning { map: 0, from };
    let told = session.scan(rt, store, begin, &mut keys, &mut [0; 2]);
    let scan = told.ok()?;
    Some(Page {
        point: scan.point,
        count: scan.count,
        next: scan.next,
        keys,
    })
}

// The five keys are numbers of one bit: five of them have all bits together where they are all different.
#[test]
fn each_key_once_at_one_point(rt: HostRuntime) {
    let catalogue = hash(rt.alloc()).expect(&rt, "catalogue");
    let opened = open_one(rt.alloc(), single(16, 9, 0), catalogue);
    let (store, mut session, room) = opened.expect(&rt, "store");
    put_each(&rt, &store, &mut session, &[1, 2, 4, 8, 16]);
    let first = page_from(&rt, &store, &mut session, 0).expect(&rt, "first");
    let from = first.next.expect(&rt, "a place");
    let second = page_from(&rt, &store, &mut session, from).expect(&rt, "second");
    let from = second.next.expect(&rt, "a place");
    let third = page_from(&rt, &store, &mut session, from).expect(&rt, "third");
    let _closed = close(store, session, room);
    assert_eq!(rt; (first.point, second.point, third.point), (5, 5, 5));
    assert_eq!(rt; (first.count, second.count, third.count), (2, 2, 1));
    assert_eq!(rt; third.next, None);
    let bits = [first.keys[0], first.keys[1], second.keys[0], second.keys[1]];
    assert_eq!(rt; bits.iter().fold(third.keys[0], |sum, key| sum | key), 31);
}

// These keys share a bucket, whose tree has 0 at its root, 1 and 2 under it, and 3 under 1. So 2 moves to the place that 0 had.
#[test]
fn a_key_is_passed_by(rt: HostRuntime) {
    let catalogue = hash(rt.alloc()).expect(&rt, "catalogue");
    let opened = open_one(rt.alloc(), single(16, 9, 0), catalogue);
    let (store, mut session, room) = opened.expect(&rt, "store");
    put_each(&rt, &store, &mut session, &[0, 1, 2, 3]);
    let before = page_from(&rt, &store, &mut session, 0);
    let _taken = session.invoke(&rt, &store, 1, &[0]);
    let behind = page_from(&rt, &store, &mut session, 2);
    let again = page_from(&rt, &store, &mut session, 0);
    let _closed = close(store, session, room);
    let two = |point: u64, keys: [u8; 2]| Page {
        point,
        count: 2,
        next: Some(2),
        keys,
    };
    let last = Page {
        point: 5,
        count: 1,
        next: None,
        keys: [3, 99],
    };
    assert_eq!(rt; before, Some(two(4, [0, 1])));
    assert_eq!(rt; behind, Some(last));
    assert_eq!(rt; again, Some(two(5, [2, 1])));
}

// In the tree 0 stands above 2, and 2 above 4, which has the place that 1 had. So 4 moves to the place of 2, behind the first page.
#[test]
fn a_key_is_given_twice(rt: HostRuntime) {
    let catalogue = hash(rt.alloc()).expect(&rt, "catalogue");
    let opened = open_one(rt.alloc(), single(16, 9, 0), catalogue);
    let (store, mut session, room) = opened.expect(&rt, "store");
    put_each(&rt, &store, &mut session, &[0, 1, 2]);
    let _taken = session.invoke(&rt, &store, 1, &[1]);
    put_each(&rt, &store, &mut session, &[4]);
    let before = page_from(&rt, &store, &mut session, 0);
    let _taken = session.invoke(&rt, &store, 1, &[2]);
    let behind = page_from(&rt, &store, &mut session, 2);
    let _closed = close(store, session, room);
    let first = Page {
        point: 5,
        count: 2,
        next: Some(2),
        keys: [0, 4],
    };
    let last = Page {
        point: 6,
        count: 1,
        next: None,
        keys: [4, 99],
    };
    assert_eq!(rt; before, Some(first));
    assert_eq!(rt; behind, Some(last));
}
