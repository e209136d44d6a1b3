//! A state as text: two maps and a place for one program, the first bad line with the number of its fault, states that are written, programs as long as they
//! may be and longer, and what a watcher is told while one is loaded.

use dumps::{Watcher, dump, load, load_watched};
use loader::{StoreState, load_manifest};
use std::alloc::{AllocError, Global};
use std::cell::Cell;

const MAPS: &str = "map array 2 4\nmap hash 1 1 2\n";

const STATE: &str =
    "0 01000000 0100\n1 05 00\n1 06 ff\np update 0 b7000000050000009500000000000000\n";

// A text, its first bad line, and the number of its fault.
const BAD: &[(&str, u32, u8)] = &[
    ("0 01000000 0100", 1, 1),
    ("0 0100000A 0100\n", 1, 1),
    ("\n", 1, 1),
    ("2 05 00\n", 1, 2),
    ("0 04000000 0100\n", 1, 3),
    ("1 0505 00\n", 1, 3),
    ("1 05 0000\n", 1, 4),
    ("1 05 00\n1 05 01\n", 2, 5),
    ("1 05 00\n0 00000000 0100\n", 2, 5),
    (
        "p update 0 b7000000050000009500000000000000\n1 05 00\n",
        2,
        5,
    ),
    ("0 00000000 0000\n", 1, 6),
    ("1 01 00\n1 02 00\n1 03 00\n", 3, 7),
    ("p update 0 b700000005000000\n", 1, 8),
    (
        "p update 0 b7000000050000009500000000000000\np update 0 b7000000050000009500000000000000\n",
        2,
        9,
    ),
    (
        "p update 0 b7000000050000009500000000000000\np update 0 00\n",
        2,
        8,
    ),
];

// An array whose index 256 goes before index 1, by the bytes of the keys, and a hash.
const WIDE_MAPS: &str = "map array 1 300\nmap hash 2 1 4\n";

// States of these maps with two places, as they are written.
const WRITTEN: &[&str] = &[
    "",
    "0 00010000 07\n0 01000000 05\n",
    "0 2b010000 ff\n1 0001 00\n1 0100 01\n1 ff00 0a\n",
    "p read 3 b7000000050000009500000000000000\np update 64 b7000000050000009500000000000000\n",
];

#[test]
fn loads_a_state(rt: HostRuntime) {
    let catalogue = load_manifest(rt.alloc(), MAPS, &[])
        .expect(&rt, "catalogue")
        .with_places(1);
    let state = load(rt.alloc(), &catalogue, STATE).expect(&rt, "state");
    assert_eq!(rt; state.programs().len(), 1);
}

#[test]
fn names_the_first_bad_line(rt: HostRuntime) {
    let catalogue = load_manifest(rt.alloc(), MAPS, &[])
        .expect(&rt, "catalogue")
        .with_places(1);
    for &(text, line, number) in BAD {
        let refused = load(rt.alloc(), &catalogue, text).err();
        let told = refused.map(|e| (e.line(), e.number()));
        assert_eq!(rt; told, Some((line, number)));
    }
}

#[test]
fn writes_what_it_loads(rt: HostRuntime) {
    let catalogue = load_manifest(rt.alloc(), WIDE_MAPS, &[])
        .expect(&rt, "catalogue")
        .with_places(2);
    for &text in WRITTEN {
        let state = load(rt.alloc(), &catalogue, text).expect(&rt, "state");
        let written = dump(rt.alloc(), &state).expect(&rt, "text");
        assert_eq!(rt; written.as_slice(), text.as_bytes());
    }
}

// Of a program its slots, the bytes of its argument, how many both may have, and whether its line is read.
const LENGTHS: &[(usize, usize, usize, bool)] = &[
    (24, 64, 0, true),
    (25, 64, 0, false),
    (24, 65, 0, false),
    (25, 64, 199, false),
    (25, 200, 200, true),
    (25, 201, 200, false),
    (2048, 16384, 16384, true),
];

// The line of a program of so many slots: it writes R0, again and again, and ends.
fn program_line(alloc: Global, slots: usize, argument: usize) -> Result<String, AllocError> {
    let mut line = format!(in alloc; "p read {argument} ")?;
    for _ in 1..slots {
        line.push_str("b700000005000000")?;
    }
    line.push_str("9500000000000000\n")?;
    Ok(line)
}

#[test]
fn reads_programs_as_long_as_they_may_be(rt: HostRuntime) {
    for &(slots, argument, long, is_read) in LENGTHS {
        let loaded = load_manifest(rt.alloc(), MAPS, &[]).expect(&rt, "catalogue");
        let catalogue = loaded.with_long_places(1, long);
        let line = program_line(rt.alloc(), slots, argument).expect(&rt, "line");
        match load(rt.alloc(), &catalogue, line.as_str()) {
            Ok(state) => {
                let written = dump(rt.alloc(), &state).expect(&rt, "text");
                assert!(rt; is_read && written.as_slice() == line.as_bytes());
            }
            Err(e) => assert!(rt; !is_read && (e.line(), e.number()) == (1, 1)),
        }
    }
}

#[test]
fn writes_nothing_of_a_new_state(rt: HostRuntime) {
    let catalogue = load_manifest(rt.alloc(), MAPS, &[]).expect(&rt, "catalogue");
    let state = StoreState::open(rt.alloc(), &catalogue).expect(&rt, "state");
    let written = dump(rt.alloc(), &state).expect(&rt, "text");
    assert!(rt; written.is_empty());
}

// What a watcher was told: how often, how many bytes in all, and how many ends.
#[derive(Drop)]
struct Told {
    calls: Cell<usize>,
    bytes: Cell<usize>,
    ends: Cell<usize>,
}

impl Told {
    fn nothing() -> Told {
        Told {
            calls: Cell::new(0),
            bytes: Cell::new(0),
            ends: Cell::new(0),
        }
    }
}

impl Watcher for Told {
    fn passed(&self, bytes: usize) {
        self.calls.set(self.calls.get() + 1);
        self.bytes.set(self.bytes.get() + bytes);
    }

    fn ended(&self) {
        self.ends.set(self.ends.get() + 1);
    }
}

#[test]
fn tells_a_watcher_of_all_bytes(rt: HostRuntime) {
    let catalogue = load_manifest(rt.alloc(), "map hash 4 1 20000\n", &[]).expect(&rt, "catalogue");
    let mut text = String::new(rt.alloc());
    for key in 0..20000u32 {
        let line = format!(in rt.alloc(); "0 {key:08x} 07\n").expect(&rt, "line");
        text.push_str(line.as_str()).expect(&rt, "room");
    }
    let told = Told::nothing();
    let state = load_watched(rt.alloc(), &catalogue, text.as_str(), &told);
    assert!(rt; state.is_ok());
    assert_eq!(rt; text.len(), 280_000);
    assert_eq!(rt;
        (told.calls.get(), told.bytes.get(), told.ends.get()),
        (5, 280_000, 1)
    );
}

#[test]
fn tells_a_watcher_of_the_end_at_a_bad_line(rt: HostRuntime) {
    let catalogue = load_manifest(rt.alloc(), MAPS, &[])
        .expect(&rt, "catalogue")
        .with_places(1);
    for &(text, _, _) in BAD {
        let told = Told::nothing();
        let state = load_watched(rt.alloc(), &catalogue, text, &told);
        assert!(rt; state.is_err());
        assert_eq!(rt;
            (told.calls.get(), told.bytes.get(), told.ends.get()),
            (0, 0, 1)
        );
    }
}
