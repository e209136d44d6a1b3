//! The lines of the file stdin, in a store as the file args says, are answered as the file stdout says.

use super::{Layout, answer, catalogue, close, layout_in};
use oplog::{ENDLESS, Sizes};
use std::test::Fail;
use store::Store;

const LAYOUT: Layout = Layout {
    nodes: 2,
    slots: 1,
    window: 16,
    entries: 64,
    value: 8,
    keys: Some(70),
};

const LINES: [(&str, u64); 7] = [
    ("update 100", 136),
    ("read 64", 100),
    ("threads 90 200", 0),
    ("busy 1 0 50", 0),
    ("put 40", 0),
    ("scan 2", 3120),
    ("snapshot 2", 0),
];

#[test]
fn answers_lines(rt: HostRuntime) -> Result<(), Fail> {
    let alloc = rt.alloc();
    let sizes = Sizes {
        nodes: LAYOUT.nodes,
        slots: LAYOUT.slots,
        window: LAYOUT.window,
        limit: ENDLESS,
        spare: 0,
        long: 0,
    };
    let catalogue = catalogue(alloc, &LAYOUT).ok_or("a catalogue")?;
    let (store, mut sessions) = Store::open_sized(alloc, sizes, catalogue)?;
    for (line, wanted) in LINES {
        assert_eq!(rt;
            answer(&rt, alloc, &store, &mut sessions, line),
            Some(wanted)
        );
    }
    assert_eq!(rt;
        answer(&rt, alloc, &store, &mut sessions, "beside 1 x 0 1"),
        None
    );
    let _closed = close(store, sessions);
    Ok(())
}
