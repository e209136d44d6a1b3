// Frames: what is known at the entry, what a mark or a pointer changes, and what two frames have in common.

use regkind::{Cell, Frame, Kind, covers, join};

// A frame of the entry in which R2 has this kind and these eight bytes of the stack are marked.
fn changed(kind: Kind, at: usize) -> Frame {
    let mut frame = Frame::entry();
    frame.set_kind(2, kind);
    frame.mark(at, 8);
    frame
}

#[test]
fn entry_has_two_pointers(rt: HostRuntime) {
    let frame = Frame::entry();
    let mut want = [Kind::Unreadable; 11];
    want[1] = Kind::Arg(0);
    want[10] = Kind::Stack(0);
    for register in 0..11u8 {
        assert_eq!(rt; frame.kind(register), want[register as usize]);
    }
    assert_eq!(rt;
        [
            frame.are_marked(0, 0),
            frame.are_marked(0, 1),
            frame.are_marked(511, 1)
        ],
        [true, false, false]
    );
}

#[test]
fn marks_bytes(rt: HostRuntime) {
    let mut frame = Frame::entry();
    frame.mark(508, 4);
    assert_eq!(rt;
        [
            frame.are_marked(508, 4),
            frame.are_marked(504, 8),
            frame.are_marked(507, 2)
        ],
        [true, false, false]
    );
    frame.mark(500, 8);
    assert_eq!(rt;
        [frame.are_marked(500, 12), frame.are_marked(499, 2)],
        [true, false]
    );
    frame.mark(0, 512);
    assert!(&rt; frame.are_marked(0, 512));
}

// Kinds that differ meet as unreadable, and marks by intersection.
#[test]
fn meets(rt: HostRuntime) {
    let x = changed(Kind::Value(0, 4), 496);
    let y = changed(Kind::Value(0, 5), 500);
    let both = join(&x, &y);
    assert_eq!(rt;
        [both.kind(2), both.kind(1)],
        [Kind::Unreadable, Kind::Arg(0)]
    );
    assert_eq!(rt;
        [
            both.are_marked(500, 4),
            both.are_marked(499, 2),
            both.are_marked(503, 2)
        ],
        [true, false, false]
    );
    assert!(&rt; join(&x, &x) == x);
}

// What two frames have in common covers both, and neither covers the other.
#[test]
fn common_covers_both(rt: HostRuntime) {
    let x = changed(Kind::Value(0, 4), 496);
    let y = changed(Kind::Value(0, 5), 500);
    let both = join(&x, &y);
    assert_eq!(rt;
        [
            covers(&both, &x),
            covers(&both, &y),
            covers(&x, &y),
            covers(&x, &both)
        ],
        [true, true, false, false]
    );
}

// A pointer stands in a cell where both have it there; beside marks nothing is known of the cell. A mark takes it away.
#[test]
fn pointers_in_cells(rt: HostRuntime) {
    let pointer = Cell::Spilled(Kind::Arg(0));
    let mut x = Frame::entry();
    x.set_cell(62, pointer);
    x.set_cell(63, pointer);
    let mut y = Frame::entry();
    y.mark(496, 8);
    y.set_cell(63, pointer);
    let both = join(&x, &y);
    assert_eq!(rt;
        [both.cell(61), both.cell(62), both.cell(63)],
        [Cell::Marks(0), Cell::Marks(0), pointer]
    );
    assert_eq!(rt;
        [covers(&both, &x), covers(&both, &y), covers(&x, &y)],
        [true, true, false]
    );
    assert!(&rt; !x.are_marked(504, 1));
    x.mark(504, 1);
    assert_eq!(rt; [x.cell(63), x.cell(62)], [Cell::Marks(1), pointer]);
}
