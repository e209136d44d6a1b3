//! Which shapes maps may have, and maps as they are opened, written and copied.

use maps::{MapError, MapSet, Shape, ShapeFault, shapes_ok};

const SMALL: Shape = Shape::Array {
    value: 8,
    entries: 16,
};

const SINGLE: Shape = Shape::Array {
    value: 1,
    entries: 1,
};

const LARGE: Shape = Shape::Array {
    value: 256,
    entries: 65_536,
};

const HASH: Shape = Shape::Hash {
    key: 4,
    value: 8,
    entries: 1,
};

fn hash(key: u32, value: u32, entries: u32) -> Shape {
    Shape::Hash {
        key,
        value,
        entries,
    }
}

#[test]
fn answers_by_shapes(rt: HostRuntime) {
    let long_key = hash(65, 8, 1);
    let number = |shapes: &[Shape]| shapes_ok(shapes).err().map_or(0, |why| why.number());
    assert_eq!(rt;
        [
            number(&[]),
            number(&[long_key]),
            number(&[LARGE]),
            number(&[LARGE, SINGLE]),
            number(&[SMALL; 16]),
            number(&[SMALL; 17]),
            number(&[long_key; 17]),
            number(&[LARGE, long_key]),
        ],
        [1, 2, 0, 3, 0, 1, 1, 2]
    );
}

#[test]
fn refuses_shapes(rt: HostRuntime) {
    let refused = MapSet::open(rt.alloc(), &[]).err();
    assert!(rt; matches!(refused, Some(MapError::Refused(ShapeFault::NoMapOrTooMany))));
}

// An array of 16 values of 8 zeros has the indices 0 to 15, and a hash has no key yet.
#[test]
fn opens_arrays_of_zeros(rt: HostRuntime) {
    let maps = MapSet::open(rt.alloc(), &[SMALL, HASH]).expect(&rt, "open");
    let last = maps.lookup(0, &[15, 0, 0, 0]).expect(&rt, "last");
    assert!(&rt; maps.value(last) == [0; 8].as_slice());
    assert_eq!(rt;
        [
            last.place() == 15,
            maps.lookup(0, &[16, 0, 0, 0]).is_none(),
            maps.lookup(0, &[0, 1, 0, 0]).is_none(),
            maps.lookup(1, &[15, 0, 0, 0]).is_none(),
        ],
        [true; 4]
    );
    assert_eq!(rt; [maps.len(0), maps.len(1)], [16, 0]);
}

// The values of an array stand one after another: the fourth is the bytes 24 to 31.
#[test]
fn a_block_has_the_values(rt: HostRuntime) {
    let mut maps = MapSet::open(rt.alloc(), &[SMALL]).expect(&rt, "open");
    let third = maps.lookup(0, &[2, 0, 0, 0]).expect(&rt, "third");
    let fourth = maps.lookup(0, &[3, 0, 0, 0]).expect(&rt, "fourth");
    maps.value_mut(fourth).fill(7);
    maps.block_mut(0)[24] = 9;
    assert!(&rt; maps.value(third) == [0; 8].as_slice());
    assert!(&rt; maps.value(fourth) == [9, 7, 7, 7, 7, 7, 7, 7].as_slice());
    assert!(&rt; maps.block(0)[23..33] == [0, 9, 7, 7, 7, 7, 7, 7, 7, 0]);
    assert_eq!(rt; maps.block(0).len(), 128);
}

#[test]
fn copies_values(rt: HostRuntime) {
    let mut maps = MapSet::open(rt.alloc(), &[SMALL]).expect(&rt, "open");
    let mut copy = MapSet::open(rt.alloc(), &[SMALL]).expect(&rt, "copy");
    let third = maps.lookup(0, &[3, 0, 0, 0]).expect(&rt, "third");
    maps.value_mut(third).fill(7);
    copy.copy_from(&maps);
    assert!(&rt; copy.value(third) == [7; 8].as_slice());
}

// A copy has the keys of its source at the same places: in an array the key at a place is the place's index.
#[test]
fn copies_into_room_of_its_own(rt: HostRuntime) {
    let maps = MapSet::open(rt.alloc(), &[SMALL, HASH]).expect(&rt, "open");
    let copy = MapSet::copy_of(rt.alloc(), &maps).expect(&rt, "copy");
    let last = copy.lookup(0, &[15, 0, 0, 0]).expect(&rt, "last");
    assert!(&rt; copy.value(last) == [0; 8].as_slice());
    assert_eq!(rt; [copy.len(0), copy.len(1)], [16, 0]);
    let mut key = [9; 4];
    assert!(&rt; copy.key(0, 15, &mut key));
    assert!(&rt; key == [15, 0, 0, 0]);
}
