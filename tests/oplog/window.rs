//! The log with its window, and the hands that its records are copied into.

use crate::replica::replicas::{SHAPES, new_state};
use loader::Installed;
use maps::{MapSet, shapes_ok};
use oplog::{
    Appended, Config, CopyAnswer, ENDLESS, Ended, Hand, LogRoom, LogState, OpParts, OpRef,
    OpenError, RecordList, Sizes,
};
use std::alloc::Global;
use std::test::Fail;

// The most bytes of an argument.
const LONG: usize = 100;

// A new log over these maps, with a place for one program. It keeps sixteen records, and its history may have three.
fn opened_log(alloc: Global) -> Option<LogState> {
    let state = new_state(alloc)?;
    let room = LogRoom {
        window: 16,
        long: LONG,
    };
    LogState::open(alloc, state, room, 3).ok()
}

// A hand for such a log.
fn opened_hand(alloc: Global) -> Option<Hand> {
    Hand::open(alloc, 16, LONG).ok()
}

// Calls of the third program by these authors, each its first.
fn third_program(alloc: Global, authors: &[u16]) -> Option<RecordList> {
    let mut records = RecordList::open(alloc, 16, LONG).ok()?;
    for author in authors {
        records.push(*author, 0, &OpRef::run(2, &[7, 0, 0, 255]));
    }
    Some(records)
}

#[test]
fn appends_up_to_the_limit(rt: HostRuntime) {
    let mut log = opened_log(rt.alloc()).expect(&rt, "log");
    let batch = third_program(rt.alloc(), &[1, 0]).expect(&rt, "batch");
    let none = third_program(rt.alloc(), &[]).expect(&rt, "none");
    assert!(&rt; log.append(&none.lent()) == Ok(Appended { first: 0, count: 0 }));
    assert!(&rt; log.append(&batch.lent()) == Ok(Appended { first: 0, count: 2 }));
    assert!(&rt; log.append(&batch.lent()) == Ok(Appended { first: 2, count: 1 }));
    assert!(&rt; log.append(&batch.lent()) == Err(Ended));
    assert_eq!(rt;
        (log.room(), log.left(), log.base(), log.tail()),
        (13, 0, 0, 3)
    );
}

#[test]
fn copies_records(rt: HostRuntime) {
    let mut log = opened_log(rt.alloc()).expect(&rt, "log");
    let mut hand = opened_hand(rt.alloc()).expect(&rt, "hand");
    let batch = third_program(rt.alloc(), &[1, 0]).expect(&rt, "batch");
    assert!(&rt; log.append(&batch.lent()).is_ok());
    assert!(&rt; log.copy_from(1, &mut hand) == CopyAnswer::Copied);
    assert_eq!(rt; (hand.begin(), hand.len()), (1, 1));
    let copied = hand.records().op(0);
    match copied.parts() {
        OpParts::Run { program, argument } => {
            assert_eq!(rt; program, 2);
            assert!(&rt; argument == [7, 0, 0, 255].as_slice());
        }
        OpParts::Install { .. } => assert!(&rt; false),
    }
}

// The first record is dropped, and the rest stays.
#[test]
fn reclaims(rt: HostRuntime) {
    assert!(&rt; shapes_ok(&SHAPES).is_ok());
    let mut log = opened_log(rt.alloc()).expect(&rt, "log");
    let mut hand = opened_hand(rt.alloc()).expect(&rt, "hand");
    let maps = MapSet::open(rt.alloc(), &SHAPES).expect(&rt, "maps");
    let programs = Installed::open(rt.alloc(), &SHAPES, 1, 0).expect(&rt, "programs");
    let batch = third_program(rt.alloc(), &[1, 0]).expect(&rt, "batch");
    assert!(&rt; log.append(&batch.lent()).is_ok());
    log.raise_done(2);
    log.raise_done(1);
    log.reclaim(1, &maps, &programs);
    assert!(&rt; log.copy_from(1, &mut hand) == CopyAnswer::Copied);
    assert_eq!(rt;
        (log.base(), log.tail(), log.done(), log.room(), hand.len()),
        (1, 2, 2, 15, 1)
    );
}

// Of two long arguments the first is dropped, and one more comes behind the other.
#[test]
fn keeps_long_arguments(rt: HostRuntime) {
    let mut records = RecordList::open(rt.alloc(), 2, LONG).expect(&rt, "records");
    for byte in [1, 2] {
        records.push(0, 0, &OpRef::run(2, &[byte; LONG]));
    }
    records.drop_first(1);
    records.push(0, 0, &OpRef::run(2, &[3; LONG]));
    for (k, byte) in [2, 3].iter().enumerate() {
        match records.lent().op(k).parts() {
            OpParts::Run { argument, .. } => assert!(&rt; argument == [*byte; LONG].as_slice()),
            OpParts::Install { .. } => assert!(&rt; false),
        }
    }
}

// What lies below the base is copied no more.
#[test]
fn copies_nothing_below_the_base(rt: HostRuntime) {
    assert!(&rt; shapes_ok(&SHAPES).is_ok());
    let mut log = opened_log(rt.alloc()).expect(&rt, "log");
    let mut hand = opened_hand(rt.alloc()).expect(&rt, "hand");
    let maps = MapSet::open(rt.alloc(), &SHAPES).expect(&rt, "maps");
    let programs = Installed::open(rt.alloc(), &SHAPES, 1, 0).expect(&rt, "programs");
    let batch = third_program(rt.alloc(), &[1]).expect(&rt, "batch");
    assert!(&rt; log.append(&batch.lent()).is_ok());
    log.raise_done(1);
    log.reclaim(1, &maps, &programs);
    assert!(&rt; log.copy_from(0, &mut hand) == CopyAnswer::Below(1));
}

// Below and above what a window, a limit, nodes and slots may be.
#[test]
fn knows_its_limits(rt: HostRuntime) {
    for (nodes, slots, window, limit, want) in [
        (1, 1, 16, 1, true),
        (8, 16, 4_096, 1_000_000, true),
        (0, 1, 16, 1, false),
        (9, 1, 16, 1, false),
        (1, 0, 16, 1, false),
        (1, 17, 16, 1, false),
        (1, 1, 15, 1, false),
        (1, 1, 4_097, 1, false),
        (1, 1, 16, 0, false),
        (1, 1, 16, 1_000_001, false),
    ] {
        let config = Config {
            nodes,
            slots,
            window,
            limit,
            spare: 0,
        };
        assert_eq!(rt; config.is_within_limits(), want);
    }
}

// Below and above what a limit may be where there is no end.
#[test]
fn knows_no_end(rt: HostRuntime) {
    for (limit, want) in [
        (0, false),
        (1, true),
        (1_000_001, true),
        (ENDLESS, true),
        (ENDLESS + 1, false),
    ] {
        let sizes = Sizes {
            nodes: 8,
            slots: 16,
            window: 4_096,
            limit,
            spare: 0,
            long: 0,
        };
        assert_eq!(rt; sizes.is_within_limits(), want);
    }
}

#[test]
fn tells_each_refusal(rt: HostRuntime) -> Result<(), Fail> {
    for (error, number, text) in [
        (
            OpenError::OutOfLimits,
            1,
            "O1: a number of the configuration is out of its limits",
        ),
        (OpenError::NoMemory, 2, "O2: no memory"),
        (
            OpenError::OtherState,
            3,
            "O3: the state has other maps, or more or longer programs than there is room for",
        ),
    ] {
        assert_eq!(rt; error.number(), number);
        let shown = format!(in rt.alloc(); "{error}")?;
        assert_eq!(rt; shown.as_str(), text);
    }
    let ended = format!(in rt.alloc(); "{Ended}")?;
    assert_eq!(rt; ended.as_str(), "L1: the history has all its records");
    Ok(())
}
