//! Desks: one request a slot, one combiner at a time, and each answer at its own slot.

use combiner::{Batch, Desk, DeskRefused, Reply};
use oplog::OpRef;

// The run of the fourth program.
fn fourth_program(argument: &[u8; 1]) -> OpRef<'_> {
    OpRef::run(3, argument)
}

#[test]
fn one_request_a_slot(rt: HostRuntime) {
    let mut desk = Desk::open(rt.alloc(), 0, 2).expect(&rt, "desk");
    let first = desk.post(0, &fourth_program(&[1]));
    assert!(&rt; first == Ok(()));
    let second = desk.post(0, &fourth_program(&[2]));
    assert!(&rt; second == Err(DeskRefused::SlotBusy));
}

#[test]
fn nothing_to_claim(rt: HostRuntime) {
    let mut desk = Desk::open(rt.alloc(), 0, 2).expect(&rt, "desk");
    let mut batch = Batch::open(rt.alloc()).expect(&rt, "batch");
    match desk.claim(&mut batch) {
        Ok(()) => assert!(&rt; false),
        Err(refused) => assert_eq!(rt; refused.number(), 2),
    }
}

#[test]
fn one_combiner_at_a_time(rt: HostRuntime) {
    let mut desk = Desk::open(rt.alloc(), 1, 2).expect(&rt, "desk");
    assert!(&rt; desk.post(1, &fourth_program(&[1])).is_ok());
    let mut batch = Batch::open(rt.alloc()).expect(&rt, "batch");
    assert!(&rt; desk.claim(&mut batch).is_ok());
    assert!(&rt; desk.claimed());
    match desk.claim(&mut batch) {
        Ok(()) => assert!(&rt; false),
        Err(refused) => assert_eq!(rt; refused.number(), 3),
    }
    assert_eq!(rt; batch.records().len(), 1);
}
