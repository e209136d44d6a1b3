//! A store of every schedule, by its calls, of what no row of tests/rows can say.

use crate::store::single_store;
use combiner::Reply;
use oplog::{Config, CopyAnswer, Hand, LogState};
use readpath::ReadAnswer;
use schedule::{Step, StepAnswer, World, run_steps};
use std::alloc::Global;

// A store of so many nodes and slots, and a log of 16 records.
fn counter(alloc: Global, nodes: u32, slots: u32) -> Option<World> {
    let catalogue = single_store::counter(alloc)?;
    let config = Config {
        nodes,
        slots,
        window: 16,
        limit: 100,
        spare: 0,
    };
    World::open(alloc, config, catalogue).ok()
}

// An update of the first key at the first slot of node 0.
fn post(alloc: Global) -> Option<Step> {
    Some(Step::Post {
        node: 0,
        slot: 0,
        program: 0,
        argument: vec![in alloc; 0u8; 4].ok()?,
    })
}

// A read of the first key at a slot of a node.
fn read_begin(alloc: Global, node: u64, slot: u64) -> Option<Step> {
    Some(Step::ReadBegin {
        node,
        slot,
        program: 1,
        argument: vec![in alloc; 0u8; 4].ok()?,
    })
}

// A hand as wide as the log.
fn hand_for(alloc: Global, log: &LogState) -> Option<Hand> {
    let held = log.tail() - log.base();
    let window = log.room() + held as usize;
    Hand::open(alloc, window, 4).ok()
}

#[test]
fn a_read_waits_for_what_is_completed(rt: HostRuntime) {
    let mut world = counter(rt.alloc(), 1, 2).expect(&rt, "world");
    let steps = vec![in rt.alloc();
        post(rt.alloc()).expect(&rt, "step"),
        Step::Claim { node: 0 },
        Step::Append { node: 0 },
        Step::Replay { node: 0 },
        read_begin(rt.alloc(), 0, 1).expect(&rt, "step"),
        Step::ReadAnswer { node: 0, slot: 1 },
        Step::Finish { node: 0 },
        Step::ReadAnswer { node: 0, slot: 1 },
    ]
    .expect(&rt, "steps");
    let answers = run_steps(rt.alloc(), &mut world, &steps).expect(&rt, "answers");
    let wanted = [
        StepAnswer::Done,
        StepAnswer::Done,
        StepAnswer::Done,
        StepAnswer::Done,
        StepAnswer::Done,
        StepAnswer::NotNow,
        StepAnswer::Done,
        StepAnswer::ReadBack(ReadAnswer { point: 1, reply: 1 }),
    ];
    assert!(&rt; answers.as_slice() == &wanted[..]);
}

// A round of one update at node 0, and its answer.
fn round(alloc: Global) -> Option<Vec<Step>> {
    let post = post(alloc)?;
    let steps = vec![in alloc;
        post,
        Step::Claim { node: 0 },
        Step::Append { node: 0 },
        Step::Replay { node: 0 },
        Step::Finish { node: 0 },
        Step::Reply { node: 0 },
        Step::Collect { node: 0, slot: 0 },
    ];
    steps.ok()
}

// What the last step of a round answers.
fn replied(world: &mut World, round: &[Step]) -> Option<StepAnswer> {
    let mut last = None;
    for step in round {
        last = Some(world.step(step));
    }
    last
}

// Node 0 gives its records up, and node 1, which has none of them, follows by the base and reads.
fn base_moved(alloc: Global) -> Option<Vec<Step>> {
    let read_begin = read_begin(alloc, 1, 0)?;
    let steps = vec![in alloc;
        Step::Reclaim { node: 0 },
        Step::Replay { node: 1 },
        Step::Rebase { node: 1 },
        read_begin,
        Step::ReadAnswer { node: 1, slot: 0 },
    ];
    steps.ok()
}

fn tail(world: &World, node: u32) -> Option<u64> {
    world.replica(node).map(|replica| replica.tail())
}

// The answer to a copy of all records from the first one on.
fn copied_from_first(alloc: Global, log: &LogState) -> Option<CopyAnswer> {
    let mut hand = hand_for(alloc, log)?;
    Some(log.copy_from(0, &mut hand))
}

#[test]
fn what_lies_below_the_base_is_gone(rt: HostRuntime) {
    let mut world = counter(rt.alloc(), 2, 1).expect(&rt, "world");
    let update = round(rt.alloc()).expect(&rt, "round");
    for index in 0u64..3 {
        let reply = Reply::Placed {
            index,
            reply: index + 1,
        };
        assert!(&rt; replied(&mut world, &update) == Some(StepAnswer::Back(reply)));
    }
    let steps = base_moved(rt.alloc()).expect(&rt, "steps");
    let answers = run_steps(rt.alloc(), &mut world, &steps).expect(&rt, "answers");
    let wanted = [
        StepAnswer::Done,
        StepAnswer::NotNow,
        StepAnswer::Done,
        StepAnswer::Done,
        StepAnswer::ReadBack(ReadAnswer { point: 3, reply: 3 }),
    ];
    assert!(&rt; answers.as_slice() == &wanted[..]);
    let (base, tail_of_log, done) = (world.log().base(), world.log().tail(), world.log().done());
    assert_eq!(rt; (base, tail_of_log, done), (3, 3, 3));
    let tails = [tail(&world, 0), tail(&world, 1), tail(&world, 2)];
    assert_eq!(rt; tails, [Some(3), Some(3), None]);
    let copied = copied_from_first(rt.alloc(), world.log());
    assert!(&rt; copied == Some(CopyAnswer::Below(3)));
}
