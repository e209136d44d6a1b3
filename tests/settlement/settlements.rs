//! The calls of a node are answered by its own steps: which of its list are taken.

use combiner::Reply;
use loader::load_manifest;
use oplog::Config;
use schedule::{Step, StepAnswer, World};
use settlement::{Taken, settle, settle_node};
use std::alloc::Global;

const BUMP: &str =
    "bf12000000000000 1851000000000000 0000000000000000 8500000001000000 1500050000000000 7906000000000000 0706000001000000 7b60000000000000 bf60000000000000 9500000000000000 b7000000ffffffff 9500000000000000";

const MANIFEST: &str = "map array 8 16\nprogram bump update 4 bump.hex\n";

// A counter of two nodes with two slots each, and a log of 16 records.
fn counter(alloc: Global) -> Option<World> {
    let catalogue = load_manifest(alloc, MANIFEST, &[("bump.hex", BUMP)]).ok()?;
    let config = Config {
        nodes: 2,
        slots: 2,
        window: 16,
        limit: 100,
        spare: 0,
    };
    World::open(alloc, config, catalogue).ok()
}

// An update of the first key.
fn post(alloc: Global, world: &mut World, node: u64, slot: u64) -> Option<()> {
    let step = Step::Post {
        node,
        slot,
        program: 0,
        argument: vec![in alloc; 0u8; 4].ok()?,
    };
    taken(world, &step)
}

// A step that is taken.
fn taken(world: &mut World, step: &Step) -> Option<()> {
    match world.step(step) {
        StepAnswer::NotNow => None,
        _ => Some(()),
    }
}

// Both slots of node 0 post, and its combiner appends their requests.
fn both_appended(alloc: Global, world: &mut World) -> Option<()> {
    post(alloc, world, 0, 0)?;
    post(alloc, world, 0, 1)?;
    taken(world, &Step::Claim { node: 0 })?;
    taken(world, &Step::Append { node: 0 })
}

// A whole round of two at node 0, with the answers.
fn round(alloc: Global, world: &mut World) -> Option<()> {
    both_appended(alloc, world)?;
    taken(world, &Step::Replay { node: 0 })?;
    taken(world, &Step::Finish { node: 0 })?;
    taken(world, &Step::Reply { node: 0 })?;
    taken(world, &Step::Collect { node: 0, slot: 0 })?;
    taken(world, &Step::Collect { node: 0, slot: 1 })
}

// Node 1 has a request claimed and one posted, and stops. Node 0 goes on: the base moves past node 1, and then the window fills.
fn node_one_stops(alloc: Global, world: &mut World) -> Option<()> {
    post(alloc, world, 1, 0)?;
    taken(world, &Step::Claim { node: 1 })?;
    post(alloc, world, 1, 1)?;
    round(alloc, world)?;
    taken(world, &Step::Reclaim { node: 0 })?;
    for _round in 0u32..7 {
        round(alloc, world)?;
    }
    both_appended(alloc, world)
}

// The steps of node 1 that are taken.
fn node_one_settles(alloc: Global, world: &mut World) -> Option<Vec<Taken>> {
    if world.replica(1).is_none() {
        return None;
    }
    settle_node(alloc, world, 1).ok()
}

// The word of a step, as a text of steps has it.
fn word(step: &Step) -> &'static str {
    match step {
        Step::Post { .. } => "post",
        Step::Install { .. } => "install",
        Step::Claim { .. } => "claim",
        Step::Append { .. } => "append",
        Step::Replay { .. } => "replay",
        Step::Finish { .. } => "finish",
        Step::Reply { .. } => "reply",
        Step::Collect { .. } => "collect",
        Step::ReadBegin { .. } => "readbegin",
        Step::ReadAnswer { .. } => "readanswer",
        Step::Reclaim { .. } => "reclaim",
        Step::Rebase { .. } => "rebase",
    }
}

// What a collected answer has to be: the update's index, and what the counter has become.
fn placed(index: u64, reply: u64) -> StepAnswer {
    StepAnswer::Back(Reply::Placed { index, reply })
}

const WORDS: [&str; 15] = [
    "rebase", "replay", "finish", "reclaim", "append", "replay", "finish", "reply", "claim",
    "append", "replay", "finish", "reply", "collect", "collect",
];

#[test]
fn a_node_that_was_left_behind_settles_alone(rt: HostRuntime) {
    let mut world = counter(rt.alloc()).expect(&rt, "world");
    node_one_stops(rt.alloc(), &mut world).expect(&rt, "steps");
    let (base, tail, done) = (world.log().base(), world.log().tail(), world.log().done());
    assert_eq!(rt; (base, tail, done), (2, 18, 16));
    let steps = node_one_settles(rt.alloc(), &mut world).expect(&rt, "taken");
    assert_eq!(rt; steps.len(), 15);
    for (one, wanted) in steps.iter().zip(WORDS) {
        assert!(&rt; word(&one.step) == wanted);
    }
    assert!(&rt; steps[13].answer == placed(18, 19));
    assert!(&rt; steps[14].answer == placed(19, 20));
}

#[test]
fn a_store_with_no_open_call_takes_no_step(rt: HostRuntime) {
    let mut world = counter(rt.alloc()).expect(&rt, "world");
    let steps = settle(rt.alloc(), &mut world).expect(&rt, "taken");
    assert!(&rt; steps.is_empty());
}
