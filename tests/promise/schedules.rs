//! A whole schedule by one call, and what it answers.

use crate::store::single_store;
use combiner::Reply;
use oplog::Config;
use promise::run_schedule;
use readpath::ReadAnswer;
use schedule::{Step, StepAnswer};
use settlement::settling_store;
use std::alloc::{AllocError, Global};

// An update of the first key at the first slot of a node.
fn post(alloc: Global, node: u64) -> Result<Step, AllocError> {
    let argument = vec![in alloc; 0u8; 4]?;
    Ok(Step::Post {
        node,
        slot: 0,
        program: 0,
        argument,
    })
}

// What an update is answered.
fn placed(index: u64, reply: u64) -> StepAnswer {
    StepAnswer::Back(Reply::Placed { index, reply })
}

// Both nodes bump a counter, and node 0 once more too early. Both settle. Node 0 reads.
fn bumps(alloc: Global, config: Config) -> Result<Vec<Step>, AllocError> {
    let mut steps = vec![in alloc; post(alloc, 0)?, post(alloc, 1)?, post(alloc, 0)?]?;
    steps.append(&mut settling_store(alloc, config.sizes())?)?;
    let argument = vec![in alloc; 0u8; 4]?;
    steps.push(Step::ReadBegin {
        node: 0,
        slot: 0,
        program: 1,
        argument,
    })?;
    steps.push(Step::ReadAnswer { node: 0, slot: 0 })?;
    steps.push(Step::Replay { node: 0 })?;
    steps.push(Step::ReadAnswer { node: 0, slot: 0 })?;
    Ok(steps)
}

#[test]
fn each_call_is_answered(rt: HostRuntime) {
    let config = Config {
        nodes: 2,
        slots: 1,
        window: 32,
        limit: 50,
        spare: 0,
    };
    let catalogue = single_store::counter(rt.alloc()).expect(&rt, "catalogue");
    let steps = bumps(rt.alloc(), config).expect(&rt, "steps");
    let answers = run_schedule(rt.alloc(), config, catalogue, &steps).expect(&rt, "answers");
    assert_eq!(rt; answers.len(), 41);
    assert!(rt; answers[0] == StepAnswer::Done && answers[1] == StepAnswer::Done);
    // (its session waits for an answer)
    assert!(rt; answers[2] == StepAnswer::NotNow);
    // Each node's list has 17 steps; the last but one hands out the answer.
    assert!(rt; answers[18] == placed(0, 1));
    assert!(rt; answers[35] == placed(1, 2));
    assert!(rt; answers[37] == StepAnswer::Done);
    // (node 0 has not applied the second update, which was answered)
    assert!(rt; answers[38] == StepAnswer::NotNow);
    assert!(rt; answers[40] == StepAnswer::ReadBack(ReadAnswer { point: 2, reply: 2 }));
}
