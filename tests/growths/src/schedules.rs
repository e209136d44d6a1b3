// A store that is stepped: opened, and stepped on. A step takes no memory, a list of steps the room for its answers.

use crate::endings::{Ending, judged};
use crate::stores::catalogue;
use combiner::Reply;
use oplog::{Config, OpenError};
use readpath::ReadAnswer;
use schedule::{Step, StepAnswer, World, run_steps};
use std::alloc::{AllocError, Global};

/// One node of two slots.
pub const SIZES: Config = Config {
    nodes: 1,
    slots: 2,
    window: 16,
    limit: 100,
    spare: 0,
};

pub fn world_opened(alloc: Global) -> Ending {
    let Some(catalogue) = catalogue(alloc) else {
        return Ending::NotReached;
    };
    match World::open(alloc, SIZES, catalogue) {
        Ok(world) => judged(world.log().tail() == 0 && world.replica(0).is_some()),
        Err(OpenError::NoMemory) => Ending::NoMemory,
        Err(_) => Ending::Other,
    }
}

// An update of the first slot, and a read of the second.
fn steps(alloc: Global) -> Result<Vec<Step>, AllocError> {
    let bump = vec![in alloc; 0u8; 4]?;
    let peek = vec![in alloc; 0u8; 4]?;
    let mut steps = Vec::with_capacity(alloc, 9)?;
    steps.push_reserved(Step::Post {
        node: 0,
        slot: 0,
        program: 0,
        argument: bump,
    });
    steps.push_reserved(Step::Claim { node: 0 });
    steps.push_reserved(Step::Append { node: 0 });
    steps.push_reserved(Step::Replay { node: 0 });
    steps.push_reserved(Step::Finish { node: 0 });
    steps.push_reserved(Step::Reply { node: 0 });
    steps.push_reserved(Step::Collect { node: 0, slot: 0 });
    steps.push_reserved(Step::ReadBegin {
        node: 0,
        slot: 1,
        program: 1,
        argument: peek,
    });
    steps.push_reserved(Step::ReadAnswer { node: 0, slot: 1 });
    Ok(steps)
}

// Whether these are the answers to those steps on a new store.
fn are_answers(answers: &[StepAnswer]) -> bool {
    let placed = StepAnswer::Back(Reply::Placed { index: 0, reply: 1 });
    let read = StepAnswer::ReadBack(ReadAnswer { point: 1, reply: 1 });
    match answers {
        [before @ .., collected, begun, last] => {
            let are_done = before.iter().all(|answer| *answer == StepAnswer::Done);
            let is_end = *collected == placed && *begun == StepAnswer::Done && *last == read;
            before.len() == 6 && are_done && is_end
        }
        _ => false,
    }
}

// Whether the steps are answered as on a new store; none where there was no memory for the answers.
fn tried(alloc: Global, world: &mut World, steps: &[Step]) -> Option<bool> {
    match run_steps(alloc, world, steps) {
        Ok(answers) => Some(are_answers(&answers)),
        Err(_) => None,
    }
}

// The steps on a new store. Where there is no memory for the answers, the store is as it was: the same steps are answered as ever, once
// there is memory.
fn stepped(alloc: Global, world: &mut World, steps: &[Step]) -> Ending {
    if let Some(is_right) = tried(alloc, world, steps) {
        return judged(is_right);
    }
    let is_new = world.log().tail() == 0;
    match tried(alloc, world, steps) {
        Some(false) => Ending::Other,
        _ if is_new => Ending::NoMemory,
        _ => Ending::Other,
    }
}

fn steps_on(alloc: Global, world: &mut World) -> Ending {
    match steps(alloc) {
        Ok(steps) => stepped(alloc, world, &steps),
        Err(_) => Ending::NotReached,
    }
}

pub fn steps_run(alloc: Global) -> Ending {
    let Some(catalogue) = catalogue(alloc) else {
        return Ending::NotReached;
    };
    match World::open(alloc, SIZES, catalogue) {
        Ok(mut world) => steps_on(alloc, &mut world),
        Err(_) => Ending::NotReached,
    }
}
