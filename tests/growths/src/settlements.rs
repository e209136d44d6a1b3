// A store whose open calls are answered by its own steps. The lists of steps and the room for those that are taken are all that takes memory.

ghost use Rattle.std.specs.Prelude.{◌<◌, length};

use crate::endings::{Ending, judged};
use crate::schedules::SIZES;
use crate::stores::catalogue;
use combiner::Reply;
use schedule::{Step, StepAnswer, World};
use settlement::{Taken, settle, settle_node};
use std::alloc::{AllocError, Global};

// A new store, with an update posted at its first slot.
fn posted(alloc: Global) -> Option<World> {
    let mut world = World::open(alloc, SIZES, catalogue(alloc)?).ok()?;
    let post = Step::Post {
        node: 0,
        slot: 0,
        program: 0,
        argument: vec![in alloc; 0u8; 4].ok()?,
    };
    match world.step(&post) {
        StepAnswer::Done => Some(world),
        _ => None,
    }
}

// Whether the update was claimed, appended, replayed, finished, replied and collected.
fn are_taken(taken: &[Taken]) -> bool {
    let placed = StepAnswer::Back(Reply::Placed { index: 0, reply: 1 });
    match taken {
        [before @ .., last] => {
            let are_done = before.iter().all(|one| one.answer == StepAnswer::Done);
            before.len() == 5 && are_done && last.answer == placed
        }
        _ => false,
    }
}

// The steps of the only node, taken.
fn settled_node(alloc: Global, world: &mut World) -> Result<bool, AllocError> {
    if world.replica(0).is_none() {
        return Ok(false);
    }
    let taken = settle_node(alloc, world, 0)?;
    Ok(are_taken(&taken))
}

// The steps of all nodes, taken.
fn settled_store(alloc: Global, world: &mut World) -> Result<bool, AllocError> {
    let taken = settle(alloc, world)?;
    Ok(are_taken(&taken))
}

// Where there was no memory, the store is as it was: once there is memory, the same steps are taken.
fn once_more(is_new: bool, again: Result<bool, AllocError>) -> Ending {
    match again {
        Ok(false) => Ending::Other,
        _ if is_new => Ending::NoMemory,
        _ => Ending::Other,
    }
}

pub fn node_settled(alloc: Global) -> Ending {
    let Some(mut world) = posted(alloc) else {
        return Ending::NotReached;
    };
    if let Ok(is_right) = settled_node(alloc, &mut world) {
        return judged(is_right);
    }
    let is_new = world.log().tail() == 0;
    once_more(is_new, settled_node(alloc, &mut world))
}

pub fn store_settled(alloc: Global) -> Ending {
    let Some(mut world) = posted(alloc) else {
        return Ending::NotReached;
    };
    if let Ok(is_right) = settled_store(alloc, &mut world) {
        return judged(is_right);
    }
    let is_new = world.log().tail() == 0;
    once_more(is_new, settled_store(alloc, &mut world))
}
