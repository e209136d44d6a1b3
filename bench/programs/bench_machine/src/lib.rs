//! The machine for a program of another language to time: see bench/.
#![tactic(auto)]

ghost use Rattle.std.specs.Prelude.{◌≡◌, IfSome};

#[cfg(test)]
mod tests;

use insn::decode;
use machine::{Machine, run_in};
use maps::{MapSet, Shape, shapes_ok};
use std::alloc::Global;
use verifier::{Accepted, Mode, verify};

fn accepted(alloc: Global, code: &[u8], shapes: &[Shape], arg_len: usize) -> Option<Accepted>
    ensures { IfSome result (λ a. a.arg_len ≡ arg_len) }
{
    let Ok(program) = decode(alloc, code) else {
        return None;
    };
    if arg_len > 64 || shapes_ok(shapes).is_err() {
        return None;
    }
    verify(alloc, program, shapes, arg_len, Mode::Update).ok()
}

/// Opens one array of so many 8-byte values, verifies the program once, runs it so often in one room, and answers the sum of the
/// replies, modulo 2^64; 0 where the program or the array is refused.
#[unsafe(no_mangle)]
pub extern "C" fn bench_run(
    alloc: Global,
    code: &[u8],
    argument: &[u8],
    entries: u32,
    times: u64,
) -> u64 {
    let shapes = [Shape::Array { value: 8, entries }];
    let Some(program) = accepted(alloc, code, &shapes, argument.len()) else {
        return 0;
    };
    let Ok(mut maps) = MapSet::open(alloc, program.shapes()) else {
        return 0;
    };
    let mut room = Machine::new();
    let mut sum = 0u64;
    for _ in 0..times {
        sum = sum.wrapping_add(run_in(&mut room, &program, &mut maps, argument).reply);
    }
    sum
}
