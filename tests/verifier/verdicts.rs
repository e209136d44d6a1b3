// What an accepted program keeps. Which programs are accepted, and which are refused with what, is in tests/rows.

use insn::decode;
use maps::{Shape, shapes_ok};
use std::test::Fail;
use verifier::{Mode, verify};

// `mov64 r0, 5` and `exit`.
const FIVE: [u8; 16] = [0xb7, 0, 0, 0, 5, 0, 0, 0, 0x95, 0, 0, 0, 0, 0, 0, 0];

// An array of 16 values of 8 bytes.
const SHAPES: [Shape; 1] = [Shape::Array {
    value: 8,
    entries: 16,
}];

#[test]
fn shows_what_was_accepted(rt: HostRuntime) -> Result<(), Fail> {
    let program = decode(rt.alloc(), &FIVE)?;
    shapes_ok(&SHAPES)?;
    let accepted = verify(rt.alloc(), program, &SHAPES, 4, Mode::Read)?;
    assert_eq!(rt;
        [
            accepted.program().len(),
            accepted.slots(),
            accepted.instructions(),
            accepted.arg_len()
        ],
        [2, 2, 2, 4]
    );
    assert_eq!(rt; accepted.mode(), Mode::Read);
    assert!(rt; accepted.shapes() == SHAPES.as_slice());
    Ok(())
}
