//! Which forms are instructions, and programs with their bytes. What bytes of every opcode say is in tests/rows.

use insn::{Form, Insn, Operation, Source, decode, encode};
use std::test::Fail;

// `lddw r0, 7`, `add64 r0, r10` and `exit`, whose first takes two slots.
const BYTES: [u8; 32] = [
    0x18, 0, 0, 0, 7, 0, 0, 0, 0, 0, 0, 0, 0, 0, 0, 0, 0x0f, 0xa0, 0, 0, 0, 0, 0, 0, 0x95, 0, 0, 0,
    0, 0, 0, 0,
];

#[test]
fn reads_and_writes_back(rt: HostRuntime) -> Result<(), Fail> {
    let program = decode(rt.alloc(), &BYTES)?;
    assert!(rt; program.len() == 3);
    assert!(rt; matches!(program[0].form(), Form::Imm64 { dst: 0, value: 7 }));
    assert!(rt;
        matches!(
            program[1].form(),
            Form::Alu {
                w64: true,
                op: Operation::Add,
                dst: 0,
                src: Source::Reg(10)
            }
        )
    );
    assert!(rt; matches!(program[2].form(), Form::Exit));
    assert!(rt; encode(rt.alloc(), &program)?.as_slice() == BYTES.as_slice());
    Ok(())
}

fn add(dst: u8, src: Source) -> Form {
    Form::Alu {
        w64: true,
        op: Operation::Add,
        dst,
        src,
    }
}

#[test]
fn makes_instructions_that_have_bytes(rt: HostRuntime) {
    assert!(rt; Insn::new(add(10, Source::Reg(10))).is_some());
    assert!(rt; Insn::new(add(11, Source::Imm(0))).is_none());
    assert!(rt; Insn::new(add(0, Source::Reg(11))).is_none());
    let ja = |by| Form::Ja { long: false, by };
    assert!(rt; Insn::new(ja(-32768)).is_some());
    assert!(rt; Insn::new(ja(32768)).is_none());
    let made = Insn::new(ja(1)).map(|insn| insn.form());
    assert!(rt; matches!(made, Some(Form::Ja { long: false, by: 1 })));
}
