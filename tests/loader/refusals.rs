// What each refusal says of a program or a manifest, and how an author's programs are installed.

use flow::{Broken, StructureRule};
use insn::{DecodeError, DecodeFault, DecodeRefusal};
use loader::{Installed, LoadError, LoadFault, LoadRefusal};
use maps::{MapError, Shape, ShapeFault, shapes_ok};
use std::test::Fail;
use verifier::{Mode, Refused, VerifyError, VerifyFault};

const DECODER: [(DecodeFault, &str); 9] = [
    (
        DecodeFault::NotWholeSlots,
        "slot 3: D1: the number of bytes is not a multiple of 8",
    ),
    (DecodeFault::Empty, "slot 3: D2: there are no bytes"),
    (
        DecodeFault::TooLong,
        "slot 3: D3: there are more than 4096 slots",
    ),
    (
        DecodeFault::UnknownOpcode,
        "slot 3: D4: the opcode is unknown",
    ),
    (
        DecodeFault::RegisterAbove10,
        "slot 3: D5: a register number is above 10",
    ),
    (
        DecodeFault::UndefinedValue,
        "slot 3: D6: a field has a value that is not defined",
    ),
    (
        DecodeFault::UnusedFieldSet,
        "slot 3: D7: an unused field is not zero",
    ),
    (
        DecodeFault::CutOff,
        "slot 3: D8: a wide instruction has no second slot",
    ),
    (
        DecodeFault::BadSecondHalf,
        "slot 3: D9: a field of a second slot is not zero",
    ),
];

const STRUCTURE: [(StructureRule, &str); 5] = [
    (
        StructureRule::TargetOutside,
        "slot 3: the jump leaves the program (V1)",
    ),
    (
        StructureRule::TargetNotForward,
        "slot 3: the jump doesn't lead forward (V2)",
    ),
    (
        StructureRule::TargetInsideWide,
        "slot 3: the jump lands in the second half of a wide instruction (V3)",
    ),
    (
        StructureRule::RunsOffTheEnd,
        "slot 3: the program runs off its end, is empty or has more than 4096 slots (V4)",
    ),
    (
        StructureRule::Unreachable,
        "slot 3: nothing leads to this instruction (V5)",
    ),
];

const VERIFIER: [(VerifyFault, &str); 18] = [
    (
        VerifyFault::TargetOutside,
        "slot 7: V1: the jump leads outside the program",
    ),
    (
        VerifyFault::TargetNotForward,
        "slot 7: V2: the jump does not lead forward",
    ),
    (
        VerifyFault::TargetInsideWide,
        "slot 7: V3: the jump leads into the second half of a wide instruction",
    ),
    (
        VerifyFault::RunsOffTheEnd,
        "slot 7: V4: the program runs off its end",
    ),
    (
        VerifyFault::Unreachable,
        "slot 7: V5: the instruction is never reached",
    ),
    (
        VerifyFault::UnreadableRegister,
        "slot 7: V6: a register is read that has no readable value on every way here",
    ),
    (
        VerifyFault::FramePointerWritten,
        "slot 7: V7: R10 is written, which is read-only",
    ),
    (
        VerifyFault::UndefinedOperation,
        "slot 7: V8: the operation is not defined on these kinds of value",
    ),
    (
        VerifyFault::OffsetOutOfRange,
        "slot 7: V9: the moved pointer leaves its region",
    ),
    (
        VerifyFault::OutOfRegion,
        "slot 7: V10: the access lies outside its region",
    ),
    (
        VerifyFault::UninitialisedStack,
        "slot 7: V11: a byte of the stack is read that was not written on every way here",
    ),
    (
        VerifyFault::ArgumentWritten,
        "slot 7: V12: the argument is written, which is read-only",
    ),
    (
        VerifyFault::PointerStored,
        "slot 7: V13: a pointer is stored where it does not fill a cell of the stack",
    ),
    (
        VerifyFault::UncheckedNull,
        "slot 7: V14: a looked-up value is used before it is tested for null",
    ),
    (
        VerifyFault::HelperArgument,
        "slot 7: V15: an argument of the helper has the wrong kind",
    ),
    (
        VerifyFault::UnknownHelperOrMap,
        "slot 7: V16: the helper or the map is not known",
    ),
    (
        VerifyFault::PointerReply,
        "slot 7: V17: the reply is not a number",
    ),
    (
        VerifyFault::WriteInReadMode,
        "slot 7: V18: a program in Read mode changes a map",
    ),
];

const SHAPES: [(ShapeFault, &str); 3] = [
    (
        ShapeFault::NoMapOrTooMany,
        "M1: there is no map, or there are more than 16",
    ),
    (
        ShapeFault::SizeOutOfLimits,
        "M2: a key has not 1 to 64 bytes, a value not 1 to 256 or a map not 1 to 65536 entries",
    ),
    (
        ShapeFault::TooManyBytes,
        "M3: the maps have more than 16777216 bytes together",
    ),
];

const MAPS: [Shape; 1] = [Shape::Array {
    value: 8,
    entries: 1,
}];

// r0 = 7, exit.
const SEVEN: [u8; 16] = [0xb7, 0, 0, 0, 7, 0, 0, 0, 0x95, 0, 0, 0, 0, 0, 0, 0];

// r0 = 7, and the first half of a wide instruction.
const CUT_OFF: [u8; 16] = [0xb7, 0, 0, 0, 7, 0, 0, 0, 0x18, 0, 0, 0, 0, 0, 0, 0];

// Looks the key 0 up, and reads what was found before it is tested for null: the read is at slot 6.
const UNCHECKED: [u8; 64] = [
    0x62, 0x0a, 0xfc, 0xff, 0, 0, 0, 0, // *(u32 *)(r10 - 4) = 0
    0xbf, 0xa2, 0, 0, 0, 0, 0, 0, // r2 = r10
    0x07, 0x02, 0, 0, 0xfc, 0xff, 0xff, 0xff, // r2 += -4
    0x18, 0x51, 0, 0, 0, 0, 0, 0, // r1 = map 0
    0, 0, 0, 0, 0, 0, 0, 0, //
    0x85, 0, 0, 0, 1, 0, 0, 0, // call lookup
    0x79, 0, 0, 0, 0, 0, 0, 0, // r0 = *(u64 *)(r0 + 0)
    0x95, 0, 0, 0, 0, 0, 0, 0, // exit
];

#[test]
fn says_why_a_program_is_no_program(rt: HostRuntime) -> Result<(), Fail> {
    for (why, text) in DECODER {
        let told = DecodeError::Refused(DecodeRefusal { slot: 3, why });
        assert_eq!(rt; format!(in rt.alloc(); "{told}")?.as_str(), text);
    }
    for (rule, text) in STRUCTURE {
        let told = Broken { slot: 3, rule };
        assert_eq!(rt; format!(in rt.alloc(); "{told}")?.as_str(), text);
    }
    Ok(())
}

#[test]
fn says_why_a_program_is_not_accepted(rt: HostRuntime) -> Result<(), Fail> {
    for (why, text) in VERIFIER {
        let told = VerifyError::Refused(Refused { slot: 7, why });
        assert_eq!(rt; format!(in rt.alloc(); "{told}")?.as_str(), text);
    }
    Ok(())
}

#[test]
fn says_why_a_manifest_is_refused(rt: HostRuntime) -> Result<(), Fail> {
    for (why, text) in SHAPES {
        let told = MapError::Refused(why);
        assert_eq!(rt; format!(in rt.alloc(); "{told}")?.as_str(), text);
    }
    let why = LoadFault::TooMany;
    let told = LoadError::Refused(LoadRefusal { line: 2, why });
    assert_eq!(rt;
        format!(in rt.alloc(); "{told}")?.as_str(),
        "line 2: C5: a store has at most 16 maps of 16777216 bytes together, and 256 programs"
    );
    Ok(())
}

#[test]
fn says_that_memory_ran_out(rt: HostRuntime) -> Result<(), Fail> {
    let (decoder, verifier) = (DecodeError::NoMemory, VerifyError::NoMemory);
    let told = format!(in rt.alloc(); "{decoder}, {verifier}, {}", MapError::NoMemory)?;
    assert_eq!(rt;
        told.as_str(),
        "slot 0: D0: memory ran out, V0: no memory, M4: memory ran out"
    );
    Ok(())
}

// What an install says, with the number that it gives or would give.
fn installed(rt: &HostRuntime, store: &mut Installed, bytes: &[u8]) -> Result<String, Fail> {
    let number = store.len();
    match store.install(Mode::Read, 0, bytes) {
        Ok(()) => {
            let slots = store.program(number).map_or(0, |program| program.slots());
            Ok(format!(in rt.alloc(); "{number}, of {slots} slots")?)
        }
        Err(why) => Ok(format!(in rt.alloc(); "{why}")?),
    }
}

#[test]
fn installs_what_is_accepted(rt: HostRuntime) -> Result<(), Fail> {
    shapes_ok(&MAPS)?;
    let mut store = Installed::open(rt.alloc(), &MAPS, 2, 0)?;
    let first = installed(&rt, &mut store, &SEVEN)?;
    assert_eq!(rt; first.as_str(), "0, of 2 slots");
    let cut_off = installed(&rt, &mut store, &CUT_OFF)?;
    assert_eq!(rt;
        cut_off.as_str(),
        "slot 1: D8: a wide instruction has no second slot"
    );
    let unchecked = installed(&rt, &mut store, &UNCHECKED)?;
    assert_eq!(rt;
        unchecked.as_str(),
        "slot 6: V14: a looked-up value is used before it is tested for null"
    );
    let second = installed(&rt, &mut store, &SEVEN)?;
    assert_eq!(rt; second.as_str(), "1, of 2 slots");
    Ok(())
}
