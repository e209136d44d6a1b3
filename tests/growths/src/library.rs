// The library's calls that take memory, each made once.

use crate::endings::{Ending, judged};
use crate::served::{BUMP_LINE, BUMP_TEXT, MANIFEST, PEEK_LINE};
use asm::AsmError;
use example_sums::open_two;
use insn::{DecodeError, Insn};
use loader::{LoadError, load_manifest, named_files};
use maps::{MapError, MapSet, Shape, shapes_ok};
use std::alloc::Global;
use verifier::{Mode, VerifyError, verify};

// An array and a hash.
const SHAPES: [Shape; 2] = [
    Shape::Array {
        value: 8,
        entries: 16,
    },
    Shape::Hash {
        key: 4,
        value: 8,
        entries: 4,
    },
];

// The instructions of the program, where there was memory for them.
fn program(alloc: Global) -> Option<Vec<Insn>> {
    asm::assemble(alloc, BUMP_TEXT).ok()
}

pub fn assembled(alloc: Global) -> Ending {
    match asm::assemble(alloc, BUMP_TEXT) {
        Ok(program) => judged(program.len() == 11),
        Err(AsmError::NoMemory) => Ending::NoMemory,
        Err(_) => Ending::Other,
    }
}

pub fn encoded(alloc: Global) -> Ending {
    let Some(program) = program(alloc) else {
        return Ending::NotReached;
    };
    match insn::encode(alloc, &program) {
        Ok(bytes) => judged(bytes.len() == 96),
        Err(_) => Ending::NoMemory,
    }
}

pub fn decoded(alloc: Global) -> Ending {
    let Ok(Some(bytes)) = text::spaced_hex(alloc, BUMP_LINE) else {
        return Ending::NotReached;
    };
    match insn::decode(alloc, &bytes) {
        Ok(program) => judged(program.len() == 11),
        Err(DecodeError::NoMemory) => Ending::NoMemory,
        Err(_) => Ending::Other,
    }
}

pub fn disassembled(alloc: Global) -> Ending {
    let Some(program) = program(alloc) else {
        return Ending::NotReached;
    };
    match asm::disassemble(alloc, &program) {
        Ok(text) => judged(text.as_str() == BUMP_TEXT),
        Err(_) => Ending::NoMemory,
    }
}

pub fn verified(alloc: Global) -> Ending {
    let Some(program) = program(alloc) else {
        return Ending::NotReached;
    };
    if shapes_ok(&SHAPES).is_err() {
        return Ending::Other;
    }
    match verify(alloc, program, &SHAPES, 4, Mode::Update) {
        Ok(accepted) => judged(accepted.slots() == 12 && accepted.instructions() == 11),
        Err(VerifyError::NoMemory) => Ending::NoMemory,
        Err(_) => Ending::Other,
    }
}

pub fn maps_opened(alloc: Global) -> Ending {
    match MapSet::open(alloc, &SHAPES) {
        Ok(_) => Ending::Ordinary,
        Err(MapError::NoMemory) => Ending::NoMemory,
        Err(_) => Ending::Other,
    }
}

pub fn files_named(alloc: Global) -> Ending {
    match named_files(alloc, MANIFEST) {
        Ok(names) => judged(names.as_slice() == ["bump.hex", "peek.hex"].as_slice()),
        Err(_) => Ending::NoMemory,
    }
}

pub fn loaded(alloc: Global) -> Ending {
    let files = [("bump.hex", BUMP_LINE), ("peek.hex", PEEK_LINE)];
    match load_manifest(alloc, MANIFEST, &files) {
        Ok(catalogue) => judged(catalogue.len() == 2 && catalogue.number("peek") == Some(1)),
        Err(LoadError::NoMemory) => Ending::NoMemory,
        Err(_) => Ending::Other,
    }
}

// The shelf of two places, and a seat for each of two sessions: its refusal has no other number.
pub fn shelf_opened(alloc: Global) -> Ending {
    match open_two(alloc) {
        Ok(_) => Ending::Ordinary,
        Err(_) => Ending::NoMemory,
    }
}
