// What a catalogue keeps of a manifest. Which manifests are refused is in tests/rows.

use loader::{LoadError, StoreState, load_manifest, named_files};
use maps::Shape;
use std::test::Fail;
use verifier::Mode;

const FIVE: &str = "b7000000050000009500000000000000";

const FILES: &[(&str, &str)] = &[("five.hex", FIVE)];

const TEXT: &str =
    "# a store\nmap array 8 16\n\nmap array 256 1\nprogram five update 0 five.hex\nprogram a-_9 read 64 five.hex";

fn array(value: u32, entries: u32) -> Shape {
    Shape::Array { value, entries }
}

#[test]
fn numbers_programs_by_their_names(rt: HostRuntime) {
    let catalogue = load_manifest(rt.alloc(), TEXT, FILES).expect(&rt, "catalogue");
    assert_eq!(rt;
        [
            catalogue.number("five"),
            catalogue.number("a-_9"),
            catalogue.number("nope")
        ],
        [Some(0), Some(1), None]
    );
    assert_eq!(rt;
        [catalogue.name(0), catalogue.name(1), catalogue.name(2)],
        [Some("five"), Some("a-_9"), None]
    );
}

#[test]
fn keeps_shapes_and_programs(rt: HostRuntime) {
    let catalogue = load_manifest(rt.alloc(), TEXT, FILES).expect(&rt, "catalogue");
    assert_eq!(rt;
        catalogue.shapes(),
        [array(8, 16), array(256, 1)].as_slice()
    );
    let seen = catalogue
        .program(1)
        .map(|p| (p.mode(), p.arg_len(), p.instructions()));
    assert_eq!(rt; seen, Some((Mode::Read, 64, 2)));
    assert_eq!(rt;
        (catalogue.len(), catalogue.program(2).is_none()),
        (2, true)
    );
}

#[test]
fn names_files_of_bad_lines_too(rt: HostRuntime) -> Result<(), Fail> {
    let text = "program a\nmap array 8 16\nprogram five update 0 five.hex\n program b c\nprogram ";
    let names = named_files(rt.alloc(), text)?;
    assert_eq!(rt; names.as_slice(), ["a", "five.hex", ""].as_slice());
    Ok(())
}

// Where one allocation fails, a call says so and nothing else.
#[test]
fn wants_memory_alone(rt: HostRuntime) {
    let text = "map array 8 16\nprogram five update 0 five.hex\n";
    match named_files(rt.alloc(), text) {
        Ok(names) => assert_eq!(rt; names.as_slice(), ["five.hex"].as_slice()),
        Err(_) => {}
    }
    match load_manifest(rt.alloc(), text, FILES) {
        Ok(catalogue) => assert_eq!(rt; catalogue.len(), 1),
        Err(e) => assert_eq!(rt; e, LoadError::NoMemory),
    }
}

// A new state has no program yet, and nor has a copy with room for two.
#[test]
fn copies_a_state(rt: HostRuntime) {
    let catalogue = load_manifest(rt.alloc(), TEXT, FILES).expect(&rt, "catalogue");
    let state = StoreState::open(rt.alloc(), &catalogue).expect(&rt, "state");
    let copy = StoreState::copy_of(rt.alloc(), &state, 2, 0).expect(&rt, "copy");
    assert_eq!(rt; [state.programs().len(), copy.programs().len()], [0, 0]);
}
