//! States: snapshots while others go on, dumps, and stores that go on from them.

mod fixture;

use fixture::{answer, answered, bytes_of, counter, example, five_in, hex_of, key, text_of, tried, BUMP, FIVE, LAST_HEX, PEEK};
use nrbpf::{Config, Error, Manifest, Mode, State, Store};
use std::io::{self, Write};
use std::panic::{catch_unwind, AssertUnwindSafe};
use std::thread;

fn dump_of(state: &State) -> String {
    String::from_utf8(state.dump().expect("there is memory")).expect("a dump is a text")
}

fn program() -> String {
    format!("p read 0 {}\n", hex_of(&FIVE))
}

#[test]
fn a_snapshot_is_what_was_answered() -> Result<(), Error> {
    let store = counter(Config::new(1, 1).spare(1));
    let (mut session, mut state) = (store.attach(0)?, store.new_state()?);
    assert_eq!((session.snapshot(&mut state)?, dump_of(&state)), (0, String::new()));
    session.update(BUMP, &key(0))?;
    session.update(BUMP, &key(0))?;
    assert_eq!((session.snapshot(&mut state)?, dump_of(&state)), (2, text_of("counter/state")));
    session.install(Mode::Read, 0, &FIVE)?;
    assert_eq!(dump_of(&state), text_of("counter/state"));
    assert_eq!(answered(|| session.try_snapshot(&mut state))?, 3);
    assert_eq!(dump_of(&state), text_of("counter/state") + &program());
    Ok(())
}

/// In each the counter is the point, and points don't fall.
#[test]
fn snapshots_beside_threads() -> Result<(), Error> {
    let of_count = |count: u64| if count == 0 { String::new() } else { format!("0 03000000 {}\n", hex_of(&count.to_le_bytes())) };
    let store = counter(Config::new(3, 1));
    let (mut session, mut state) = (store.attach(2)?, store.new_state()?);
    thread::scope(|scope| {
        for node in 0..2 {
            let mut session = store.attach(node).expect("there is one for each");
            scope.spawn(move || (0..20_000).for_each(|_| assert!(session.update(BUMP, &key(3)).is_ok())));
        }
        let mut last = 0;
        for _ in 0..200 {
            let point = session.snapshot(&mut state).expect("the state is the store's");
            assert!(last <= point);
            last = point;
            assert_eq!(dump_of(&state), of_count(point));
        }
    });
    assert_eq!((session.snapshot(&mut state)?, dump_of(&state)), (40_000, of_count(40_000)));
    Ok(())
}

#[test]
fn a_dump_is_loaded_and_dumped_the_same() -> Result<(), Error> {
    let text = text_of("counter/state") + &program();
    assert_eq!(dump_of(&State::load(&example("counter"), 1, text.as_bytes())?), text);
    assert_eq!(dump_of(&State::load(&example("counter"), 0, b"")?), "");
    Ok(())
}

/// A large map that has few keys, so that pages are empty, and one that has many.
#[test]
fn all_pages_of_a_scan_are_the_dump() -> Result<(), Error> {
    let manifest = Manifest::new("map hash 4 8 65536\n");
    for count in [1, 3_000] {
        let mut keys: Vec<_> = (0..count).map(|number| key(number * 7).to_vec()).collect();
        keys.sort();
        let text: String = keys.iter().map(|key| format!("0 {} ff00000000000000\n", hex_of(key))).collect();
        let store = Store::open_on(Config::new(1, 1), &manifest, &State::load(&manifest, 0, text.as_bytes())?)?;
        let mut found = store.attach(0)?.scan(0)?.collect::<Result<Vec<_>, _>>()?;
        found.sort();
        let wanted: Vec<_> = keys.into_iter().map(|key| (key, vec![0xff, 0, 0, 0, 0, 0, 0, 0])).collect();
        assert_eq!(found, wanted);
    }
    Ok(())
}

/// Notes how large the parts are, and has enough of so many.
struct Parts {
    sizes: Vec<usize>,
    text: Vec<u8>,
    most: usize,
}

impl Write for Parts {
    fn write(&mut self, part: &[u8]) -> io::Result<usize> {
        if self.sizes.len() == self.most {
            return Err(io::Error::other("no space is left"));
        }
        self.sizes.push(part.len());
        self.text.extend(part);
        Ok(part.len())
    }

    fn flush(&mut self) -> io::Result<()> {
        Ok(())
    }
}

#[test]
fn a_large_dump_comes_in_parts() -> Result<(), Error> {
    let mut keys: Vec<String> = (0..4_096).map(|number| hex_of(&key(number))).collect();
    keys.sort();
    let text: String = keys.iter().map(|key| format!("0 {key} ff00000000000000\n")).collect();
    let mut state = State::load(&Manifest::new("map array 8 4096\n"), 0, text.as_bytes())?;
    let mut parts = Parts { sizes: Vec::new(), text: Vec::new(), most: usize::MAX };
    state.write_to(&mut parts).expect("it takes all");
    assert_eq!(parts.text, text.as_bytes());
    assert!(parts.sizes.len() > 1 && parts.sizes.iter().all(|&size| size <= 16_384));

    let mut parts = Parts { most: 1, sizes: Vec::new(), text: Vec::new() };
    assert_eq!(state.write_to(&mut parts).map_err(|why| why.to_string()), Err("no space is left".to_owned()));
    assert_eq!(parts.sizes.len(), 1);
    Ok(())
}

#[test]
fn a_panic_of_a_writer_goes_on() -> Result<(), Error> {
    struct Panics;
    impl Write for Panics {
        fn write(&mut self, _: &[u8]) -> io::Result<usize> {
            panic!("it has enough")
        }
        fn flush(&mut self) -> io::Result<()> {
            Ok(())
        }
    }
    let mut state = State::load(&example("counter"), 0, text_of("counter/state").as_bytes())?;
    let told = catch_unwind(AssertUnwindSafe(|| state.write_to(Panics)));
    assert_eq!(told.err().and_then(|why| why.downcast_ref::<&str>().copied()), Some("it has enough"));
    assert_eq!(dump_of(&state), text_of("counter/state"));
    Ok(())
}

#[test]
fn stores_go_on_from_what_another_ended_in() -> Result<(), Error> {
    let store = counter(Config::new(1, 1).spare(1));
    let mut session = store.attach(0)?;
    session.update(BUMP, &key(3))?;
    session.install(Mode::Read, 0, &FIVE)?;
    drop(session);
    let state = store.close_into().map_err(|it| it.why)?;
    for nodes in [1, 2] {
        let store = Store::open_on(Config::new(nodes, 1).spare(2), &example("counter"), &state)?;
        let mut session = store.attach(nodes - 1)?;
        assert_eq!(session.read(PEEK, &key(3))?, answer(0, 1));
        assert_eq!(session.read(2, &[])?, answer(0, 5));
        assert_eq!(session.update(BUMP, &key(3))?, answer(0, 2));
    }
    Ok(())
}

/// A node has what another has installed, and so have stores that go on from its state and from its dump.
#[test]
fn states_have_long_programs() -> Result<(), Error> {
    let config = Config::new(2, 1).window(16).spare(2).long_bytes(16_384);
    let store = counter(config);
    let (mut one, mut other) = (store.attach(0)?, store.attach(1)?);
    let argument: Vec<u8> = (0..16_384_u32).map(|k| (k + (k >> 8)) as u8).collect();
    let tail = u64::from_le_bytes([55, 56, 57, 58, 59, 60, 61, 62]);
    assert_eq!(one.install(Mode::Read, 0, &five_in(2_048))?, answer(0, 2));
    assert_eq!(tried(&mut other, |it| it.try_install(Mode::Update, 16_384, &bytes_of(LAST_HEX)))?, answer(1, 3));
    for turn in 0..100 {
        assert_eq!(other.read(2, &[])?, answer(2 + 2 * turn, 5));
        assert_eq!(one.update(3, &argument)?, answer(2 + 2 * turn, tail));
        let none = tried(&mut one, |it| it.try_install(Mode::Read, 0, &five_in(2_048)));
        assert_eq!(none, Err(Error::NoPlace { point: 3 + 2 * turn }));
    }
    let facts = [one.program_info(2)?.facts, other.program_info(3)?.facts].map(|it| it.expect("it is installed"));
    assert_eq!(facts.map(|it| (it.mode, it.argument_len, it.slots)), [(Mode::Read, 0, 2_048), (Mode::Update, 16_384, 2)]);
    drop((one, other));

    let text = format!("p read 0 {}\np update 16384 {LAST_HEX}\n", hex_of(&five_in(2_048)));
    let state = store.close_into().map_err(|it| it.why)?;
    let loaded = State::load_with(&example("counter"), config, text.as_bytes())?;
    for state in [state, loaded] {
        assert!(dump_of(&state) == text);
        let store = Store::open_on(config, &example("counter"), &state)?;
        for node in [0, 1] {
            let mut session = store.attach(node)?;
            assert_eq!(session.read(2, &[])?.reply, 5);
            assert_eq!(session.update(3, &argument)?.reply, tail);
        }
    }
    Ok(())
}
