//! What is refused, as which error.

mod fixture;

use fixture::{answer, counter, example, five_in, hex_of, key, BUMP, FIVE, LAST_HEX, NAMES_MAP_0, NOTHING_IN_R0, PEEK, PUT_HEX};
use nrbpf::{Config, Error, Limits, Manifest, Mode, Question, QuestionRefused, Session, State, Store};
use std::mem;

const ARRAY: &str = "map array 8 16\n";

/// The error as letter and number, its inner refusal, line and slot.
fn parts(why: Error) -> (String, String, u32, u32) {
    let (inner, line, slot) = match why {
        Error::FileNotDecoded { line, why, slot }
        | Error::FileNotAccepted { line, why, slot }
        | Error::DumpBadProgram { line, why, slot } => (format!("{why:?}"), line, slot),
        Error::NotDecoded { why, slot } | Error::NotAccepted { why, slot } => (format!("{why:?}"), 0, slot),
        Error::BadLine { line }
        | Error::BadDigits { line }
        | Error::TooMuch { line }
        | Error::BadDumpLine { line }
        | Error::BadDumpMap { line }
        | Error::BadDumpKey { line }
        | Error::BadDumpValue { line }
        | Error::BadDumpOrder { line }
        | Error::BadDumpZeros { line }
        | Error::DumpTooManyKeys { line }
        | Error::DumpTooManyPrograms { line } => (String::new(), line, 0),
        _ => (String::new(), 0, 0),
    };
    let code = format!("{:?}", why.refusal());
    assert!(why.to_string().contains(&format!("{code}: ")), "{why}");
    (code, inner, line, slot)
}

fn row(code: &str, inner: &str, line: u32, slot: u32) -> (String, String, u32, u32) {
    (code.to_owned(), inner.to_owned(), line, slot)
}

#[test]
fn manifests() {
    let bump = std::fs::read(fixture::top().join("examples/counter/bump.hex")).expect("it is there");
    let with = |line: &str| format!("{ARRAY}program it {line}\n").into_bytes();
    let rows: [(Vec<u8>, &str, _); 9] = [
        (Vec::new(), "", row("C1", "", 1, 0)),
        (b"map array 08 16\n".to_vec(), "", row("C1", "", 1, 0)),
        (with("update 4 none"), "", row("C1", "", 2, 0)),
        (with("update 4 other"), "b7 0", row("C2", "", 2, 0)),
        (with("update 4 other"), "", row("C3", "D2", 2, 0)),
        (with("update 4 other"), "9500000000000000", row("C4", "V6", 2, 0)),
        (with("read 4 bump.hex"), "", row("C4", "V18", 2, 7)),
        (b"map array 256 65536\nmap array 1 1\n".to_vec(), "", row("C5", "", 2, 0)),
        (b"map array \xff 16\n".to_vec(), "", row("H4", "", 0, 0)),
    ];
    for (text, other, wanted) in rows {
        let manifest = Manifest::new(text).file("bump.hex", bump.clone()).file("other", other);
        assert_eq!(Store::open(Config::new(1, 1), &manifest).map(drop).map_err(parts), Err(wanted));
    }
    let manifest = Manifest::new(with("read 4 bump.hex")).file("bump.hex", bump);
    let text = Store::open(Config::new(1, 1), &manifest).expect_err("an update is no read").to_string();
    assert!(text.starts_with("line 2: C4: ") && text.contains("slot 7: V18: "), "{text}");
}

#[test]
fn sizes() {
    let good = Config::new(1, 1);
    let mut wider = Limits::LARGE;
    wider.entries += 1;
    let mut longer = Limits::LARGE;
    longer.argument += 1;
    let wrong = [
        Config::new(0, 1),
        Config::new(9, 1),
        Config::new(1, 0),
        Config::new(1, 17),
        Config::new(u32::MAX, u32::MAX),
        good.window(15),
        good.window(1_048_577),
        good.spare(4_097),
        good.limits(wider),
        good.limits(longer),
        good.long_bytes(16_385),
        good.long_bytes(u32::MAX),
    ];
    for config in wrong {
        assert_eq!(Store::open(config, &example("counter")).err(), Some(Error::OutOfLimits), "{config:?}");
    }
}

#[test]
fn limits() {
    let good = Config::new(1, 1);
    let manifest = Manifest::new("map hash 8 8 65537\n");
    let too_large = Store::open(good, &manifest).expect_err("65,537 entries are past the standard limits").to_string();
    assert!(too_large.starts_with("line 1: C1: "), "{too_large}");
    assert!(Store::open(good.limits(Limits::LARGE), &manifest).is_ok());
    let manifest = Manifest::new("map array 16384 2\n");
    assert!(Store::open(good, &manifest).is_err());
    let store = Store::open(good.limits(Limits::LARGE), &manifest).expect("values of 16,384 bytes are large");
    let value = store.attach(0).and_then(|mut session| session.get(0, &[0; 4]));
    assert_eq!(value, Ok(Some(vec![0; 16_384])));
    let mut narrow = Limits::STANDARD;
    narrow.entries = 16;
    let manifest = Manifest::new("map hash 8 8 17\n");
    assert!(Store::open(good, &manifest).is_ok());
    assert!(Store::open(good.limits(narrow), &manifest).is_err());
}

#[test]
fn limits_of_arguments() {
    let good = Config::new(1, 1);
    let with = |length: u32, limits| {
        let manifest = Manifest::new(format!("{ARRAY}program long update {length} five\n")).file("five", hex_of(&FIVE));
        Store::open(good.limits(limits), &manifest).err()
    };
    let mut narrow = Limits::STANDARD;
    narrow.argument = 8;
    for (length, limits) in [(64, Limits::STANDARD), (16_384, Limits::LARGE), (8, narrow)] {
        assert_eq!(with(length, limits), None);
    }
    for (length, limits) in [(65, Limits::STANDARD), (16_384, Limits::STANDARD), (16_385, Limits::LARGE), (9, narrow)] {
        assert_eq!(with(length, limits), Some(Error::BadLine { line: 2 }));
    }
}

/// A node reads what another has put, and one byte more is refused.
#[test]
fn long_arguments() -> Result<(), Error> {
    let text = "map hash 4 16380 4\nprogram put update 16384 put\nprogram last read 16384 last\n";
    let manifest = Manifest::new(text).file("put", PUT_HEX).file("last", LAST_HEX);
    let store = Store::open(Config::new(2, 2).limits(Limits::LARGE), &manifest)?;
    let (mut one, mut other, mut lane) = (store.attach(0)?, store.attach(1)?, store.attach_lane(0, 1)?);
    let longer: Vec<u8> = (0..16_385_u32).map(|k| (k + (k >> 8)) as u8).collect();
    let argument = &longer[..16_384];
    let tail = u64::from_le_bytes([55, 56, 57, 58, 59, 60, 61, 62]);
    assert_eq!(one.update(0, argument)?, answer(0, 0));
    assert_eq!(other.get(0, &argument[..4])?, Some(argument[4..].to_vec()));
    assert_eq!(other.read(1, argument)?, answer(1, tail));
    let (mut answers, mut replies) = ([Ok(answer(9, 9))], [9]);
    lane.update_each(&[Question::new(0, argument)], &mut answers)?;
    assert_eq!(answers, [Ok(answer(1, 0))]);
    assert_eq!((other.read_each(&[Question::new(1, argument)], &mut replies)?, replies), (2, [tail]));
    assert_eq!(one.update(0, &longer), Err(Error::ArgumentLength));
    assert_eq!(one.try_update(0, &longer).err(), Some(Error::ArgumentLength));
    assert_eq!(one.read(1, &longer), Err(Error::ArgumentLength));
    let refused = Err(QuestionRefused { question: Some(0), why: Error::ArgumentLength });
    assert_eq!(lane.update_each(&[Question::new(0, &longer)], &mut answers), refused);
    Ok(())
}

#[test]
fn states() -> Result<(), Error> {
    let state = State::load(&example("counter"), 1, format!("p read 0 {}\n", hex_of(&FIVE)).as_bytes())?;
    let (none, one) = (Config::new(1, 1), Config::new(1, 1).spare(1));
    let other = Manifest::new("map array 8 15\n");
    assert_eq!(Store::open_on(one, &other, &state).err(), Some(Error::OtherState));
    assert_eq!(Store::open_on(none, &example("counter"), &state).err(), Some(Error::OtherState));
    assert_eq!(Store::open_on(one, &Manifest::new(""), &state).err(), Some(Error::BadLine { line: 1 }));
    Store::open_on(one, &example("counter"), &state)?;
    Ok(())
}

/// The first program has one slot more than each may have, the second one byte more of an argument.
#[test]
fn states_of_long_programs() -> Result<(), Error> {
    let (counter, one) = (example("counter"), Config::new(1, 1).spare(1));
    for (line, long) in [(format!("p read 0 {}\n", hex_of(&five_in(25))), 200), (format!("p read 65 {}\n", hex_of(&FIVE)), 65)] {
        let state = State::load_with(&counter, one.long_bytes(long), line.as_bytes())?;
        for config in [one, one.long_bytes(long - 1)] {
            assert_eq!(Store::open_on(config, &counter, &state).err(), Some(Error::OtherState));
            assert_eq!(State::load_with(&counter, config, line.as_bytes()).err(), Some(Error::BadDumpLine { line: 1 }));
        }
        Store::open_on(one.long_bytes(long), &counter, &state)?;
    }
    assert_eq!(State::load_with(&counter, one.long_bytes(16_385), b"").err(), Some(Error::OutOfLimits));
    Ok(())
}

#[test]
fn dumps() {
    let manifest = Manifest::new(format!("{ARRAY}map hash 4 4 2\n"));
    let (one, seven, five) = ("0100000000000000", "07000000", hex_of(&FIVE));
    let rows = [
        (format!("0 0000000A {one}\n"), row("E1", "", 1, 0)),
        (format!("0 00000000 {one}"), row("E1", "", 1, 0)),
        (format!("0 00000000 {one}\n\n"), row("E1", "", 2, 0)),
        (format!("2 00000000 {one}\n"), row("E2", "", 1, 0)),
        (format!("0 10000000 {one}\n"), row("E3", "", 1, 0)),
        (format!("1 000000 {seven}\n"), row("E3", "", 1, 0)),
        (format!("0 00000000 {seven}\n"), row("E4", "", 1, 0)),
        (format!("0 01000000 {one}\n0 00000000 {one}\n"), row("E5", "", 2, 0)),
        ("0 00000000 0000000000000000\n".to_owned(), row("E6", "", 1, 0)),
        (format!("1 00000000 {seven}\n1 01000000 {seven}\n1 02000000 {seven}\n"), row("E7", "", 3, 0)),
        (format!("p read 0 {}\n", hex_of(&NOTHING_IN_R0)), row("E8", "V6", 1, 0)),
        ("p read 0 95\n".to_owned(), row("E8", "D1", 1, 0)),
        (format!("p read 0 {five}\np read 0 {five}\n"), row("E9", "", 2, 0)),
    ];
    for (text, wanted) in rows {
        assert_eq!(State::load(&manifest, 1, text.as_bytes()).map(drop).map_err(parts), Err(wanted), "{text}");
    }
    assert_eq!(State::load(&manifest, 4_097, b"").err(), Some(Error::OutOfLimits));
    assert_eq!(State::load(&Manifest::new(""), 0, b"").err(), Some(Error::BadLine { line: 1 }));
    assert_eq!(State::load(&manifest, 0, b"\xff\n").err(), Some(Error::NotUtf8));
}

/// What each call that runs a program refuses.
fn runs(session: &mut Session<'_>, right: u16, wrong: u16, call: impl Fn(&mut Session<'_>, u16, &[u8]) -> Option<Error>) {
    for length in [0, 3, 5, 64, 65, 1_000] {
        assert_eq!(call(session, right, &vec![0; length]), Some(Error::ArgumentLength));
    }
    assert_eq!(call(session, wrong, &key(3)), Some(Error::OtherMode));
    assert_eq!(call(session, 3, &key(3)), Some(Error::UnknownProgram));
    assert_eq!(call(session, u16::MAX, &key(3)), Some(Error::UnknownProgram));
}

#[test]
fn calls() -> Result<(), Error> {
    let store = counter(Config::new(1, 1).spare(1));
    let mut session = store.attach(0)?;
    runs(&mut session, BUMP, PEEK, |it, program, argument| it.update(program, argument).err());
    runs(&mut session, BUMP, PEEK, |it, program, argument| it.try_update(program, argument).err());
    runs(&mut session, PEEK, BUMP, |it, program, argument| it.read(program, argument).err());
    runs(&mut session, PEEK, BUMP, |it, program, argument| it.try_read(program, argument).err());
    assert_eq!(session.poll(), Err(Error::NothingPosted));
    assert_eq!(session.read(PEEK, &key(3))?, answer(0, 0));
    Ok(())
}

#[test]
fn installs_within() -> Result<(), Error> {
    let store = counter(Config::new(1, 1).spare(3));
    let mut session = store.attach(0)?;
    for maps in [&[][..], &[1], &[15, 16, u32::MAX]] {
        let wanted = Err(row("S8", "V16", 0, 0));
        assert_eq!(session.install_within(maps, Mode::Read, 0, &NAMES_MAP_0).map_err(parts), wanted.clone());
        assert_eq!(session.try_install_within(maps, Mode::Read, 0, &NAMES_MAP_0).map_err(parts).map(|_| answer(0, 0)), wanted);
    }
    assert_eq!(session.install_within(&[], Mode::Read, 65, &FIVE).map_err(parts), Err(row("S6", "", 0, 0)));
    assert_eq!(session.install_within(&[], Mode::Read, 0, &NOTHING_IN_R0).map_err(parts), Err(row("S8", "V6", 0, 0)));
    assert_eq!(session.install_within(&[0], Mode::Read, 0, &NAMES_MAP_0)?, answer(0, 2));
    assert_eq!(session.install_within(&[3, 0, 99], Mode::Update, 0, &NAMES_MAP_0)?, answer(1, 3));
    assert_eq!(session.install_within(&[], Mode::Read, 0, &FIVE)?, answer(2, 4));
    assert_eq!(session.read(4, &[])?, answer(3, 5));
    Ok(())
}

#[test]
fn installs() -> Result<(), Error> {
    let store = counter(Config::new(1, 1).spare(1));
    let mut session = store.attach(0)?;
    let opcode_13 = [&FIVE[..8], &[0x0d, 0, 0, 0, 0, 0, 0, 0]].concat();
    let rows: [(Mode, u32, &[u8], _); 6] = [
        (Mode::Update, 4, &[0; 193], row("S6", "", 0, 0)),
        (Mode::Read, 65, &FIVE, row("S6", "", 0, 0)),
        (Mode::Read, u32::MAX, &FIVE, row("S6", "", 0, 0)),
        (Mode::Read, 0, &[], row("S7", "D2", 0, 0)),
        (Mode::Read, 0, &opcode_13, row("S7", "D4", 0, 1)),
        (Mode::Read, 0, &NOTHING_IN_R0, row("S8", "V6", 0, 0)),
    ];
    for (mode, argument, code, wanted) in rows {
        assert_eq!(session.install(mode, argument, code).map_err(parts), Err(wanted.clone()));
        assert_eq!(session.try_install(mode, argument, code).map_err(parts), Err(wanted));
    }
    assert_eq!(session.read(PEEK, &key(3))?, answer(0, 0));
    Ok(())
}

/// One slot too many, and one byte too many of an argument, by how much a store allows.
#[test]
fn long_installs() -> Result<(), Error> {
    for (long, slots, argument) in [(0, 24, 64), (100, 24, 100), (200, 25, 200), (16_384, 2_048, 16_384)] {
        let store = counter(Config::new(1, 1).window(16).spare(1).long_bytes(long));
        let (mut session, given) = (store.attach(0)?, vec![0; argument + 1]);
        assert_eq!(session.install(Mode::Read, 0, &five_in(slots + 1)), Err(Error::TooLarge));
        assert_eq!(session.try_install(Mode::Read, argument as u32 + 1, &FIVE), Err(Error::TooLarge));
        assert_eq!(session.install_within(&[], Mode::Read, 0, &five_in(slots + 1)), Err(Error::TooLarge));
        assert_eq!(session.update(2, &given), Err(Error::ArgumentLength));
        assert_eq!(session.read(2, &given), Err(Error::ArgumentLength));
        assert_eq!(session.install(Mode::Read, argument as u32, &five_in(slots))?, answer(0, 2));
        assert_eq!(session.read(2, &given[1..])?, answer(1, 5));
    }
    Ok(())
}

#[test]
fn more_reads() -> Result<(), Error> {
    let store = counter(Config::new(1, 1));
    let (mut session, mut room) = (store.attach(0)?, [0; 64]);
    assert_eq!(session.get(1, &key(3)), Err(Error::UnknownMap));
    assert_eq!(session.get_into(1, &key(3), &mut room[..8]).err(), Some(Error::UnknownMap));
    assert_eq!(session.get(0, b"123"), Err(Error::KeyLength));
    assert_eq!(session.get_into(0, &key(3), &mut room[..7]).err(), Some(Error::ValueLength));
    assert_eq!(session.try_get_into(0, &key(3), &mut room).err(), Some(Error::ValueLength));
    assert_eq!(session.scan(1).map(drop), Err(Error::UnknownMap));
    assert_eq!(session.scan_page(1, 0, &mut [0; 4], &mut room).err(), Some(Error::UnknownMap));
    assert_eq!(session.scan_page(0, 16, &mut [0; 4], &mut room).err(), Some(Error::UnknownPlace));
    assert_eq!(session.try_scan_page(0, u32::MAX, &mut [0; 4], &mut room).err(), Some(Error::UnknownPlace));

    let (third, none) = (key(3), []);
    let (good, wrong, short) = (Question::new(PEEK, &third), Question::new(BUMP, &third), Question::new(PEEK, &none));
    let refused = |question, why| Some(QuestionRefused { question, why });
    assert_eq!(session.read_each(&[good, wrong], &mut [9; 2]).err(), refused(Some(1), Error::OtherMode));
    assert_eq!(session.try_read_each(&[short], &mut [9; 1]).err(), refused(Some(0), Error::ArgumentLength));
    assert_eq!(session.read_each(&[good; 17], &mut [9; 17]).err(), refused(None, Error::BadCall));
    Ok(())
}

#[test]
fn snapshots_of_other_sizes() -> Result<(), Error> {
    let store = counter(Config::new(1, 1));
    let mut session = store.attach(0)?;
    for (manifest, spare) in [(Manifest::new("map array 8 15\n"), 0), (example("counter"), 1)] {
        let mut state = State::load(&manifest, spare, b"")?;
        assert_eq!(session.snapshot(&mut state), Err(Error::OtherSizes));
        assert_eq!(session.try_snapshot(&mut state), Err(Error::OtherSizes));
    }
    Ok(())
}

#[test]
fn names_and_sessions() -> Result<(), Error> {
    let store = counter(Config::new(2, 1));
    for name in ["nope", "bum", "bump ", "", &"a".repeat(400)] {
        assert_eq!(store.program(name), Err(Error::UnknownProgram));
    }
    let session = store.attach(0)?;
    for node in [0, 2, u32::MAX] {
        assert_eq!(store.attach(node).err(), Some(Error::NoSession));
    }
    drop(session);
    store.attach(0)?;
    Ok(())
}

/// A store whose session was forgotten does not end, and nothing is undone.
#[test]
fn a_forgotten_session() -> Result<(), Error> {
    let store = counter(Config::new(1, 2));
    mem::forget(store.attach(0)?);
    let back = store.close_into().expect_err("a session is attached");
    assert_eq!(back.why, Error::Attached);
    assert_eq!(back.store.attach(0)?.read(PEEK, &key(3))?, answer(0, 0));
    Ok(())
}
