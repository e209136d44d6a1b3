//! What calls answer: the rows of the examples, which `nrbpf run` answers too; reads; threads; and tries beside others.

mod fixture;

use fixture::{answer, answered, bytes_of, counter, example, key, text_of, tried, BUMP, FIVE, PEEK};
use nrbpf::{Config, Error, Manifest, MapShape, Mode, Question, Session, State, Store, Tried, ENDLESS, REPLY_NO_ROOM};
use std::collections::BTreeMap;
use std::sync::atomic::{AtomicBool, AtomicU64, Ordering};
use std::sync::Arc;
use std::thread;

/// What a line of a script is answered with, without the steps of `nrbpf run`.
fn row(store: &Store, session: &mut Session<'_>, line: &str) -> String {
    let words: Vec<&str> = line.split(' ').collect();
    let argument = bytes_of(words[words.len() - 1]);
    let told = |kind: &str, it: nrbpf::Answer| format!("{kind} {} reply {}", it.point, it.reply);
    let mut call = || match words[..] {
        ["install", mode, len, _] => {
            let mode = if mode == "read" { Mode::Read } else { Mode::Update };
            session.install(mode, len.parse().expect(line), &argument).map(|it| told("install", it))
        }
        ["invoke", number, _] => session.update(number.parse().expect(line), &argument).map(|it| told("update", it)),
        ["read", number, _] => session.read(number.parse().expect(line), &argument).map(|it| told("read", it)),
        [name, ..] => {
            let program = store.program(name)?;
            match session.update(program, &argument) {
                Err(Error::OtherMode) => session.read(program, &argument).map(|it| told("read", it)),
                other => other.map(|it| told("update", it)),
            }
        }
        [] => unreachable!(),
    };
    call().unwrap_or_else(|refused| match refused {
        Error::NotAccepted { why, slot } | Error::NotDecoded { why, slot } => {
            format!("refused {:?} {why:?} slot {slot}", refused.refusal())
        }
        _ => format!("refused {:?}", refused.refusal()),
    })
}

fn run(name: &str, store: &Store) -> Vec<String> {
    let mut session = store.attach(0).expect("a session is free");
    let script = text_of(&format!("{name}/script"));
    script.lines().filter(|line| !line.is_empty() && !line.starts_with('#')).map(|line| row(store, &mut session, line)).collect()
}

fn rows(path: &str) -> Vec<String> {
    text_of(path).lines().map(|line| line.split(" steps ").next().unwrap_or(line).to_owned()).collect()
}

#[test]
fn the_examples_answer_their_rows() {
    for (name, spare) in [("counter", 0), ("key_value", 0), ("install", 4)] {
        let store = Store::open(Config::new(1, 1).spare(spare), &example(name)).expect(name);
        assert_eq!(run(name, &store), rows(&format!("{name}/run.out")));
    }
}

#[test]
fn the_counter_goes_on_from_a_dump() {
    let state = State::load(&example("counter"), 0, text_of("counter/state").as_bytes()).expect("the state is one");
    let store = Store::open_on(Config::new(1, 1), &example("counter"), &state).expect("it is the counter's");
    let told = run("counter", &store);
    assert_eq!(told, rows("counter/run_on.out")[..told.len()]);
}

#[test]
fn keys_are_looked_up() -> Result<(), Error> {
    let store = Store::open(Config::new(1, 1), &example("key_value"))?;
    let mut session = store.attach(0)?;
    session.update(store.program("put")?, &[1, 0, 0, 0, 7, 0, 0, 0])?;
    assert_eq!(session.get(0, &key(1))?, Some(vec![7, 0, 0, 0]));
    assert_eq!(session.get(0, &key(2))?, None);
    let mut value = [9; 4];
    let found = session.get_into(0, &key(2), &mut value)?;
    assert_eq!((found.point, found.is_there, value), (1, false, [9; 4]));
    let found = answered(|| session.try_get_into(0, &key(1), &mut value))?;
    assert_eq!((found.point, found.is_there, value), (1, true, [7, 0, 0, 0]));
    Ok(())
}

#[test]
fn maps_are_scanned() -> Result<(), Error> {
    let store = Store::open(Config::new(1, 1), &example("key_value"))?;
    let mut session = store.attach(0)?;
    assert_eq!(session.scan(0)?.count(), 0);
    for argument in [[1, 0, 0, 0, 7, 0, 0, 0], [2, 0, 0, 0, 8, 0, 0, 0]] {
        session.update(store.program("put")?, &argument)?;
    }
    let all = session.scan(0)?.collect::<Result<BTreeMap<_, _>, _>>()?;
    assert_eq!(all, BTreeMap::from([(vec![1, 0, 0, 0], vec![7, 0, 0, 0]), (vec![2, 0, 0, 0], vec![8, 0, 0, 0])]));
    Ok(())
}

#[test]
fn arrays_are_scanned_in_pages() -> Result<(), Error> {
    let store = counter(Config::new(1, 1));
    let mut session = store.attach(0)?;
    session.update(BUMP, &key(5))?;
    let (mut keys, mut values) = ([0; 16], [0; 32]);
    let page = session.scan_page(0, 4, &mut keys, &mut values)?;
    assert_eq!((page.point, page.count, page.next), (1, 4, Some(8)));
    assert_eq!(keys[..8], [4, 0, 0, 0, 5, 0, 0, 0]);
    assert_eq!(values[..16], [0, 0, 0, 0, 0, 0, 0, 0, 1, 0, 0, 0, 0, 0, 0, 0]);
    let page = answered(|| session.try_scan_page(0, 12, &mut keys, &mut values))?;
    assert_eq!((page.point, page.count, page.next), (1, 4, None));
    assert_eq!(session.scan(0)?.count(), 16);
    Ok(())
}

#[test]
fn replies_have_a_sign() -> Result<(), Error> {
    let store = counter(Config::new(1, 1));
    let mut session = store.attach(0)?;
    assert_eq!(session.update(BUMP, &key(1))?.signed(), 1);
    assert_eq!(session.read(PEEK, &key(16))?.signed(), -1);
    for (reply, signed) in [(u64::MAX - 1, -2), (1 << 63, i64::MIN), ((1 << 63) - 1, i64::MAX)] {
        assert_eq!(answer(0, reply).signed(), signed);
    }
    Ok(())
}

#[test]
fn several_reads_are_of_one_point() -> Result<(), Error> {
    let store = counter(Config::new(1, 1));
    let mut session = store.attach(0)?;
    session.update(BUMP, &key(1))?;
    session.update(BUMP, &key(1))?;
    let (one, two, none) = (key(1), key(2), key(16));
    let questions = [Question::new(PEEK, &one), Question::new(PEEK, &two), Question::new(PEEK, &none)];
    let mut replies = [9; 3];
    assert_eq!(session.read_each(&questions, &mut replies)?, 2);
    assert_eq!(replies, [2, 0, u64::MAX]);
    assert_eq!(answered(|| session.try_read_each(&questions, &mut replies))?, 2);
    assert_eq!(session.read_each(&[], &mut [])?, 2);
    assert_eq!(session.read_each(&[questions[0]; 16], &mut [0; 16])?, 2);
    Ok(())
}

#[test]
fn tries_are_answered() -> Result<(), Error> {
    let store = counter(Config::new(2, 2).spare(1));
    let mut session = store.attach(1)?;
    for index in 0..100 {
        assert_eq!(tried(&mut session, |it| it.try_update(BUMP, &key(3)))?, answer(index, index + 1));
    }
    assert_eq!(answered(|| session.try_read(PEEK, &key(3)))?, answer(100, 100));
    let five = tried(&mut session, |it| it.try_install(Mode::Read, 0, &FIVE))?;
    assert_eq!((five, five.program()), (answer(100, 2), Some(2)));
    assert_eq!(session.read(2, &[])?, answer(101, 5));
    assert_eq!(session.install(Mode::Read, 0, &FIVE), Err(Error::NoPlace { point: 101 }));
    let none = tried(&mut session, |it| it.try_install_within(&[], Mode::Read, 0, &FIVE)).expect_err("there is no place");
    assert_eq!((none, none.refusal().number()), (Error::NoPlace { point: 102 }, 0));
    assert_eq!(none.to_string(), "there is no free place for the program");
    Ok(())
}

/// A session tries beside three threads that are in its way: what is posted is made once, and until it is answered nothing else is.
#[test]
fn tries_beside_others() -> Result<(), Error> {
    let store = counter(Config::new(1, 4));
    let is_done = AtomicBool::new(false);
    let mut session = store.attach(0)?;
    let (mut mine, mut posted) = (0, false);
    let others: u64 = thread::scope(|scope| {
        let count = || {
            let mut session = store.attach(0).expect("there is one for each");
            let mut made = 0;
            while !is_done.load(Ordering::Relaxed) && made < 300_000 {
                session.update(BUMP, &key(3)).expect("the history has no end");
                made += 1;
            }
            made
        };
        let threads = [(); 3].map(|()| scope.spawn(count));
        while mine < 50_000 && !posted {
            let told = session.try_update(BUMP, &key(3)).expect("the history has no end");
            posted = told == Tried::Posted;
            mine += u64::from(told != Tried::Busy);
        }
        is_done.store(true, Ordering::Relaxed);
        if posted {
            assert_eq!(session.read(PEEK, &key(3)), Err(Error::Unanswered));
            assert_eq!(session.try_update(BUMP, &key(4)), Err(Error::Unanswered));
            session.wait().expect("the history has no end");
        }
        threads.map(|it| it.join().expect("it ends")).iter().sum()
    });
    assert_eq!(session.read(PEEK, &key(3))?, answer(mine + others, mine + others));
    Ok(())
}

/// An install that finds no place is an error, also if it was posted. An update of the same reply that is posted later is none.
#[test]
fn no_place_beside_others() -> Result<(), Error> {
    let store = counter(Config::new(1, 4).spare(1));
    let is_done = AtomicBool::new(false);
    let mut session = store.attach(0)?;
    let replies_7 = bytes_of("b7000000f9ffffff9500000000000000"); // -7
    session.install(Mode::Update, 0, &replies_7)?;
    thread::scope(|scope| {
        for _ in 0..3 {
            scope.spawn(|| {
                let mut session = store.attach(0).expect("there is one for each");
                for _ in 0..300_000 {
                    if is_done.load(Ordering::Relaxed) {
                        break;
                    }
                    session.update(BUMP, &key(3)).expect("the history has no end");
                }
            });
        }
        for _ in 0..50_000 {
            let told = session.try_install(Mode::Read, 0, &FIVE);
            let posted = told == Ok(Tried::Posted);
            let told = if posted { session.wait().map(Tried::Answered) } else { told };
            assert!(matches!(told, Ok(Tried::Busy) | Err(Error::NoPlace { .. })), "{told:?}");
            if posted {
                break;
            }
        }
        for _ in 0..1000 {
            let told = tried(&mut session, |it| it.try_update(2, &[])).expect("the history has no end");
            assert_eq!(told.reply, REPLY_NO_ROOM);
        }
        is_done.store(true, Ordering::Relaxed);
    });
    Ok(())
}

/// A session that is dropped while its update is out is given back once that is answered.
#[test]
fn a_posted_update_is_made() -> Result<(), Error> {
    let store = counter(Config::new(1, 3));
    let mut posted = 0;
    thread::scope(|scope| {
        for _ in 0..2 {
            scope.spawn(|| {
                let mut session = store.attach(0).expect("there is one for each");
                for _ in 0..20_000 {
                    session.update(BUMP, &key(4)).expect("the history has no end");
                }
            });
        }
        for _ in 0..1_000 {
            let mut session = store.attach(0).expect("it was given back");
            posted += u64::from(session.try_update(BUMP, &key(3)).expect("the history has no end") != Tried::Busy);
        }
    });
    assert_eq!(store.attach(0)?.read(PEEK, &key(3))?.reply, posted);
    Ok(())
}

#[test]
fn four_threads_count() -> Result<(), Error> {
    let store = counter(Config::new(2, 2));
    thread::scope(|scope| {
        for node in [0, 1, 0, 1] {
            let mut session = store.attach(node).expect("there is one for each");
            scope.spawn(move || (0..1_000).for_each(|_| assert!(session.update(BUMP, &key(3)).is_ok())));
        }
    });
    assert_eq!(store.attach(1)?.read(PEEK, &key(3))?, answer(4_000, 4_000));
    Ok(())
}

#[test]
fn sessions_that_share_their_store_outlive_its_name() {
    let store = Arc::new(counter(Config::new(1, 2)));
    let threads = [(); 2].map(|()| {
        let mut session = store.attach_shared(0).expect("there is one for each");
        thread::spawn(move || (0..1_000).for_each(|_| assert!(session.update(BUMP, &key(3)).is_ok())))
    });
    for thread in threads {
        thread.join().expect("it ends");
    }
    let mut last = store.attach_shared(0).expect("one was given back");
    drop(store);
    assert_eq!(last.read(PEEK, &key(3)), Ok(answer(2_000, 2_000)));
}

#[test]
fn a_history_has_an_end_or_none() -> Result<(), Error> {
    let store = counter(Config::new(1, 1).limit(2));
    let mut session = store.attach(0)?;
    session.update(BUMP, &key(3))?;
    session.update(BUMP, &key(3))?;
    assert_eq!(session.update(BUMP, &key(3)), Err(Error::Full));
    assert_eq!(tried(&mut session, |it| it.try_update(BUMP, &key(3))), Err(Error::Full));
    assert_eq!(session.read(PEEK, &key(3))?, answer(2, 2));

    let store = counter(Config::new(1, 1).window(16).limit(nrbpf::ENDLESS));
    let mut session = store.attach(0)?;
    for _ in 0..10_000 {
        session.update(BUMP, &key(3))?;
    }
    assert_eq!(session.read(PEEK, &key(3))?, answer(10_000, 10_000));
    Ok(())
}

// Puts its argument under the argument's first byte.
const PUT: &str = "bf12000000000000bf1300000000000018510000000000000000000000000000b70400000000000085000000020000009500000000000000";

#[test]
fn a_store_tells_what_it_is() -> Result<(), Error> {
    let manifest = Manifest::new("map hash 1 2 16\nmap array 8 4\nprogram put update 2 put.hex\n").file("put.hex", PUT);
    let store = Store::open(Config::new(1, 2).window(64).spare(1).long_bytes(200), &manifest)?;
    let info = store.info();
    assert_eq!((info.nodes, info.slots, info.window, info.limit, info.spare), (1, 2, 64, ENDLESS, 1));
    assert_eq!((info.maps, info.programs, info.long_bytes), (2, 1, 200));
    let shapes = [(false, 1, 2, 16), (true, 4, 8, 4)].map(|(is_array, key, value, entries)| MapShape { is_array, key, value, entries });
    assert_eq!(store.maps(), shapes);

    let mut session = store.attach(0)?;
    session.update(0, &[7, 9])?;
    let told = session.map_info(0)?;
    assert_eq!((told.point, told.shape, told.keys), (1, shapes[0], 1));
    assert_eq!(answered(|| session.try_map_info(1))?.keys, 4);
    assert_eq!(session.map_info(2), Err(Error::UnknownMap));

    let put = session.program_info(0)?;
    assert_eq!((put.point, put.is_place, put.name.as_deref()), (1, false, Some("put")));
    let facts = put.facts.expect("it is a program");
    assert_eq!((facts.mode, facts.argument_len, facts.slots, facts.maps().collect::<Vec<_>>()), (Mode::Update, 2, 7, vec![0]));
    assert_eq!(session.program_info(1)?.facts, None);
    session.install(Mode::Read, 5, &FIVE)?;
    let five = answered(|| session.try_program_info(1))?;
    assert_eq!((five.point, five.is_place, five.name), (2, true, None));
    assert_eq!(five.facts.map(|it| (it.mode, it.argument_len, it.slots, it.maps().count())), Some((Mode::Read, 5, 2, 0)));
    assert_eq!(session.program_info(2), Err(Error::UnknownProgram));
    Ok(())
}

#[test]
fn a_store_tells_what_it_has_done() -> Result<(), Error> {
    let store = counter(Config::new(2, 1));
    let (mut session, mut other) = (store.attach(0)?, store.attach(1)?);
    for _ in 0..3 {
        session.update(BUMP, &key(3))?;
    }
    let own = session.stats()?;
    assert_eq!((own.completed, own.appended, own.kept, own.tail, own.lag), (3, 3, 3, 3, 0));
    assert_eq!((own.updates, own.waits, own.batches, own.node), (3, 0, 0, 0));
    let behind = answered(|| other.try_stats())?;
    assert_eq!((behind.completed, behind.tail, behind.lag, behind.updates, behind.node), (3, 0, 3, 0, 1));
    Ok(())
}

/// Of two sessions of a node whose updates are posted by one thread, the later one is dropped first. It may have to wait for the other.
#[test]
fn two_posted_updates_of_a_thread_are_made() -> Result<(), Error> {
    let store = counter(Config::new(2, 4));
    let (is_done, made) = (AtomicBool::new(false), AtomicU64::new(0));
    thread::scope(|scope| {
        for node in [0, 0, 1] {
            let mut session = store.attach(node).expect("there is one for each");
            let (is_done, made) = (&is_done, &made);
            scope.spawn(move || {
                while !is_done.load(Ordering::Relaxed) {
                    session.update(BUMP, &key(3)).expect("the history has no end");
                    made.fetch_add(1, Ordering::Relaxed);
                }
            });
        }
        let (mut turn, mut both) = (0, 0);
        while turn < 50_000 && both < 200 {
            let sessions = [store.attach(0), store.attach(0)];
            let [mut first, mut later] = sessions.map(|it| it.expect("it was given back"));
            let told = [&mut first, &mut later].map(|it| it.try_update(BUMP, &key(3)).expect("the history has no end"));
            made.fetch_add(told.iter().filter(|&&it| it != Tried::Busy).count() as u64, Ordering::Relaxed);
            both += u32::from(told == [Tried::Posted; 2]);
            turn += 1;
        }
        is_done.store(true, Ordering::Relaxed);
    });
    let made = made.into_inner();
    assert_eq!(store.attach(0)?.read(PEEK, &key(3))?, answer(made, made));
    Ok(())
}
