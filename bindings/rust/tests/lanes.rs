//! Lists of updates by lanes: what they answer and refuse, threads, and lists that wait for nobody.

mod fixture;

use fixture::{answer, counter, key, BUMP, PEEK};
use nrbpf::{Answer, Config, Error, Question, QuestionRefused, TriedEach, MOST_SLOTS};
use std::sync::atomic::{AtomicU64, Ordering};
use std::sync::Arc;
use std::thread;

fn room() -> [Result<Answer, Error>; 4] {
    [Ok(Answer::default()); 4]
}

#[test]
fn a_list_is_answered_in_its_order() -> Result<(), Error> {
    let store = counter(Config::new(1, 5));
    let mut lane = store.attach_lane(0, 4)?;
    let (three, five) = (key(3), key(5));
    let calls = [Question::new(BUMP, &three), Question::new(BUMP, &three), Question::new(BUMP, &five)];
    let mut answers = room();
    lane.update_each(&calls, &mut answers[..3])?;
    assert_eq!(answers[..3], [Ok(answer(0, 1)), Ok(answer(1, 2)), Ok(answer(2, 1))]);
    assert_eq!(lane.try_update_each(&calls[..2], &mut answers[..2]), Ok(TriedEach::Answered));
    assert_eq!(answers[..2], [Ok(answer(3, 3)), Ok(answer(4, 4))]);
    lane.update_each(&[], &mut [])?;
    assert_eq!(lane.slots(), 4);
    assert_eq!(store.attach(0)?.read(PEEK, &three)?, answer(5, 4));
    Ok(())
}

#[test]
fn a_list_is_refused_as_a_whole() -> Result<(), Error> {
    let store = counter(Config::new(1, 5));
    let (right, short) = (key(3), [0; 3]);
    let mut lane = store.attach_lane(0, 4)?;
    let mut refused = |calls: &[Question<'_>]| lane.update_each(calls, &mut room()[..calls.len()]).err();
    let told = |question, why| Some(QuestionRefused { question, why });
    let (good, bad) = (Question::new(BUMP, &right), Question::new(BUMP, &short));
    assert_eq!(refused(&[good, Question::new(9, &right), bad]), told(Some(1), Error::UnknownProgram));
    assert_eq!(refused(&[good, good, bad]), told(Some(2), Error::ArgumentLength));
    assert_eq!(refused(&[Question::new(PEEK, &right), good]), told(Some(0), Error::OtherMode));
    assert_eq!(lane.update_each(&[good; 5], &mut [Ok(Answer::default()); 5]), Err(QuestionRefused { question: None, why: Error::BadCall }));
    assert_eq!(lane.poll_each(&mut room()), Err(Error::NothingPosted));
    assert_eq!(store.attach(0)?.read(PEEK, &right)?, answer(0, 0));
    Ok(())
}

#[test]
fn a_lane_has_free_slots_or_is_none() -> Result<(), Error> {
    let store = counter(Config::new(1, 3));
    let session = store.attach(0)?;
    assert_eq!(store.attach_lane(0, 3).err(), Some(Error::NoSession));
    assert_eq!(store.attach_lane(0, 0).err(), Some(Error::BadCall));
    assert_eq!(store.attach_lane(0, MOST_SLOTS as u32 + 1).err(), Some(Error::BadCall));
    drop(session);
    let lane = store.attach_lane(0, 3)?;
    assert_eq!(store.attach(0).err(), Some(Error::NoSession));
    drop(lane);
    store.attach(0).map(drop)
}

#[test]
fn a_list_meets_the_end_of_the_history() -> Result<(), Error> {
    let store = counter(Config::new(1, 4).limit(3));
    let mut lane = store.attach_lane(0, 4)?;
    let one = key(1);
    let mut answers = room();
    lane.update_each(&[Question::new(BUMP, &one); 4], &mut answers)?;
    assert_eq!(answers, [Ok(answer(0, 1)), Ok(answer(1, 2)), Ok(answer(2, 3)), Err(Error::Full)]);
    Ok(())
}

/// Lanes of four threads, which are in each other's way, on two nodes: each update of each list is made once.
#[test]
fn lists_beside_others() -> Result<(), Error> {
    let store = Arc::new(counter(Config::new(2, 8)));
    let posted = Arc::new(AtomicU64::new(0));
    let threads = [0, 1, 0, 1].map(|node| {
        let mut lane = store.attach_lane_shared(node, 4).expect("there is one for each");
        let posted = Arc::clone(&posted);
        thread::spawn(move || {
            let one = key(1);
            let (calls, mut answers) = ([Question::new(BUMP, &one); 4], room());
            for round in 0..2_000 {
                let mut told = TriedEach::Busy;
                while round % 2 == 0 && told == TriedEach::Busy {
                    told = lane.try_update_each(&calls, &mut answers).expect("the history has no end");
                }
                match told {
                    TriedEach::Posted => {
                        posted.fetch_add(1, Ordering::Relaxed);
                        assert_eq!(lane.update_each(&calls, &mut answers).map_err(Error::from), Err(Error::Unanswered));
                        lane.wait_each(&mut answers).expect("the history has no end");
                    }
                    TriedEach::Busy => lane.update_each(&calls, &mut answers).expect("the history has no end"),
                    _ => {}
                }
                let points = answers.map(|it| it.expect("the history has no end").point);
                assert!(points.windows(2).all(|it| it[0] < it[1]));
            }
        })
    });
    for thread in threads {
        thread.join().expect("it ends");
    }
    assert_eq!(store.attach(0)?.read(PEEK, &key(1))?, answer(32_000, 32_000));
    Ok(())
}

/// A lane that is dropped while its list is out is given back once that is answered.
#[test]
fn a_posted_list_is_made() -> Result<(), Error> {
    let store = counter(Config::new(1, 6));
    let mut made = 0;
    thread::scope(|scope| {
        for _ in 0..2 {
            scope.spawn(|| {
                let mut session = store.attach(0).expect("there is one for each");
                (0..20_000).for_each(|_| assert!(session.update(BUMP, &key(4)).is_ok()));
            });
        }
        let one = key(3);
        for _ in 0..1_000 {
            let mut lane = store.attach_lane(0, 4).expect("it was given back");
            let told = lane.try_update_each(&[Question::new(BUMP, &one); 4], &mut room()).expect("the history has no end");
            made += if told == TriedEach::Busy { 0 } else { 4 };
        }
    });
    assert_eq!(store.attach(0)?.read(PEEK, &key(3))?.reply, made);
    Ok(())
}
