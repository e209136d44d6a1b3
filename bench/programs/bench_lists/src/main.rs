//! A store without an end for another program to time, whose threads ask for updates one at a time or by the list: see bench/. Its words are the
//! number of nodes, the threads of each node, the slots of each thread, the log's window, and the number of entries of a map of counters. Each
//! line of standard input is `invoke N`, `update N` or `each N`. Each thread makes so many updates, on a thread of its own, in lists of as many
//! as it has slots if the word is `each`, and else one after another by its first session. Then 0 is written.
#![tactic(auto)]

ghost use Rattle.std.specs.Prelude.{◌≡◌, ◌<◌, ◌≤◌, length, All, IfSome};
ghost use Rattle.store.specs.Opening.{AreOf};
ghost use Rattle.store.specs.Sessions.{IsOf};

use loader::{Catalogue, load_manifest};
use oplog::{ENDLESS, Sizes};
use std::alloc::Global;
use std::process::ExitCode;
use std::sync::Wait;
use std::thread;
use std::thread::Threads;
use store::{Answer, NotJoined, Pipeline, Polled, Question, Session, Store, StoreRefused};

// Adds one to a counter, and replies what it is then.
const BUMP: &str =
    "bf12000000000000 1851000000000000 0000000000000000 8500000001000000 1500050000000000 7906000000000000 0706000001000000 7b60000000000000 bf60000000000000 9500000000000000 b7000000ffffffff 9500000000000000";

// The most slots of a thread: as many as a node has.
const MOST: usize = 16;

// The sizes of a store and of its map, and how its slots are given to threads.
#[derive(Clone, Copy)]
struct Layout {
    nodes: u32,
    threads: u32,
    list: u32,
    window: u32,
    entries: u32,
}

// How updates are asked for.
#[derive(Clone, Copy, PartialEq, Eq)]
enum Way {
    Invoke,
    Update,
    Each,
}

// Updates of each thread.
#[derive(Clone, Copy)]
struct Work {
    way: Way,
    times: u64,
}

// The sizes that the words of a command line say, the first of them the program's name.
fn layout_in(words: &[String]) -> Option<Layout> {
    let [_, nodes, threads, list, window, entries] = words else {
        return None;
    };
    Some(Layout {
        nodes: nodes.parse().ok()?,
        threads: threads.parse().ok()?,
        list: list.parse().ok()?,
        window: window.parse().ok()?,
        entries: entries.parse().ok()?,
    })
}

fn catalogue(alloc: Global, entries: u32) -> Option<Catalogue> {
    let manifest = format!(in alloc;
        "map array 8 {entries}\nprogram bump update 4 bump.hex\n"
    ).ok()?;
    load_manifest(alloc, manifest.as_str(), &[("bump.hex", BUMP)]).ok()
}

// The argument of update i: each of the first 64 counters in turn.
fn argument(i: u64) -> [u8; 4] {
    [(i % 64) as u8, 0, 0, 0]
}

// Makes the updates of a session, one after another.
fn update_often<R: Wait>(rt: &R, store: &Store, session: &mut Session, work: Work)
    requires own { IsOf store.now session.old }
    ensures own { IsOf store.now session.new }
{
    for i in 0..work.times {
        let _answer = match work.way {
            Way::Invoke => session.invoke(rt, store, 0, &argument(i)),
            Way::Update | Way::Each => session.update(rt, store, 0, &argument(i)),
        };
    }
}

// Makes at least so many updates of a pipeline, in lists of as many as it has sessions.
fn update_by_lists<R: Wait>(rt: &R, store: &Store, pipeline: &mut Pipeline, times: u64)
    requires own { AreOf store.now pipeline.old }
    ensures own { AreOf store.now pipeline.new }
{
    let mut answers = [Err(StoreRefused::Ended); MOST];
    let mut made = 0;
    for _ in rt.forever() {
        let list = pipeline.len();
        if times <= made || MOST < list {
            return;
        }
        ask_each(rt, store, pipeline, made, &mut answers[..list]);
        made = made.saturating_add(list as u64);
    }
    unreachable!()
}

// One list of updates, the first of them after so many others.
fn ask_each<R: Wait>(
    rt: &R,
    store: &Store,
    pipeline: &mut Pipeline,
    made: u64,
    answers: &mut [Result<Answer, StoreRefused>],
)
    requires own { AreOf store.now pipeline.old }
    requires room { length answers.old ≡ length pipeline.old }
    requires few { length pipeline.old ≤ MOST }
    ensures own { AreOf store.now pipeline.new }
    ensures count { length pipeline.new ≡ length pipeline.old }
{
    let mut arguments = [[0; 4]; MOST];
    for number in 0..answers.len() {
        arguments[number] = argument(made.wrapping_add(number as u64));
    }
    let none = Question {
        program: 0,
        argument: &[],
    };
    let mut calls = [none; MOST];
    for number in 0..answers.len() {
        calls[number] = Question {
            program: 0,
            argument: &arguments[number],
        };
    }
    let count = answers.len();
    let _asked = pipeline.invoke_each(rt, store, &calls[..count], answers);
}

// Lets each session make its updates, on a thread of its own.
fn update_all<R: Threads + Wait + Sync>(rt: &R, store: &Store, sessions: &mut [Session], work: Work)
    requires own { All (IsOf store.now) sessions.old }
    ensures own { All (IsOf store.now) sessions.new }
{
    let threads = sessions.len();
    if threads == 0 {
        return;
    }
    thread::for_each_mut(
        rt,
        sessions,
        threads,
        &|_number: usize, session: &mut Session|
            requires { IsOf store.now session.now }
            ensures { IsOf store.entry.now session.exit.now }
        { update_often(rt, store, session, work) },
    );
}

// Lets each pipeline make its updates, on a thread of its own.
fn update_all_by_lists<R: Threads + Wait + Sync>(
    rt: &R,
    store: &Store,
    pipelines: &mut [Pipeline],
    times: u64,
)
    requires own { All (AreOf store.now) pipelines.old }
    ensures own { All (AreOf store.now) pipelines.new }
{
    let threads = pipelines.len();
    if threads == 0 {
        return;
    }
    thread::for_each_mut(
        rt,
        pipelines,
        threads,
        &|_number: usize, pipeline: &mut Pipeline|
            requires { AreOf store.now pipeline.now }
            ensures { AreOf store.entry.now pipeline.exit.now }
        { update_by_lists(rt, store, pipeline, times) },
    );
}

// What a line asks for.
fn work_in(line: &str) -> Option<Work> {
    let (word, times) = line.split_once(' ')?;
    let way = match word {
        "invoke" => Way::Invoke,
        "update" => Way::Update,
        "each" => Way::Each,
        _ => return None,
    };
    let times = times.parse().ok()?;
    Some(Work { way, times })
}

// Lets sessions go.
fn let_go(mut sessions: Vec<Session>) {
    while let Some(session) = sessions.pop() {
        drop(Polled::new(session));
    }
    sessions.destroy_empty();
}

// Lets pipelines go.
fn let_all_go(mut pipelines: Vec<Pipeline>) {
    while let Some(pipeline) = pipelines.pop() {
        let_go(pipeline.into_sessions());
    }
    pipelines.destroy_empty();
}

// The first so many of the sessions, in a list of their own. None if there are fewer, or no memory.
fn first_of(
    alloc: Global,
    store: &Store,
    sessions: &mut Vec<Session>,
    count: usize,
) -> Option<Vec<Session>>
    requires own { All (IsOf store.now) sessions.old.items }
    ensures own { All (IsOf store.now) sessions.new.items }
    ensures first { IfSome result (λ v. All (IsOf store.now) v.items) }
{
    if sessions.len() < count {
        return None;
    }
    let mut first = Vec::with_capacity(alloc, count).ok()?;
    for _ in 0..count {
        if sessions.is_empty() || first.capacity() <= first.len() {
            break;
        }
        first.push_reserved(sessions.remove(0));
    }
    Some(first)
}

// The pipelines of these sessions, of so many each; fewer if memory is lacking.
fn pipelines_of(
    alloc: Global,
    store: &Store,
    mut sessions: Vec<Session>,
    list: usize,
) -> Vec<Pipeline>
    requires own { All (IsOf store.now) sessions.items }
    ensures own { All (AreOf store.now) result.items }
{
    let Ok(mut made) = Vec::with_capacity(alloc, sessions.len()) else {
        let_go(sessions);
        return Vec::new(alloc);
    };
    for _ in 0..sessions.len() {
        if made.capacity() <= made.len() {
            break;
        }
        let Some(first) = first_of(alloc, store, &mut sessions, list) else {
            break;
        };
        match Pipeline::of(alloc, store, first) {
            Ok(pipeline) => made.push_reserved(pipeline),
            Err(
                NotJoined {
                    sessions,
                    refused: _refused,
                },
            ) => let_go(sessions),
        }
    }
    let_go(sessions);
    made
}

// Answers each line, up to the first that asks for nothing: the sessions make their updates.
fn serve<R: Threads + Wait + Sync + Input + Print>(
    rt: &R,
    alloc: Global,
    store: &Store,
    sessions: &mut [Session],
)
    requires own { All (IsOf store.now) sessions.old }
    ensures own { All (IsOf store.now) sessions.new }
{
    for line in rt.lines(alloc) {
        let Ok(line) = line else { return };
        let Some(work) = work_in(line.as_str()) else {
            return;
        };
        update_all(rt, store, sessions, work);
        let Ok(()) = println!(rt; "0") else { return };
    }
}

// The same by pipelines.
fn serve_by_lists<R: Threads + Wait + Sync + Input + Print>(
    rt: &R,
    alloc: Global,
    store: &Store,
    pipelines: &mut [Pipeline],
)
    requires own { All (AreOf store.now) pipelines.old }
    ensures own { All (AreOf store.now) pipelines.new }
{
    for line in rt.lines(alloc) {
        let Ok(line) = line else { return };
        let Some(work) = work_in(line.as_str()) else {
            return;
        };
        update_all_by_lists(rt, store, pipelines, work.times);
        let Ok(()) = println!(rt; "0") else { return };
    }
}

// Opens a store, and serves; tells whether it could be opened.
fn run<R: Threads + Wait + Sync + Input + Print>(rt: &R, alloc: Global, layout: Layout) -> bool {
    let Some(catalogue) = catalogue(alloc, layout.entries) else {
        return false;
    };
    let Some(slots) = layout.threads.checked_mul(layout.list) else {
        return false;
    };
    let sizes = Sizes {
        nodes: layout.nodes,
        slots,
        window: layout.window,
        spare: 0,
        long: 0,
        limit: ENDLESS,
    };
    let Ok((store, mut sessions)) = Store::open_sized(alloc, sizes, catalogue) else {
        return false;
    };
    if layout.list == 1 {
        serve(rt, alloc, &store, &mut sessions);
        let_go(sessions);
    } else {
        let mut pipelines = pipelines_of(alloc, &store, sessions, layout.list as usize);
        serve_by_lists(rt, alloc, &store, &mut pipelines);
        let_all_go(pipelines);
    }
    true
}

fn main(rt: HostRuntime) -> ExitCode {
    let Ok(args) = std::env::args(&rt) else {
        return ExitCode::FAILURE;
    };
    let words: Vec<String> = match args.collect(rt.alloc()) {
        Ok(words) => words,
        Err(_) => return ExitCode::FAILURE,
    };
    match layout_in(words.as_slice()) {
        Some(layout) if run(&rt, rt.alloc(), layout) => ExitCode::SUCCESS,
        _ => ExitCode::FAILURE,
    }
}
