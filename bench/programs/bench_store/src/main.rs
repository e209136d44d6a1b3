//! A store without an end for another program to time: see bench/. Its words are the numbers of nodes and of slots of each node, the log's window,
//! the number of entries of a map of counters, and the bytes of each value of a second map of as many entries; a sixth, which may be left out, is the
//! number of entries of a hash. Each line of standard input is `update N` or `read N`: the first session makes so many calls, one after another, and
//! the sum of their replies, modulo 2^64, is written. So it is with `put N`, which puts the keys below N into the hash. `scan N` scans the hash so
//! often from its first place to its last, 16 entries a call, and writes the sum of the keys and values that were given. Or it is `threads R N`: each
//! session makes so many calls on a thread of its own, R of 100 of them reads, and 0 is written. So it is with `busy K R N`, where the first K
//! sessions alone make calls, and with `beside P K R N`, where another one takes snapshots meanwhile, with P looks at the others between two: their
//! number is written. `snapshot N`: the first session takes so many, and 0 is written. At the first line `reopen N` the store is closed, and a store is opened on the state that it ends in, which
//! goes on; 0 is written.
#![tactic(auto)]

ghost use Rattle.std.specs.Prelude.{◌≡◌, length, All};
ghost use Rattle.store.specs.Sessions.{IsOf};
ghost use Rattle.store_steps.specs.Shelving.{sessions_of};

#[cfg(test)]
mod tests;

use loader::{Catalogue, StoreState, load_manifest};
use oplog::{ENDLESS, Sizes};
use std::alloc::Global;
use std::hint::spin_loop;
use std::process::ExitCode;
use std::sync::Wait;
use std::sync::atomic::{AtomicU64, Ordering};
use std::thread;
use std::thread::Threads;
use store::{Beginning, Closed, Session, Store};

// Adds one to a counter, and replies what it is then.
const BUMP: &str =
    "bf12000000000000 1851000000000000 0000000000000000 8500000001000000 1500050000000000 7906000000000000 0706000001000000 7b60000000000000 bf60000000000000 9500000000000000 b7000000ffffffff 9500000000000000";

// Replies what a counter is.
const PEEK: &str =
    "bf12000000000000 1851000000000000 0000000000000000 8500000001000000 1500020000000000 7900000000000000 9500000000000000 b7000000ffffffff 9500000000000000";

// Puts a key into the hash, with itself as its value.
const PUT: &str =
    "bf12000000000000 bf13000000000000 1851000002000000 0000000000000000 b704000000000000 8500000002000000 9500000000000000";

// The number of the hash among the maps, and of its program.
const HASH: usize = 2;

const PUT_NUMBER: u16 = 2;

// How many entries a scan of the hash gives.
const PAGE: usize = 16;

// The sizes of a store and its maps; of the hash, where there is one.
#[derive(Drop)]
struct Layout {
    nodes: u32,
    slots: u32,
    window: u32,
    entries: u32,
    value: u32,
    keys: Option<u32>,
}

// Calls of a session: so many, and how many of 100 of them are reads.
#[derive(Clone, Copy)]
struct Mix {
    reads: u64,
    times: u64,
}

// Such calls of each of the first so many sessions, and whether the one behind them takes snapshots meanwhile, with so many looks between two.
#[derive(Clone, Copy)]
struct Crowd {
    busy: usize,
    mix: Mix,
    takes: bool,
    pause: u32,
}

// How many of the busy sessions are not done yet, and how many snapshots were taken.
#[derive(Drop)]
struct Counts {
    pause: u32,
    left: AtomicU64,
    taken: AtomicU64,
}

// The sizes that the words of a command line say, the first of them the program's name.
fn layout_in(words: &[String]) -> Option<Layout> {
    let (words, keys) = match words {
        [_, nodes, slots, window, entries, value] => ([nodes, slots, window, entries, value], None),
        [_, nodes, slots, window, entries, value, keys] => {
            (
                [nodes, slots, window, entries, value],
                Some(keys.parse().ok()?),
            )
        }
        _ => return None,
    };
    let [nodes, slots, window, entries, value] = words;
    Some(Layout {
        nodes: nodes.parse().ok()?,
        slots: slots.parse().ok()?,
        window: window.parse().ok()?,
        entries: entries.parse().ok()?,
        value: value.parse().ok()?,
        keys,
    })
}

// The manifest of such a store: the hash stands behind the arrays, and its program behind theirs.
fn manifest(alloc: Global, layout: &Layout) -> Option<String> {
    let (entries, value) = (layout.entries, layout.value);
    let arrays = format!(in alloc; "map array 8 {entries}\nmap array {value} {entries}\n").ok()?;
    let programs = "program bump update 4 bump.hex\nprogram peek read 4 peek.hex\n";
    match layout.keys {
        None => format!(in alloc; "{arrays}{programs}").ok(),
        Some(keys) => format!(in alloc;
            "{arrays}map hash 4 4 {keys}\n{programs}program put update 4 put.hex\n"
        ).ok(),
    }
}

fn catalogue(alloc: Global, layout: &Layout) -> Option<Catalogue> {
    let manifest = manifest(alloc, layout)?;
    let files = [("bump.hex", BUMP), ("peek.hex", PEEK), ("put.hex", PUT)];
    load_manifest(alloc, manifest.as_str(), &files).ok()
}

// The argument of call i: each of the first 64 counters in turn.
fn argument(i: u64) -> [u8; 4] {
    [(i % 64) as u8, 0, 0, 0]
}

// Makes the calls of a session, one after another, and adds up their replies, modulo 2^64. None where one is refused.
fn call_often<R: Wait>(rt: &R, store: &Store, session: &mut Session, mix: Mix) -> Option<u64>
    requires own { IsOf store.now session.old }
    ensures own { IsOf store.now session.new }
{
    let mut sum = 0u64;
    for i in 0..mix.times {
        let reply = if i % 100 < mix.reads {
            session.read(rt, store, 1, &argument(i)).ok()?.reply
        } else {
            session.invoke(rt, store, 0, &argument(i)).ok()?.reply
        };
        sum = sum.wrapping_add(reply);
    }
    Some(sum)
}

// Puts so many keys into the hash, and adds up the replies: 0 where there is room for them.
fn put_each<R: Wait>(rt: &R, store: &Store, session: &mut Session, keys: u32) -> Option<u64>
    requires own { IsOf store.now session.old }
    ensures own { IsOf store.now session.new }
{
    let mut sum = 0u64;
    for key in 0..keys {
        let told = session.invoke(rt, store, PUT_NUMBER, &key.to_le_bytes());
        sum = sum.wrapping_add(told.ok()?.reply);
    }
    Some(sum)
}

// The sum of the first so many of these numbers of four bytes.
fn total(numbers: &[u8], count: usize) -> u64 {
    let mut sum = 0u64;
    for number in numbers.as_chunks::<4>().0.iter().take(count) {
        sum = sum.wrapping_add(u32::from_le_bytes(*number) as u64);
    }
    sum
}

// Scans the hash from its first place to its last, and adds up the keys and values that are given.
fn scan_whole<R: Wait>(rt: &R, store: &Store, session: &mut Session) -> Option<u64>
    requires own { IsOf store.now session.old }
    ensures own { IsOf store.now session.new }
{
    let (mut keys, mut values) = ([0; 4 * PAGE], [0; 4 * PAGE]);
    let (mut from, mut sum) = (0, 0u64);
    for _ in rt.forever() {
        let begin = Beginning { map: HASH, from };
        let told = session.scan(rt, store, begin, &mut keys, &mut values);
        let page = told.ok()?;
        sum = sum.wrapping_add(total(&keys, page.count));
        sum = sum.wrapping_add(total(&values, page.count));
        match page.next {
            Some(next) => from = next,
            None => return Some(sum),
        }
    }
    unreachable!()
}

// The same so often.
fn scan_often<R: Wait>(rt: &R, store: &Store, session: &mut Session, times: u32) -> Option<u64>
    requires own { IsOf store.now session.old }
    ensures own { IsOf store.now session.new }
{
    let mut sum = 0u64;
    for _ in 0..times {
        sum = sum.wrapping_add(scan_whole(rt, store, session)?);
    }
    Some(sum)
}

// Takes so many snapshots.
fn take_often<R: Wait>(
    rt: &R,
    alloc: Global,
    store: &Store,
    session: &mut Session,
    times: u32,
) -> Option<u64>
    requires own { IsOf store.now session.old }
    ensures own { IsOf store.now session.new }
{
    let mut state = StoreState::open(alloc, store.catalogue()).ok()?;
    for _ in 0..times {
        session.snapshot(rt, store, &mut state);
    }
    Some(0)
}

// Takes snapshots until the busy sessions are done, and looks so often between two of them whether they are.
fn take_beside<R: Wait>(
    rt: &R,
    alloc: Global,
    store: &Store,
    session: &mut Session,
    counts: &Counts,
)
    requires own { IsOf store.now session.old }
    ensures own { IsOf store.now session.new }
{
    let Ok(mut state) = StoreState::open(alloc, store.catalogue()) else {
        return;
    };
    for _ in rt.forever() {
        if counts.left.load(Ordering::SeqCst) == 0 {
            return;
        }
        session.snapshot(rt, store, &mut state);
        counts.taken.fetch_add(1, Ordering::SeqCst);
        for _ in 0..counts.pause {
            if counts.left.load(Ordering::SeqCst) == 0 {
                return;
            }
            spin_loop();
        }
    }
}

// Lets each session that is busy make its calls, on a thread of its own. How many snapshots were taken.
fn call_all<R: Threads + Wait + Sync>(
    rt: &R,
    alloc: Global,
    store: &Store,
    sessions: &mut [Session],
    crowd: Crowd,
) -> u64
    requires own { All (IsOf store.now) sessions.old }
    ensures own { All (IsOf store.now) sessions.new }
{
    let threads = sessions.len();
    if threads == 0 {
        return 0;
    }
    let counts = Counts {
        left: AtomicU64::new(crowd.busy.min(threads) as u64),
        taken: AtomicU64::new(0),
        pause: crowd.pause,
    };
    thread::for_each_mut(
        rt,
        sessions,
        threads,
        &|number: usize, session: &mut Session|
            requires { IsOf store.now session.now }
            ensures { IsOf store.entry.now session.exit.now }
        {
            if number < crowd.busy {
                let _sum = call_often(rt, store, session, crowd.mix);
                counts.left.fetch_sub(1, Ordering::SeqCst);
            } else if crowd.takes && number == crowd.busy {
                take_beside(rt, alloc, store, session, &counts);
            }
        },
    );
    counts.taken.load(Ordering::SeqCst)
}

// What the first session is asked for: so many updates, reads, keys of the hash, or scans of it.
fn first_answer<R: Wait>(rt: &R, store: &Store, sessions: &mut [Session], line: &str) -> Option<u64>
    requires own { All (IsOf store.now) sessions.old }
    ensures own { All (IsOf store.now) sessions.new }
{
    let (word, times) = line.split_once(' ')?;
    let times: u64 = times.parse().ok()?;
    let session = sessions.first_mut()?;
    let reads = match word {
        "update" => 0,
        "read" => 100,
        "put" => return put_each(rt, store, session, u32::try_from(times).ok()?),
        "scan" => return scan_often(rt, store, session, u32::try_from(times).ok()?),
        _ => return None,
    };
    call_often(rt, store, session, Mix { reads, times })
}

// The calls that a line asks all sessions for.
fn mix_in(line: &str) -> Option<Mix> {
    let (reads, times) = line.split_once(' ')?;
    Some(Mix {
        reads: reads.parse().ok()?,
        times: times.parse().ok()?,
    })
}

// The calls that a line asks the sessions for, some of them or all; none where it asks for others.
fn crowd_in(line: &str, sessions: usize) -> Option<Crowd> {
    let (word, rest) = line.split_once(' ')?;
    let takes = word == "beside";
    let (pause, rest) = if takes {
        let (pause, rest) = rest.split_once(' ')?;
        (pause.parse().ok()?, rest)
    } else {
        (0, rest)
    };
    let (busy, rest) = match word {
        "threads" => (sessions, rest),
        "busy" | "beside" => {
            let (busy, rest) = rest.split_once(' ')?;
            (busy.parse().ok()?, rest)
        }
        _ => return None,
    };
    let mix = mix_in(rest)?;
    Some(Crowd {
        busy,
        mix,
        takes,
        pause,
    })
}

// What a line asks for; none where it asks for nothing, or a call is refused.
fn answer<R: Threads + Wait + Sync>(
    rt: &R,
    alloc: Global,
    store: &Store,
    sessions: &mut [Session],
    line: &str,
) -> Option<u64>
    requires own { All (IsOf store.now) sessions.old }
    ensures own { All (IsOf store.now) sessions.new }
{
    if let Some(times) = line.strip_prefix("snapshot ") {
        let session = sessions.first_mut()?;
        return take_often(rt, alloc, store, session, times.parse().ok()?);
    }
    match crowd_in(line, sessions.len()) {
        Some(crowd) => Some(call_all(rt, alloc, store, sessions, crowd)),
        None => first_answer(rt, store, sessions, line),
    }
}

// Answers each line, up to the first that can't be answered, or that asks to reopen the store; tells whether one does.
fn serve<R: Threads + Wait + Sync + Input + Print>(
    rt: &R,
    alloc: Global,
    store: &Store,
    sessions: &mut [Session],
) -> bool
    requires own { All (IsOf store.now) sessions.old }
    ensures own { All (IsOf store.now) sessions.new }
{
    for line in rt.lines(alloc) {
        let Ok(line) = line else { return false };
        if line.as_str().starts_with("reopen ") {
            return true;
        }
        let Some(answered) = answer(rt, alloc, store, sessions, line.as_str()) else {
            return false;
        };
        let Ok(()) = println!(rt; "{answered}") else {
            return false;
        };
    }
    false
}

// Ends the store, once its sessions are back.
fn close(store: Store, sessions: Vec<Session>) -> Closed
    requires own { All (IsOf store) sessions.items }
    requires all { length sessions.items ≡ sessions_of store.config }
{
    match store.close(sessions) {
        Ok(closed) => closed,
        Err(_) => unreachable!(),
    }
}

// Serves in a store on the state that another ended in; tells whether it could be opened.
fn go_on<R: Threads + Wait + Sync + Input + Print>(
    rt: &R,
    alloc: Global,
    sizes: Sizes,
    closed: Closed,
) -> bool {
    let (state, catalogue) = closed.into_state();
    let Ok((store, mut sessions)) = Store::open_sized_on(alloc, sizes, catalogue, &state) else {
        return false;
    };
    let _written = println!(rt; "0");
    let _asks_again = serve(rt, alloc, &store, &mut sessions);
    let _closed = close(store, sessions);
    true
}

// Opens a store, and serves; tells whether it could be opened.
fn run<R: Threads + Wait + Sync + Input + Print>(rt: &R, alloc: Global, layout: &Layout) -> bool {
    let Some(catalogue) = catalogue(alloc, layout) else {
        return false;
    };
    let sizes = Sizes {
        nodes: layout.nodes,
        slots: layout.slots,
        window: layout.window,
        limit: ENDLESS,
        spare: 0,
        long: 0,
    };
    let Ok((store, mut sessions)) = Store::open_sized(alloc, sizes, catalogue) else {
        return false;
    };
    let asks = serve(rt, alloc, &store, &mut sessions);
    let closed = close(store, sessions);
    !asks || go_on(rt, alloc, sizes, closed)
}

fn main(rt: HostRuntime) -> ExitCode {
    let words: Option<Vec<String>> = match std::env::args(&rt) {
        Ok(args) => args.collect(rt.alloc()).ok(),
        Err(_) => None,
    };
    let Some(words) = words else {
        return ExitCode::FAILURE;
    };
    match layout_in(words.as_slice()) {
        Some(layout) if run(&rt, rt.alloc(), &layout) => ExitCode::SUCCESS,
        _ => ExitCode::FAILURE,
    }
}
