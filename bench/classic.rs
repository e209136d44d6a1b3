//! Classic node replication (Calciu et al., ASPLOS 2017) in plain Rust, to compare with: a log without a lock, whose records are reserved
//! by an exchange of its tail; for each node a slot for each thread, of which a combiner takes what was posted, and a replica behind a
//! readers-writer lock. It runs the unchecked interpreter of this folder, on the maps of the other stores.

use crate::twins::{Caller, MAX_SLOTS, Maps, Programs, Record, Sizes, Twin, wait};
use std::cell::UnsafeCell;
use std::sync::RwLock;
use std::sync::atomic::{AtomicBool, AtomicU64, Ordering};

// A record of the log. `filled` is one more than its index, once it is there.
struct Entry {
    filled: AtomicU64,
    record: UnsafeCell<Record>,
}

// What a thread asks for, and what it is answered. It has a cache line of its own.
#[repr(align(64))]
struct Slot {
    stage: AtomicU64,
    argument: UnsafeCell<[u8; 4]>,
    reply: UnsafeCell<u64>,
}

const EMPTY: u64 = 0;
const POSTED: u64 = 1;
const ANSWERED: u64 = 2;

// A number with a cache line of its own.
#[repr(align(64))]
struct Apart<T>(T);

struct Node {
    combines: Apart<AtomicBool>,
    tail: Apart<AtomicU64>,
    lock: Apart<RwLock<()>>,
    maps: UnsafeCell<Maps>,
    slots: [Slot; MAX_SLOTS],
}

impl Node {
    fn new(sizes: Sizes) -> Node {
        let slot = |_| Slot { stage: AtomicU64::new(EMPTY), argument: UnsafeCell::new([0; 4]), reply: UnsafeCell::new(0) };
        Node {
            combines: Apart(AtomicBool::new(false)),
            tail: Apart(AtomicU64::new(0)),
            lock: Apart(RwLock::new(())),
            maps: UnsafeCell::new(Maps::new(sizes)),
            slots: std::array::from_fn(slot),
        }
    }
}

/// A log, and for each node a replica and slots.
pub struct Classic {
    programs: Programs,
    entries: Vec<Entry>,
    tail: Apart<AtomicU64>,
    done: Apart<AtomicU64>,
    nodes: Vec<Node>,
}

// A record is written by who reserved it before it is filled; maps are written under their lock, and a slot's argument and reply by who
// its stage says.
unsafe impl Sync for Classic {}

impl Classic {
    pub fn new(programs: Programs, sizes: Sizes, nodes: usize) -> Classic {
        let entry = |_| Entry { filled: AtomicU64::new(0), record: UnsafeCell::new(Record::new(0, 0, [0; 4])) };
        Classic {
            programs,
            entries: (0..sizes.window).map(entry).collect(),
            tail: Apart(AtomicU64::new(0)),
            done: Apart(AtomicU64::new(0)),
            nodes: (0..nodes).map(|_| Node::new(sizes)).collect(),
        }
    }

    fn entry(&self, index: u64) -> &Entry {
        &self.entries[index as usize % self.entries.len()]
    }

    // Brings a node's replica to that index at least, and keeps the replies from `first` on.
    fn replay(&self, node: &Node, upto: u64, first: u64, replies: &mut [u64]) {
        let _writes = node.lock.0.write().expect("no thread panics");
        let from = node.tail.0.load(Ordering::Acquire);
        let maps = unsafe { &mut *node.maps.get() };
        for index in from..upto.max(from) {
            let entry = self.entry(index);
            let mut turns = 0;
            while entry.filled.load(Ordering::Acquire) != index + 1 {
                turns += 1;
                wait(turns);
            }
            let reply = maps.run(&self.programs.bump, unsafe { &*entry.record.get() }.argument());
            if let Some(room) = index.checked_sub(first).and_then(|k| replies.get_mut(k as usize)) {
                *room = reply;
            }
            node.tail.0.store(index + 1, Ordering::Release);
        }
    }

    // Reserves so many records. Where the log has no room, each replica is brought up to what it lacks first.
    fn reserve(&self, count: u64) -> u64 {
        loop {
            let tail = self.tail.0.load(Ordering::Acquire);
            let least = self.nodes.iter().map(|node| node.tail.0.load(Ordering::Acquire)).min().expect("a node");
            if tail + count - least > self.entries.len() as u64 {
                self.nodes.iter().for_each(|node| self.replay(node, tail, 0, &mut []));
            } else if self.tail.0.compare_exchange(tail, tail + count, Ordering::AcqRel, Ordering::Relaxed).is_ok() {
                return tail;
            }
        }
    }

    // Appends what is posted at the node, applies it, and answers.
    fn combine(&self, at: usize) {
        let node = &self.nodes[at];
        let (mut taken, mut count) = ([0; MAX_SLOTS], 0);
        for (slot, posted) in node.slots.iter().enumerate() {
            if posted.stage.load(Ordering::Acquire) == POSTED {
                taken[count] = slot;
                count += 1;
            }
        }
        if count == 0 {
            return;
        }
        let first = self.reserve(count as u64);
        for (k, slot) in taken[..count].iter().enumerate() {
            let entry = self.entry(first + k as u64);
            let author = (at * MAX_SLOTS + slot) as u16;
            unsafe { *entry.record.get() = Record::new(author, first + k as u64, *node.slots[*slot].argument.get()) };
            entry.filled.store(first + k as u64 + 1, Ordering::Release);
        }
        let mut replies = [0; MAX_SLOTS];
        self.replay(node, first + count as u64, first, &mut replies[..count]);
        self.done.0.fetch_max(first + count as u64, Ordering::AcqRel);
        for (slot, reply) in taken[..count].iter().zip(replies) {
            unsafe { *node.slots[*slot].reply.get() = reply };
            node.slots[*slot].stage.store(ANSWERED, Ordering::Release);
        }
    }
}

impl Twin for Classic {
    fn update(&self, caller: Caller, argument: [u8; 4]) -> u64 {
        let node = &self.nodes[caller.node];
        let slot = &node.slots[caller.slot];
        unsafe { *slot.argument.get() = argument };
        slot.stage.store(POSTED, Ordering::Release);
        let mut turns = 0;
        while slot.stage.load(Ordering::Acquire) != ANSWERED {
            if !node.combines.0.load(Ordering::Relaxed) && !node.combines.0.swap(true, Ordering::Acquire) {
                self.combine(caller.node);
                node.combines.0.store(false, Ordering::Release);
            } else {
                turns += 1;
                wait(turns);
            }
        }
        slot.stage.store(EMPTY, Ordering::Relaxed);
        unsafe { *slot.reply.get() }
    }

    fn read(&self, caller: Caller, argument: [u8; 4]) -> u64 {
        let node = &self.nodes[caller.node];
        let done = self.done.0.load(Ordering::Acquire);
        if node.tail.0.load(Ordering::Acquire) < done {
            self.replay(node, done, 0, &mut []);
        }
        let _reads = node.lock.0.read().expect("no thread panics");
        unsafe { &mut *node.maps.get() }.run(&self.programs.peek, &argument)
    }
}
