//! What a store says of itself: of its maps, its programs, its sizes, and what it has done.

use crate::error::check;
use crate::session::{unless_busy, Session};
use crate::{sys, Error, Mode, Store};
use std::ffi::CStr;
use std::mem::size_of;

/// The kind and the sizes of a map.
#[derive(Clone, Copy, Debug, PartialEq, Eq, Hash)]
pub struct MapShape {
    /// Whether it is an array, whose keys are its indexes in 4 bytes, the low one first; else it is a hash.
    pub is_array: bool,
    /// How many bytes a key has.
    pub key: usize,
    /// How many bytes a value has.
    pub value: usize,
    /// How many entries it has room for.
    pub entries: u32,
}

/// What a map is.
#[derive(Clone, Copy, Debug, PartialEq, Eq, Hash)]
#[non_exhaustive]
pub struct MapInfo {
    /// How many updates the map had seen.
    pub point: u64,
    /// Its kind and its sizes.
    pub shape: MapShape,
    /// How many keys it has. An array always has all of its keys.
    pub keys: u64,
}

impl MapInfo {
    fn of(told: sys::nrbpf_map_facts) -> MapInfo {
        let sys::nrbpf_map_facts { point, keys, entries, kind, key_len, value_len } = told;
        // (a map has at most 2^31 entries)
        let entries = u32::try_from(entries).unwrap_or(u32::MAX);
        let shape = MapShape { is_array: kind == sys::NRBPF_MAP_ARRAY, key: key_len as usize, value: value_len as usize, entries };
        MapInfo { point, shape, keys }
    }
}

/// What the program of a number is.
#[derive(Clone, Debug, PartialEq, Eq, Hash)]
#[non_exhaustive]
pub struct ProgramInfo {
    /// How many updates were seen.
    pub point: u64,
    /// Whether the number is that of a spare place, and not of a program of the manifest.
    pub is_place: bool,
    /// Its name in the manifest. An installed program has none.
    pub name: Option<String>,
    /// The facts of the program. `None` if nothing is installed at the place.
    pub facts: Option<ProgramFacts>,
}

/// The facts of a program.
#[derive(Clone, Copy, Debug, PartialEq, Eq, Hash)]
#[non_exhaustive]
pub struct ProgramFacts {
    /// Whether it may change the maps that it names.
    pub mode: Mode,
    /// How many bytes its argument has.
    pub argument_len: u32,
    /// How many slots of 8 bytes it has.
    pub slots: u32,
    maps: u16,
}

impl ProgramFacts {
    /// The numbers of the maps that it names. It reads and changes no others.
    pub fn maps(self) -> impl Iterator<Item = u32> {
        (0..16).filter(move |map| self.maps >> map & 1 == 1)
    }
}

impl ProgramInfo {
    fn of(told: sys::nrbpf_program_facts) -> ProgramInfo {
        let mode = if told.mode == Mode::Update as u32 { Mode::Update } else { Mode::Read };
        let facts = ProgramFacts { mode, argument_len: told.argument_len, slots: told.slots, maps: told.maps };
        // SAFETY: a name has at most 32 bytes, and there is a zero after them.
        let name = unsafe { CStr::from_ptr(told.name.as_ptr()) }.to_string_lossy().into_owned();
        ProgramInfo {
            point: told.point,
            is_place: told.is_place != 0,
            name: (!name.is_empty()).then_some(name),
            facts: (told.is_there != 0).then_some(facts),
        }
    }
}

/// What a store is from its opening on.
#[derive(Clone, Copy, Debug, PartialEq, Eq, Hash)]
#[non_exhaustive]
pub struct StoreInfo {
    /// Its nodes.
    pub nodes: u32,
    /// The sessions of each.
    pub slots: u32,
    /// The updates that the log keeps.
    pub window: u32,
    /// The updates that the history may have, or [`ENDLESS`](crate::ENDLESS).
    pub limit: u32,
    /// The places for programs that are installed later.
    pub spare: u32,
    /// Its maps.
    pub maps: u32,
    /// The programs of its manifest. The numbers of the places come after theirs.
    pub programs: u32,
    /// The most bytes of an installed program, and of its argument, if that is more than the 192 and 64 that each may have.
    pub long_bytes: u32,
}

/// What a store has done, how far the session's node has come, and what the session was asked for.
#[derive(Clone, Copy, Debug, PartialEq, Eq, Hash)]
#[non_exhaustive]
pub struct Counts {
    /// How many updates of the history are completed. Each answered update is one of them.
    pub completed: u64,
    /// How many updates the history has.
    pub appended: u64,
    /// How many of these the log keeps. It keeps no more than its window.
    pub kept: u64,
    /// How many updates the maps of the session's node have seen.
    pub tail: u64,
    /// How many completed updates these maps have still to see.
    pub lag: u64,
    /// How many updates and installs this session was asked for. Reads are not counted.
    pub updates: u64,
    /// How many calls of this session waited for another session.
    pub waits: u64,
    /// How many batches of several updates this session combined: an update of its own, and others of its node that it took along.
    pub batches: u64,
    /// How many updates these batches had.
    pub batched: u64,
    /// How many updates the largest of them had.
    pub largest: u64,
    /// The session's node.
    pub node: u32,
}

impl Counts {
    fn of(told: sys::nrbpf_counts) -> Counts {
        let sys::nrbpf_counts { completed, appended, kept, tail, lag, updates, waits, batches, batched, largest, node } = told;
        Counts { completed, appended, kept, tail, lag, updates, waits, batches, batched, largest, node }
    }
}

impl Store {
    /// What it is from its opening on.
    pub fn info(&self) -> StoreInfo {
        let mut out = sys::nrbpf_store_facts::default();
        // SAFETY: the store is open as long as this value, and the struct is as long as the call is told.
        let status = unsafe { sys::nrbpf_store_info(self.as_ptr(), &mut out, size_of::<sys::nrbpf_store_facts>()) };
        assert_eq!(status, sys::NRBPF_OK, "no pointer is null");
        let sys::nrbpf_store_facts { nodes, slots, window, limit, spare, maps, programs, long_bytes } = out;
        StoreInfo { nodes, slots, window, limit, spare, maps, programs, long_bytes }
    }
}

impl Session<'_> {
    // (In each call: the session is attached and this thread's, and the struct is as long as the call is told.)

    /// What a map is, counted from 0 as the manifest has them: its shape, and how many keys it has.
    ///
    /// # Errors
    ///
    /// S9, and H3 while an update is posted.
    pub fn map_info(&mut self, map: u32) -> Result<MapInfo, Error> {
        let mut out = sys::nrbpf_map_facts::default();
        // SAFETY: as above.
        check(unsafe { sys::nrbpf_map_info(self.idle()?, map, &mut out, size_of::<sys::nrbpf_map_facts>()) })?;
        Ok(MapInfo::of(out))
    }

    /// As [`map_info`](Session::map_info), and waits for nobody: none if another session was in the way.
    ///
    /// # Errors
    ///
    /// The same.
    pub fn try_map_info(&mut self, map: u32) -> Result<Option<MapInfo>, Error> {
        let mut out = sys::nrbpf_map_facts::default();
        // SAFETY: as above.
        let status = unsafe { sys::nrbpf_try_map_info(self.idle()?, map, &mut out, size_of::<sys::nrbpf_map_facts>()) };
        Ok(unless_busy(status, sys::nrbpf_error::default())?.then(|| MapInfo::of(out)))
    }

    /// What the program of this number is.
    ///
    /// # Errors
    ///
    /// S1, and H3 while an update is posted.
    pub fn program_info(&mut self, program: u16) -> Result<ProgramInfo, Error> {
        let mut out = sys::nrbpf_program_facts::default();
        // SAFETY: as above.
        check(unsafe { sys::nrbpf_program_info(self.idle()?, program, &mut out, size_of::<sys::nrbpf_program_facts>()) })?;
        Ok(ProgramInfo::of(out))
    }

    /// As [`program_info`](Session::program_info), and waits for nobody: none if another session was in the way.
    ///
    /// # Errors
    ///
    /// The same.
    pub fn try_program_info(&mut self, program: u16) -> Result<Option<ProgramInfo>, Error> {
        let mut out = sys::nrbpf_program_facts::default();
        // SAFETY: as above.
        let status = unsafe { sys::nrbpf_try_program_info(self.idle()?, program, &mut out, size_of::<sys::nrbpf_program_facts>()) };
        Ok(unless_busy(status, sys::nrbpf_error::default())?.then(|| ProgramInfo::of(out)))
    }

    /// What the store has done, and how far the session's node has come: the first five counts are of one moment of the call. For the other nodes ask
    /// a session of each.
    ///
    /// # Errors
    ///
    /// H3 while an update is posted.
    pub fn stats(&mut self) -> Result<Counts, Error> {
        let mut out = sys::nrbpf_counts::default();
        // SAFETY: as above.
        check(unsafe { sys::nrbpf_stats(self.idle()?, &mut out, size_of::<sys::nrbpf_counts>()) })?;
        Ok(Counts::of(out))
    }

    /// As [`stats`](Session::stats), and waits for nobody: none if another session was in the way.
    ///
    /// # Errors
    ///
    /// The same.
    pub fn try_stats(&mut self) -> Result<Option<Counts>, Error> {
        let mut out = sys::nrbpf_counts::default();
        // SAFETY: as above.
        let status = unsafe { sys::nrbpf_try_stats(self.idle()?, &mut out, size_of::<sys::nrbpf_counts>()) };
        Ok(unless_busy(status, sys::nrbpf_error::default())?.then(|| Counts::of(out)))
    }
}
