//! Stores, which all threads share, and their sizes.

use crate::error::{check, check_with};
use crate::posted::Posts;
use crate::{sys, Error, Lane, Manifest, MapShape, Session, State};
use std::fmt;
use std::mem::ManuallyDrop;
use std::ptr::{null_mut, NonNull};
use std::sync::Arc;

/// No end of a history.
pub const ENDLESS: u32 = 0;

/// How large the maps of a manifest and the arguments of its programs may be, of [`Limits::STANDARD`] or [`Limits::LARGE`]. A host that loads others'
/// manifests may make them narrower.
#[derive(Clone, Copy, Debug, PartialEq, Eq, Hash)]
#[non_exhaustive]
pub struct Limits {
    /// The most bytes of a key, 4 to 64.
    pub key: u32,
    /// The most bytes of a value, 1 to 16,384.
    pub value: u32,
    /// The most entries of a map, 1 to 2^31.
    pub entries: u64,
    /// The most bytes of all maps, 1 to 2^40.
    pub bytes: u64,
    /// The most bytes of an argument, 1 to 16,384.
    pub argument: u32,
}

impl Limits {
    /// Values of 256 bytes, maps of 65,536 entries, 16 MiB of all maps, and arguments of 64 bytes.
    pub const STANDARD: Limits = Limits { key: 64, value: 256, entries: 65_536, bytes: 16_777_216, argument: 64 };

    /// Values of 16,384 bytes, maps of 2^31 entries, 2^40 bytes of all maps, and arguments of 16,384 bytes.
    pub const LARGE: Limits = Limits { key: 64, value: 16_384, entries: 2_147_483_648, bytes: 1_099_511_627_776, argument: 16_384 };
}

/// The sizes of a store, of [`Config::new`]. A later version may have more of them, so no literal makes one:
///
/// ```compile_fail,E0639
/// let config = nrbpf::Config { nodes: 2, slots: 4, window: 64, limit: nrbpf::ENDLESS, spare: 0 };
/// ```
#[derive(Clone, Copy, Debug, PartialEq, Eq, Hash)]
#[non_exhaustive]
pub struct Config {
    /// 1 to 8: each has a copy of the maps, by which it answers reads.
    pub nodes: u32,
    /// 1 to 16: the sessions of a node.
    pub slots: u32,
    /// 16 to 1,048,576: the updates that the log keeps.
    pub window: u32,
    /// The updates of the whole history, behind which there is [`Error::Full`]; or [`ENDLESS`].
    pub limit: u32,
    /// 0 to 4,096: the programs that may be installed later.
    pub spare: u32,
    /// How large the maps of the manifest and the arguments of its programs may be.
    pub limits: Limits,
    /// 0 to 16,384: the most bytes of an installed program, and of its argument, if that is more than 192 and 64. The log and each node keep so many
    /// bytes for each update of the window.
    pub long_bytes: u32,
}

impl Config {
    /// So many nodes, so many sessions of each, a window of 4,096, no end, and no spare place.
    pub const fn new(nodes: u32, slots: u32) -> Config {
        Config { nodes, slots, window: 4_096, limit: ENDLESS, spare: 0, limits: Limits::STANDARD, long_bytes: 0 }
    }

    /// The same with another window.
    #[must_use]
    pub const fn window(self, window: u32) -> Config {
        Config { window, ..self }
    }

    /// The same with another limit.
    #[must_use]
    pub const fn limit(self, limit: u32) -> Config {
        Config { limit, ..self }
    }

    /// The same with other spare places.
    #[must_use]
    pub const fn spare(self, spare: u32) -> Config {
        Config { spare, ..self }
    }

    /// The same with other limits of maps and arguments.
    #[must_use]
    pub const fn limits(self, limits: Limits) -> Config {
        Config { limits, ..self }
    }

    /// The same for installed programs, and arguments of these, of up to so many bytes.
    #[must_use]
    pub const fn long_bytes(self, long_bytes: u32) -> Config {
        Config { long_bytes, ..self }
    }

    pub(crate) fn told(self) -> sys::nrbpf_config {
        let Config { nodes, slots, window, limit, spare, limits, long_bytes } = self;
        let Limits { key, value, entries, bytes, argument } = limits;
        let limits = sys::nrbpf_limits { key, value, entries, bytes, argument };
        let mut told = sys::nrbpf_config::default();
        // SAFETY: it writes what it is lent.
        unsafe { sys::nrbpf_config_init(&mut told, sys::NRBPF_VERSION, nodes, slots) };
        sys::nrbpf_config { window, limit, spare, limits, long_bytes, ..told }
    }
}

/// A store of a manifest's maps and programs, each program verified. Any thread may use it. It ends when it is dropped.
pub struct Store {
    at: NonNull<sys::nrbpf_store>,
    maps: Vec<MapShape>,
    pub(crate) posts: Posts,
}

// SAFETY: a store takes calls of any threads at once, and its end comes beside no other call: nothing borrows it then, and no session shares it.
unsafe impl Send for Store {}
unsafe impl Sync for Store {}

impl Store {
    /// Opens a store of a manifest.
    ///
    /// # Errors
    ///
    /// C1 to C6 and H4 of the manifest, O1 and O2 of the sizes, H8 of a library of another version.
    pub fn open(config: Config, manifest: &Manifest) -> Result<Store, Error> {
        let config = config.told();
        let (mut out, mut why) = (null_mut(), sys::nrbpf_error::default());
        // SAFETY: each pointer has as many bytes behind it as the call is told.
        let status = manifest.with(|text, files| unsafe {
            sys::nrbpf_open(&config, text.as_ptr().cast(), text.len(), files.as_ptr(), files.len(), &mut out, &mut why)
        });
        check_with(status, why)?;
        Store::at(out)
    }

    /// The same, going on from a state, which may be opened on again. Its history begins at point 0.
    ///
    /// # Errors
    ///
    /// O3 besides: the manifest has other maps than the state, or there are fewer spare places than it has installed programs, or one of these is too long.
    pub fn open_on(config: Config, manifest: &Manifest, state: &State) -> Result<Store, Error> {
        let config = config.told();
        let (mut out, mut why) = (null_mut(), sys::nrbpf_error::default());
        // SAFETY: the same; and a state that is borrowed is used by this thread alone, since it is not `Sync`.
        let status = manifest.with(|text, files| unsafe {
            let (at, count) = (files.as_ptr(), files.len());
            sys::nrbpf_open_on(&config, text.as_ptr().cast(), text.len(), at, count, state.as_ptr(), &mut out, &mut why)
        });
        check_with(status, why)?;
        Store::at(out)
    }

    // Asks the opened store for the shapes of its maps. No session is attached yet, so none is in the way.
    fn at(out: *mut sys::nrbpf_store) -> Result<Store, Error> {
        let mut store = Store { at: NonNull::new(out).expect("an opened store is somewhere"), maps: Vec::new(), posts: Posts::default() };
        let count = store.info().maps;
        let mut session = store.attach(0)?;
        let maps = (0..count).map(|map| Ok(session.map_info(map)?.shape)).collect::<Result<_, Error>>()?;
        drop(session);
        store.maps = maps;
        Ok(store)
    }

    pub(crate) fn as_ptr(&self) -> *mut sys::nrbpf_store {
        self.at.as_ptr()
    }

    /// The shapes of its maps, in the manifest's order.
    pub fn maps(&self) -> &[MapShape] {
        &self.maps
    }

    /// The number of a program of the manifest.
    ///
    /// # Errors
    ///
    /// S1: there is none of this name.
    pub fn program(&self, name: &str) -> Result<u16, Error> {
        let mut number = 0;
        // SAFETY: the name is as long as the call is told.
        check(unsafe { sys::nrbpf_program_number(self.at.as_ptr(), name.as_ptr().cast(), name.len(), &mut number) })?;
        Ok(number)
    }

    /// A free session of a node, counted from 0. It borrows the store, which can't end before it:
    ///
    /// ```compile_fail,E0505
    /// # fn with(store: nrbpf::Store) {
    /// let session = store.attach(0).unwrap();
    /// drop(store);
    /// drop(session);
    /// # }
    /// ```
    ///
    /// # Errors
    ///
    /// H1: every session of the node is attached, or there is no such node.
    pub fn attach(&self, node: u32) -> Result<Session<'_>, Error> {
        Ok(Session::borrowing(self, self.attached(node)?))
    }

    /// The same of a store that several own: the session is one of them, and lives as long as it likes.
    ///
    /// # Errors
    ///
    /// Those of [`attach`](Store::attach).
    pub fn attach_shared(self: &Arc<Store>, node: u32) -> Result<Session<'static>, Error> {
        Ok(Session::sharing(Arc::clone(self), self.attached(node)?))
    }

    fn attached(&self, node: u32) -> Result<NonNull<sys::nrbpf_session>, Error> {
        let mut out = null_mut();
        // SAFETY: the store is open as long as this value.
        check(unsafe { sys::nrbpf_attach(self.at.as_ptr(), node, &mut out) })?;
        Ok(NonNull::new(out).expect("an attached session is somewhere"))
    }

    /// Some free sessions of a node as one lane, at most [`MOST_SLOTS`](crate::MOST_SLOTS). It borrows the store.
    ///
    /// # Errors
    ///
    /// H1: fewer sessions of the node are free, or there is no such node. H5: no slots, or too many.
    pub fn attach_lane(&self, node: u32, slots: u32) -> Result<Lane<'_>, Error> {
        Ok(Lane::borrowing(self, self.attached_lane(node, slots)?, slots))
    }

    /// The same of a store that several own: the lane is one of them, and lives as long as it likes.
    ///
    /// # Errors
    ///
    /// Those of [`attach_lane`](Store::attach_lane).
    pub fn attach_lane_shared(self: &Arc<Store>, node: u32, slots: u32) -> Result<Lane<'static>, Error> {
        Ok(Lane::sharing(Arc::clone(self), self.attached_lane(node, slots)?, slots))
    }

    fn attached_lane(&self, node: u32, slots: u32) -> Result<NonNull<sys::nrbpf_lane>, Error> {
        let mut out = null_mut();
        // SAFETY: the store is open as long as this value.
        check(unsafe { sys::nrbpf_attach_lane(self.at.as_ptr(), node, slots, &mut out) })?;
        Ok(NonNull::new(out).expect("an attached lane is somewhere"))
    }

    /// A state for snapshots of this store. It takes the memory of one node's maps.
    ///
    /// # Errors
    ///
    /// O2: there is none.
    pub fn new_state(&self) -> Result<State, Error> {
        let mut out = null_mut();
        // SAFETY: the store is open as long as this value.
        check(unsafe { sys::nrbpf_state_new(self.at.as_ptr(), &mut out) })?;
        Ok(State::at(out))
    }

    /// Ends the store, and gives the state that it ends in.
    ///
    /// # Errors
    ///
    /// O2: there is no memory for it. S5: a session was forgotten (`mem::forget`). The store comes back.
    pub fn close_into(self) -> Result<State, NotClosed> {
        let mut out = null_mut();
        // SAFETY: nothing borrows the store, so no other call is made on it.
        match check(unsafe { sys::nrbpf_close_into(self.at.as_ptr(), &mut out) }) {
            Ok(()) => {
                let mut ended = ManuallyDrop::new(self);
                (ended.maps, ended.posts) = (Vec::new(), Posts::default());
                Ok(State::at(out))
            }
            Err(why) => Err(NotClosed { store: self, why }),
        }
    }
}

impl Drop for Store {
    fn drop(&mut self) {
        // SAFETY: nothing borrows the store, so no other call is made on it. Where a session was forgotten it is refused, and the store stays.
        unsafe { sys::nrbpf_close(self.at.as_ptr()) };
    }
}

impl fmt::Debug for Store {
    fn fmt(&self, f: &mut fmt::Formatter<'_>) -> fmt::Result {
        f.debug_struct("Store").field("maps", &self.maps).finish_non_exhaustive()
    }
}

/// A store that could not end, and why.
#[derive(Debug)]
pub struct NotClosed {
    /// The store, as it was.
    pub store: Store,
    /// Why.
    pub why: Error,
}

impl fmt::Display for NotClosed {
    fn fmt(&self, f: &mut fmt::Formatter<'_>) -> fmt::Result {
        self.why.fmt(f)
    }
}

impl std::error::Error for NotClosed {}
