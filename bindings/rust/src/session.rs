//! Sessions: one slot of one node, by which a thread makes its calls.

use crate::error::{check, check_with};
use crate::posted::{Handle, Posted};
use crate::{sys, Error, MapShape, QuestionRefused, State, Store};
use std::cell::Cell;
use std::ffi::c_void;
use std::fmt;
use std::marker::PhantomData;
use std::ptr::NonNull;
use std::sync::{Arc, Mutex};
use std::thread;

/// By custom a program replies it where a map has no room for its key. An install without a place is [`Error::NoPlace`].
pub const REPLY_NO_ROOM: u64 = u64::MAX - 6;

/// The reply of a call that found no program of its number, mode and argument length at its index.
pub const REPLY_INVALID: u64 = u64::MAX - 21;

/// What a program may do.
#[derive(Clone, Copy, Debug, PartialEq, Eq, Hash)]
pub enum Mode {
    /// It may change maps.
    Update = 0,
    /// It changes nothing.
    Read = 1,
}

/// What a program answered.
#[derive(Clone, Copy, Debug, Default, PartialEq, Eq, Hash)]
#[non_exhaustive]
pub struct Answer {
    /// Of an update its index, how many stand before it; of a read how many updates it has seen.
    pub point: u64,
    /// What the program replied; of an install the number of the program.
    pub reply: u64,
}

impl Answer {
    /// The reply as a number with a sign: an error such as -2 is replied as 2^64 - 2.
    pub const fn signed(self) -> i64 {
        self.reply as i64
    }

    /// Of an install the number of the program.
    pub fn program(self) -> Option<u16> {
        u16::try_from(self.reply).ok()
    }

    fn of(told: sys::nrbpf_answer) -> Answer {
        Answer { point: told.point, reply: told.reply }
    }

    /// Of an install that found a place.
    fn placed(self) -> Result<Answer, Error> {
        if self.reply == REPLY_NO_ROOM {
            return Err(Error::NoPlace { point: self.point });
        }
        Ok(self)
    }
}

/// How far an update is that waits for nobody.
#[derive(Clone, Copy, Debug, PartialEq, Eq, Hash)]
#[non_exhaustive]
pub enum Tried {
    /// It is answered.
    Answered(Answer),
    /// Another session was in the way, and nothing is asked: call again, or let it be.
    Busy,
    /// The store has it, once, and has not answered it yet: [`poll`](Session::poll) or [`wait`](Session::wait) is the session's next call. Other updates
    /// of its node may have to wait for it: so go on with it soon.
    Posted,
}

/// Whether a key is there.
#[derive(Clone, Copy, Debug, PartialEq, Eq, Hash)]
#[non_exhaustive]
pub struct Found {
    /// How many updates the map had seen.
    pub point: u64,
    /// Whether the key is there, and its value was written.
    pub is_there: bool,
}

/// What a page of a scan has.
#[derive(Clone, Copy, Debug, PartialEq, Eq, Hash)]
#[non_exhaustive]
pub struct Page {
    /// How many updates the map had seen.
    pub point: u64,
    /// How many entries were given.
    pub count: usize,
    /// The place to go on from, if it isn't the end.
    pub next: Option<u32>,
}

impl Page {
    fn of(told: sys::nrbpf_scanned) -> Page {
        Page { point: told.point, count: told.count as usize, next: (told.next != sys::NRBPF_END).then_some(told.next) }
    }
}

/// A call of [`Session::read_each`] or [`Lane::update_each`](crate::Lane::update_each).
#[derive(Clone, Copy)]
#[repr(transparent)]
pub struct Question<'a> {
    told: sys::nrbpf_question,
    _argument: PhantomData<&'a [u8]>,
}

impl<'a> Question<'a> {
    /// A call of a program with an argument.
    pub fn new(program: u16, argument: &'a [u8]) -> Question<'a> {
        Question { told: sys::nrbpf_question { argument: bytes_at(argument), len: argument.len(), program }, _argument: PhantomData }
    }
}

/// Whose session or lane it is.
pub(crate) enum Of<'a> {
    One(&'a Store),
    Several(Arc<Store>),
}

impl Of<'_> {
    pub(crate) fn store(&self) -> &Store {
        match self {
            Of::One(store) => store,
            Of::Several(store) => store,
        }
    }
}

/// A session. It borrows its store, or is one of its owners ([`Store::attach_shared`]), and is given back when it is dropped: where an update is posted
/// and not answered, once that is answered. While it waits for that, it polls what other sessions and lanes of the store have posted.
///
/// It may be sent to another thread, and is used by one at a time:
///
/// ```
/// fn is_sent<T: Send>() {}
/// is_sent::<nrbpf::Session<'static>>();
/// ```
///
/// ```compile_fail,E0277
/// fn is_shared<T: Sync>() {}
/// is_shared::<nrbpf::Session<'static>>();
/// ```
pub struct Session<'a> {
    at: NonNull<sys::nrbpf_session>,
    of: Of<'a>,
    // Until it is answered.
    posted: Option<Arc<Mutex<Posted>>>,
    // Whether that is an install.
    is_install: bool,
    _is_not_sync: PhantomData<Cell<()>>,
}

// SAFETY: a session takes calls of any thread, one at a time. It is not `Sync`, and its calls take it by `&mut`.
unsafe impl Send for Session<'_> {}

impl<'a> Session<'a> {
    pub(crate) fn borrowing(store: &'a Store, at: NonNull<sys::nrbpf_session>) -> Session<'a> {
        Session { at, of: Of::One(store), posted: None, is_install: false, _is_not_sync: PhantomData }
    }

    pub(crate) fn sharing(store: Arc<Store>, at: NonNull<sys::nrbpf_session>) -> Session<'static> {
        Session { at, of: Of::Several(store), posted: None, is_install: false, _is_not_sync: PhantomData }
    }

    /// Its store.
    pub fn store(&self) -> &Store {
        self.of.store()
    }

    /// The handle, for a call that is no poll: H3. Until its update is answered, others may poll it.
    pub(crate) fn idle(&mut self) -> Result<*mut sys::nrbpf_session, Error> {
        match self.posted {
            Some(_) => Err(Error::Unanswered),
            None => Ok(self.at.as_ptr()),
        }
    }

    fn tried(&mut self, status: u32, out: sys::nrbpf_answer, why: sys::nrbpf_error) -> Result<Tried, Error> {
        match status {
            sys::NRBPF_BUSY => Ok(Tried::Busy),
            sys::NRBPF_POSTED => {
                self.posted = Some(self.store().posts.add(Handle::Session(self.at)));
                self.is_install = false;
                Ok(Tried::Posted)
            }
            _ => check_with(status, why).map(|()| Tried::Answered(Answer::of(out))),
        }
    }

    fn tried_to_install(&mut self, status: u32, out: sys::nrbpf_answer, why: sys::nrbpf_error) -> Result<Tried, Error> {
        match self.tried(status, out, why)? {
            Tried::Answered(answer) => answer.placed().map(Tried::Answered),
            told => {
                self.is_install |= told == Tried::Posted;
                Ok(told)
            }
        }
    }

    // (In each call: the session is attached and this thread's, and each pointer has as many bytes behind it as the call is told.)

    /// Runs a program that may change the maps, and waits for other sessions where they are in the way.
    ///
    /// # Errors
    ///
    /// S1 to S4, and H3 while an update is posted.
    pub fn update(&mut self, program: u16, argument: &[u8]) -> Result<Answer, Error> {
        let mut out = sys::nrbpf_answer::default();
        // SAFETY: as above.
        check(unsafe { sys::nrbpf_update(self.idle()?, program, bytes_at(argument), argument.len(), &mut out) })?;
        Ok(Answer::of(out))
    }

    /// Runs a program that changes nothing, on all updates that were answered when the call began.
    ///
    /// # Errors
    ///
    /// S1 to S3, and H3 while an update is posted.
    pub fn read(&mut self, program: u16, argument: &[u8]) -> Result<Answer, Error> {
        let mut out = sys::nrbpf_answer::default();
        // SAFETY: as above.
        check(unsafe { sys::nrbpf_read(self.idle()?, program, bytes_at(argument), argument.len(), &mut out) })?;
        Ok(Answer::of(out))
    }

    /// Adds a program to the store while it runs, whose arguments have so many bytes. [`Answer::program`] is its number from then on.
    ///
    /// # Errors
    ///
    /// [`Error::NoPlace`]: no spare place is left. S4, S6 to S8, and H3 while an update is posted.
    pub fn install(&mut self, mode: Mode, argument_len: u32, code: &[u8]) -> Result<Answer, Error> {
        let (mut out, mut why) = (sys::nrbpf_answer::default(), sys::nrbpf_error::default());
        // SAFETY: as above.
        let status = unsafe { sys::nrbpf_install(self.idle()?, mode as u32, argument_len, bytes_at(code), code.len(), &mut out, &mut why) };
        check_with(status, why)?;
        Answer::of(out).placed()
    }

    /// As [`install`](Session::install), for a program that may name these maps alone, by their numbers. A number that no map has says nothing.
    ///
    /// # Errors
    ///
    /// The same. S8 with V16 where it names another map, at the first slot that does.
    pub fn install_within(&mut self, maps: &[u32], mode: Mode, argument_len: u32, code: &[u8]) -> Result<Answer, Error> {
        let (mut out, mut why) = (sys::nrbpf_answer::default(), sys::nrbpf_error::default());
        let program = confined(maps, mode, argument_len, code);
        // SAFETY: as above.
        let status = unsafe { sys::nrbpf_install_within(self.idle()?, &program, &mut out, &mut why) };
        check_with(status, why)?;
        Answer::of(out).placed()
    }

    /// As [`update`](Session::update), and waits for nobody.
    ///
    /// # Errors
    ///
    /// The same.
    pub fn try_update(&mut self, program: u16, argument: &[u8]) -> Result<Tried, Error> {
        let mut out = sys::nrbpf_answer::default();
        // SAFETY: as above.
        let status = unsafe { sys::nrbpf_try_update(self.idle()?, program, bytes_at(argument), argument.len(), &mut out) };
        self.tried(status, out, sys::nrbpf_error::default())
    }

    /// As [`read`](Session::read), and waits for nobody: none where another session was in the way.
    ///
    /// # Errors
    ///
    /// The same.
    pub fn try_read(&mut self, program: u16, argument: &[u8]) -> Result<Option<Answer>, Error> {
        let mut out = sys::nrbpf_answer::default();
        // SAFETY: as above.
        let status = unsafe { sys::nrbpf_try_read(self.idle()?, program, bytes_at(argument), argument.len(), &mut out) };
        Ok(unless_busy(status, sys::nrbpf_error::default())?.then(|| Answer::of(out)))
    }

    /// As [`install`](Session::install), and waits for nobody.
    ///
    /// # Errors
    ///
    /// The same.
    pub fn try_install(&mut self, mode: Mode, argument_len: u32, code: &[u8]) -> Result<Tried, Error> {
        let (mut out, mut why) = (sys::nrbpf_answer::default(), sys::nrbpf_error::default());
        // SAFETY: as above.
        let status =
            unsafe { sys::nrbpf_try_install(self.idle()?, mode as u32, argument_len, bytes_at(code), code.len(), &mut out, &mut why) };
        self.tried_to_install(status, out, why)
    }

    /// As [`install_within`](Session::install_within), and waits for nobody.
    ///
    /// # Errors
    ///
    /// The same.
    pub fn try_install_within(&mut self, maps: &[u32], mode: Mode, argument_len: u32, code: &[u8]) -> Result<Tried, Error> {
        let (mut out, mut why) = (sys::nrbpf_answer::default(), sys::nrbpf_error::default());
        let program = confined(maps, mode, argument_len, code);
        // SAFETY: as above.
        let status = unsafe { sys::nrbpf_try_install_within(self.idle()?, &program, &mut out, &mut why) };
        self.tried_to_install(status, out, why)
    }

    /// Goes on with the update or the install that is posted, and waits for nobody: none where it is not answered yet.
    ///
    /// # Errors
    ///
    /// S4, with which it is over and has done nothing, as an install is with [`Error::NoPlace`]; H11: nothing is posted.
    pub fn poll(&mut self) -> Result<Option<Answer>, Error> {
        let own = self.posted.as_ref().ok_or(Error::NothingPosted)?;
        let Some((status, outcomes)) = self.store().posts.poll(own) else { return Ok(None) };
        self.posted = None;
        check(status)?;
        let answer = Answer { point: outcomes[0].point, reply: outcomes[0].reply };
        if self.is_install {
            return answer.placed().map(Some);
        }
        Ok(Some(answer))
    }

    /// Goes on with the update or the install that is posted until it is answered, and with what others of the store have posted.
    ///
    /// # Errors
    ///
    /// Those of [`poll`](Session::poll).
    pub fn wait(&mut self) -> Result<Answer, Error> {
        loop {
            match (self.poll()?, &self.posted) {
                (Some(answer), _) => return Ok(answer),
                (None, Some(own)) => self.store().posts.poll_others(own),
                (None, None) => {}
            }
            thread::yield_now();
        }
    }

    /// The value of a key of a map, counted from 0 as the manifest has them. An array's key is its index in 4 bytes, the low one first.
    ///
    /// # Errors
    ///
    /// S9, S11, and H3 while an update is posted.
    pub fn get(&mut self, map: u32, key: &[u8]) -> Result<Option<Vec<u8>>, Error> {
        let mut value = vec![0; self.shape(map)?.value];
        Ok(self.get_into(map, key, &mut value)?.is_there.then_some(value))
    }

    /// The same, into room of the value's length; it is written where the key is there.
    ///
    /// # Errors
    ///
    /// S12 besides: the value has another length.
    pub fn get_into(&mut self, map: u32, key: &[u8], value: &mut [u8]) -> Result<Found, Error> {
        let mut out = sys::nrbpf_found::default();
        let (room, len) = (value.as_mut_ptr().cast(), value.len());
        // SAFETY: as above.
        check(unsafe { sys::nrbpf_get(self.idle()?, map, bytes_at(key), key.len(), room, len, &mut out) })?;
        Ok(Found { point: out.point, is_there: out.is_there != 0 })
    }

    /// The same, and waits for nobody: none where another session was in the way.
    ///
    /// # Errors
    ///
    /// The same.
    pub fn try_get_into(&mut self, map: u32, key: &[u8], value: &mut [u8]) -> Result<Option<Found>, Error> {
        let mut out = sys::nrbpf_found::default();
        let (room, len) = (value.as_mut_ptr().cast(), value.len());
        // SAFETY: as above.
        let status = unsafe { sys::nrbpf_try_get(self.idle()?, map, bytes_at(key), key.len(), room, len, &mut out) };
        let is_answered = unless_busy(status, sys::nrbpf_error::default())?;
        Ok(is_answered.then_some(Found { point: out.point, is_there: out.is_there != 0 }))
    }

    /// All entries of a map, by pages. They may be of several points of the history, and a deletion may move a key to another page; a
    /// [`snapshot`](Session::snapshot) is of one point.
    ///
    /// # Errors
    ///
    /// S9: there is no such map. The pages' own are those of [`scan_page`](Session::scan_page).
    pub fn scan(&mut self, map: u32) -> Result<Scan<'_, 'a>, Error> {
        const PAGE: usize = 256;
        let shape = self.shape(map)?;
        let (keys, values) = (vec![0; PAGE * shape.key], vec![0; PAGE * shape.value]);
        Ok(Scan { session: self, map, shape, keys, values, at: 0, count: 0, next: Some(0) })
    }

    /// Entries of a map from a place on, 0 at first, at one point of the history: keys one behind another, and values, as many as both rooms hold. It may give
    /// none and have a place to go on from.
    ///
    /// # Errors
    ///
    /// S9, S10, and H3 while an update is posted.
    pub fn scan_page(&mut self, map: u32, from: u32, keys: &mut [u8], values: &mut [u8]) -> Result<Page, Error> {
        let mut out = sys::nrbpf_scanned::default();
        let ((keys, keys_len), (values, values_len)) = (room_of(keys), room_of(values));
        // SAFETY: as above.
        check(unsafe { sys::nrbpf_scan(self.idle()?, map, from, keys, keys_len, values, values_len, &mut out) })?;
        Ok(Page::of(out))
    }

    /// The same, and waits for nobody: none where another session was in the way.
    ///
    /// # Errors
    ///
    /// The same.
    pub fn try_scan_page(&mut self, map: u32, from: u32, keys: &mut [u8], values: &mut [u8]) -> Result<Option<Page>, Error> {
        let mut out = sys::nrbpf_scanned::default();
        let ((keys, keys_len), (values, values_len)) = (room_of(keys), room_of(values));
        // SAFETY: as above.
        let status = unsafe { sys::nrbpf_try_scan(self.idle()?, map, from, keys, keys_len, values, values_len, &mut out) };
        Ok(unless_busy(status, sys::nrbpf_error::default())?.then(|| Page::of(out)))
    }

    /// Answers up to 16 reads at one point of the history, which it tells: `replies` gets that of each question. Without any it brings the session's node
    /// up to what is completed.
    ///
    /// # Errors
    ///
    /// The first question with one of S1 to S3, and H5 of more than 16.
    ///
    /// # Panics
    ///
    /// There are not as many replies as questions.
    pub fn read_each(&mut self, questions: &[Question<'_>], replies: &mut [u64]) -> Result<u64, QuestionRefused> {
        assert_eq!(questions.len(), replies.len(), "a reply for each question");
        let (mut point, mut why) = (0, sys::nrbpf_error::default());
        let (asked, count) = (questions.as_ptr().cast(), questions.len());
        // SAFETY: as above, and a question is the library's own.
        let status = unsafe { sys::nrbpf_read_each(self.idle()?, asked, count, replies.as_mut_ptr(), &mut point, &mut why) };
        match status {
            sys::NRBPF_OK => Ok(point),
            _ => Err(QuestionRefused::of(sys::nrbpf_error { status, ..why })),
        }
    }

    /// The same, and waits for nobody: none where another session was in the way.
    ///
    /// # Errors
    ///
    /// The same.
    ///
    /// # Panics
    ///
    /// There are not as many replies as questions.
    pub fn try_read_each(&mut self, questions: &[Question<'_>], replies: &mut [u64]) -> Result<Option<u64>, QuestionRefused> {
        assert_eq!(questions.len(), replies.len(), "a reply for each question");
        let (mut point, mut why) = (0, sys::nrbpf_error::default());
        let (asked, count) = (questions.as_ptr().cast(), questions.len());
        // SAFETY: as above, and a question is the library's own.
        let status = unsafe { sys::nrbpf_try_read_each(self.idle()?, asked, count, replies.as_mut_ptr(), &mut point, &mut why) };
        match status {
            sys::NRBPF_OK => Ok(Some(point)),
            sys::NRBPF_BUSY => Ok(None),
            _ => Err(QuestionRefused::of(sys::nrbpf_error { status, ..why })),
        }
    }

    /// Makes a state the store's at one point of the history, and tells the point. Other sessions go on; those of the same node wait meanwhile.
    ///
    /// # Errors
    ///
    /// H9: the state is none of such a store. H3 while an update is posted.
    pub fn snapshot(&mut self, into: &mut State) -> Result<u64, Error> {
        let mut point = 0;
        // SAFETY: as above, and the state is this call's alone.
        check(unsafe { sys::nrbpf_snapshot(self.idle()?, into.as_ptr(), &mut point) })?;
        Ok(point)
    }

    /// The same, and waits for nobody: none where another session was in the way, and then the state is as it was.
    ///
    /// # Errors
    ///
    /// The same.
    pub fn try_snapshot(&mut self, into: &mut State) -> Result<Option<u64>, Error> {
        let mut point = 0;
        // SAFETY: as above, and the state is this call's alone.
        let status = unsafe { sys::nrbpf_try_snapshot(self.idle()?, into.as_ptr(), &mut point) };
        Ok(unless_busy(status, sys::nrbpf_error::default())?.then_some(point))
    }

    fn shape(&self, map: u32) -> Result<MapShape, Error> {
        self.store().maps().get(map as usize).copied().ok_or(Error::UnknownMap)
    }
}

impl Drop for Session<'_> {
    fn drop(&mut self) {
        if self.posted.is_some() {
            let _ = self.wait();
        }
        // SAFETY: as above, and nothing is posted any more.
        unsafe { sys::nrbpf_detach(self.at.as_ptr()) };
    }
}

impl fmt::Debug for Session<'_> {
    fn fmt(&self, f: &mut fmt::Formatter<'_>) -> fmt::Result {
        f.debug_struct("Session").finish_non_exhaustive()
    }
}

/// The entries of a map, of [`Session::scan`]: keys and values.
#[derive(Debug)]
pub struct Scan<'s, 'a> {
    session: &'s mut Session<'a>,
    map: u32,
    shape: MapShape,
    keys: Vec<u8>,
    values: Vec<u8>,
    at: usize,
    count: usize,
    next: Option<u32>,
}

impl Iterator for Scan<'_, '_> {
    type Item = Result<(Vec<u8>, Vec<u8>), Error>;

    fn next(&mut self) -> Option<Self::Item> {
        while self.at == self.count {
            let from = self.next.take()?;
            match self.session.scan_page(self.map, from, &mut self.keys, &mut self.values) {
                Ok(page) => (self.at, self.count, self.next) = (0, page.count, page.next),
                Err(why) => return Some(Err(why)),
            }
        }
        let (key, value) = (self.shape.key, self.shape.value);
        let entry = (self.keys[self.at * key..][..key].to_vec(), self.values[self.at * value..][..value].to_vec());
        self.at += 1;
        Some(Ok(entry))
    }
}

impl std::iter::FusedIterator for Scan<'_, '_> {}

fn bytes_at(bytes: &[u8]) -> *const c_void {
    bytes.as_ptr().cast()
}

fn room_of(bytes: &mut [u8]) -> (*mut c_void, usize) {
    (bytes.as_mut_ptr().cast(), bytes.len())
}

/// Whether a read is answered, or another session was in the way.
pub(crate) fn unless_busy(status: u32, why: sys::nrbpf_error) -> Result<bool, Error> {
    match status {
        sys::NRBPF_BUSY => Ok(false),
        _ => check_with(status, why).map(|()| true),
    }
}

// A program and the maps that it may name, as the library takes them while `code` is lent.
fn confined(maps: &[u32], mode: Mode, argument_len: u32, code: &[u8]) -> sys::nrbpf_confined {
    let bits = maps.iter().filter(|&&map| map < 16).fold(0, |bits, &map| bits | 1 << map);
    sys::nrbpf_confined { maps: bits, mode: mode as u32, argument_len, bytes: bytes_at(code), len: code.len() }
}
