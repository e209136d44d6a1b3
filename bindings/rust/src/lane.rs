//! Lanes: several slots of one node, by which a thread asks for several updates at once.

use crate::error::{check, QuestionRefused};
use crate::posted::{Handle, Outcomes, Posted};
use crate::session::{Answer, Of, Question};
use crate::{sys, Error, Store};
use std::cell::Cell;
use std::fmt;
use std::marker::PhantomData;
use std::ptr::NonNull;
use std::sync::{Arc, Mutex};
use std::thread;

/// The most slots of a lane, and so the most updates of a list.
pub const MOST_SLOTS: usize = 16;

/// How far a list of updates is that waits for nobody.
#[derive(Clone, Copy, Debug, PartialEq, Eq, Hash)]
#[non_exhaustive]
pub enum TriedEach {
    /// Each update is answered.
    Answered,
    /// Another session was in the way, and nothing is asked: call again, or let it be.
    Busy,
    /// The store has updates of the list that it has not answered yet: [`poll_each`](Lane::poll_each) or [`wait_each`](Lane::wait_each) is the lane's next
    /// call. Other updates of its node may have to wait for it: so go on with it soon.
    Posted,
}

/// Some slots of one node. A list of updates is asked for by one call, which costs less than as many calls. It borrows its store, or is one of its owners
/// ([`Store::attach_lane_shared`]), and is given back when it is dropped: where a list is posted and not answered, once that is answered.
///
/// It may be sent to another thread, and is used by one at a time, as a [`Session`](crate::Session).
///
/// ```no_run
/// # fn with(store: &nrbpf::Store, bump: u16) -> Result<(), nrbpf::Error> {
/// use nrbpf::{Answer, Question};
///
/// let mut lane = store.attach_lane(0, 8)?;
/// let calls = [Question::new(bump, &[3, 0, 0, 0]), Question::new(bump, &[5, 0, 0, 0])];
/// let mut answers = [Ok(Answer::default()); 2];
/// lane.update_each(&calls, &mut answers)?;
/// # Ok(())
/// # }
/// ```
pub struct Lane<'a> {
    at: NonNull<sys::nrbpf_lane>,
    slots: usize,
    of: Of<'a>,
    // Until the list is answered, and how many calls it has.
    posted: Option<(Arc<Mutex<Posted>>, usize)>,
    _is_not_sync: PhantomData<Cell<()>>,
}

// SAFETY: a lane takes calls of any thread, one at a time. It is not `Sync`, and its calls take it by `&mut`.
unsafe impl Send for Lane<'_> {}

impl<'a> Lane<'a> {
    pub(crate) fn borrowing(store: &'a Store, at: NonNull<sys::nrbpf_lane>, slots: u32) -> Lane<'a> {
        Lane::of(Of::One(store), at, slots)
    }

    pub(crate) fn sharing(store: Arc<Store>, at: NonNull<sys::nrbpf_lane>, slots: u32) -> Lane<'static> {
        Lane::of(Of::Several(store), at, slots)
    }

    fn of(of: Of<'_>, at: NonNull<sys::nrbpf_lane>, slots: u32) -> Lane<'_> {
        Lane { at, slots: slots as usize, of, posted: None, _is_not_sync: PhantomData }
    }

    /// The handle, for a call that is no poll: H3. Until its list is answered, others may poll it.
    fn idle(&mut self) -> Result<*mut sys::nrbpf_lane, Error> {
        match self.posted {
            Some(_) => Err(Error::Unanswered),
            None => Ok(self.at.as_ptr()),
        }
    }

    /// How many slots it has: a list has at most as many updates.
    pub fn slots(&self) -> usize {
        self.slots
    }

    // (In each call: the lane is attached and this thread's, and each pointer has as much behind it as the call is told.)

    /// Runs programs that may change the maps, and waits for other sessions where they are in the way. `answers` gets that of each call, or S4 where the
    /// history is full. Each update is an operation of its own, and others may stand between two of them.
    ///
    /// # Errors
    ///
    /// The first call with one of S1 to S3; H5 of more calls than slots; H3 while a list is posted. Nothing is asked then.
    ///
    /// # Panics
    ///
    /// There are not as many answers as calls.
    pub fn update_each(&mut self, calls: &[Question<'_>], answers: &mut [Result<Answer, Error>]) -> Result<(), QuestionRefused> {
        assert_eq!(calls.len(), answers.len(), "an answer for each call");
        let (mut out, mut why) = (Outcomes::default(), sys::nrbpf_error::default());
        // SAFETY: as above, and a question is the library's own. A list of more calls than there is room for is refused.
        let status = unsafe { sys::nrbpf_update_each(self.idle()?, calls.as_ptr().cast(), calls.len(), out.as_mut_ptr(), &mut why) };
        self.told(status, why, &out, answers).map(|_| ())
    }

    /// The same, and waits for nobody.
    ///
    /// # Errors
    ///
    /// The same.
    ///
    /// # Panics
    ///
    /// There are not as many answers as calls.
    pub fn try_update_each(&mut self, calls: &[Question<'_>], answers: &mut [Result<Answer, Error>]) -> Result<TriedEach, QuestionRefused> {
        assert_eq!(calls.len(), answers.len(), "an answer for each call");
        let (mut out, mut why) = (Outcomes::default(), sys::nrbpf_error::default());
        // SAFETY: as above, and a question is the library's own. A list of more calls than there is room for is refused.
        let status = unsafe { sys::nrbpf_try_update_each(self.idle()?, calls.as_ptr().cast(), calls.len(), out.as_mut_ptr(), &mut why) };
        self.told(status, why, &out, answers)
    }

    /// Goes on with the list that is posted, and waits for nobody. Whether it is answered: then `answers` gets the answer of each call.
    ///
    /// # Errors
    ///
    /// H11: nothing is posted.
    ///
    /// # Panics
    ///
    /// There are not as many answers as the list has calls.
    pub fn poll_each(&mut self, answers: &mut [Result<Answer, Error>]) -> Result<bool, Error> {
        let (own, count) = self.posted.as_ref().ok_or(Error::NothingPosted)?;
        assert_eq!(*count, answers.len(), "an answer for each call");
        let Some((status, out)) = self.of.store().posts.poll(own) else { return Ok(false) };
        self.posted = None;
        Ok(self.told(status, sys::nrbpf_error::default(), &out, answers)? == TriedEach::Answered)
    }

    /// Goes on with the list that is posted until it is answered, and with what others of the store have posted.
    ///
    /// # Errors
    ///
    /// Those of [`poll_each`](Lane::poll_each).
    ///
    /// # Panics
    ///
    /// There are not as many answers as the list has calls.
    pub fn wait_each(&mut self, answers: &mut [Result<Answer, Error>]) -> Result<(), Error> {
        while !self.poll_each(answers)? {
            if let Some((own, _)) = &self.posted {
                self.of.store().posts.poll_others(own);
            }
            thread::yield_now();
        }
        Ok(())
    }

    // What a list is answered. S4 of the whole list says only that some update got it.
    fn told(
        &mut self,
        status: u32,
        why: sys::nrbpf_error,
        out: &Outcomes,
        answers: &mut [Result<Answer, Error>],
    ) -> Result<TriedEach, QuestionRefused> {
        match status {
            sys::NRBPF_BUSY => return Ok(TriedEach::Busy),
            sys::NRBPF_POSTED => {
                let own = self.of.store().posts.add(Handle::Lane(self.at));
                self.posted = Some((own, answers.len()));
                return Ok(TriedEach::Posted);
            }
            _ => {}
        }
        match check(status) {
            Ok(()) | Err(Error::Full) => {
                for (answer, it) in answers.iter_mut().zip(out) {
                    *answer = check(it.status).map(|()| Answer { point: it.point, reply: it.reply });
                }
                Ok(TriedEach::Answered)
            }
            Err(_) => Err(QuestionRefused::of(sys::nrbpf_error { status, ..why })),
        }
    }
}

impl Drop for Lane<'_> {
    fn drop(&mut self) {
        let mut answers = [Ok(Answer::default()); MOST_SLOTS];
        if let Some((_, count)) = self.posted {
            let _ = self.wait_each(&mut answers[..count]);
        }
        // SAFETY: as above, and nothing is posted any more.
        unsafe { sys::nrbpf_detach_lane(self.at.as_ptr()) };
    }
}

impl fmt::Debug for Lane<'_> {
    fn fmt(&self, f: &mut fmt::Formatter<'_>) -> fmt::Result {
        f.debug_struct("Lane").field("slots", &self.slots).finish_non_exhaustive()
    }
}
