//! What sessions and lanes have posted. One that waits for its answer polls the others of its store too: it may have to wait for them.

use crate::{sys, MOST_SLOTS};
use std::ptr::NonNull;
use std::sync::{Arc, Mutex, MutexGuard, PoisonError};

/// Room for what the library says of each update.
pub(crate) type Outcomes = [sys::nrbpf_outcome; MOST_SLOTS];

/// Whose it is.
#[derive(Clone, Copy)]
pub(crate) enum Handle {
    Session(NonNull<sys::nrbpf_session>),
    Lane(NonNull<sys::nrbpf_lane>),
}

/// An update or a list that is posted, as far as it is. The handle is used by whoever has it locked, and its owner makes no other call until it has the
/// answer.
pub(crate) struct Posted {
    at: Handle,
    status: u32,
    outcomes: Outcomes,
}

// SAFETY: a handle takes calls of any thread, one at a time.
unsafe impl Send for Posted {}

impl Posted {
    fn poll(&mut self) {
        if self.status != sys::NRBPF_POSTED {
            return;
        }
        self.status = match self.at {
            Handle::Session(at) => {
                let mut out = sys::nrbpf_answer::default();
                // SAFETY: the session is attached until its owner has the answer, and nobody else makes a call on it.
                let status = unsafe { sys::nrbpf_poll(at.as_ptr(), &mut out) };
                self.outcomes[0] = sys::nrbpf_outcome { point: out.point, reply: out.reply, status };
                status
            }
            // SAFETY: the same of a lane, and there is room for its longest list.
            Handle::Lane(at) => unsafe { sys::nrbpf_poll_each(at.as_ptr(), self.outcomes.as_mut_ptr()) },
        };
    }
}

/// All that is posted on a store.
#[derive(Default)]
pub(crate) struct Posts(Mutex<Vec<Arc<Mutex<Posted>>>>);

impl Posts {
    pub(crate) fn add(&self, at: Handle) -> Arc<Mutex<Posted>> {
        let own = Arc::new(Mutex::new(Posted { at, status: sys::NRBPF_POSTED, outcomes: Outcomes::default() }));
        locked(&self.0).push(Arc::clone(&own));
        own
    }

    /// Goes on with this. If it is answered, its status and its outcomes; then it is here no more.
    pub(crate) fn poll(&self, own: &Arc<Mutex<Posted>>) -> Option<(u32, Outcomes)> {
        let told = {
            let mut it = locked(own);
            it.poll();
            (it.status, it.outcomes)
        };
        if told.0 == sys::NRBPF_POSTED {
            return None;
        }
        locked(&self.0).retain(|it| !Arc::ptr_eq(it, own));
        Some(told)
    }

    /// Goes on with all others, except those that somebody else polls now.
    pub(crate) fn poll_others(&self, own: &Arc<Mutex<Posted>>) {
        for it in locked(&self.0).iter().filter(|it| !Arc::ptr_eq(it, own)) {
            if let Ok(mut it) = it.try_lock() {
                it.poll();
            }
        }
    }
}

fn locked<T>(mutex: &Mutex<T>) -> MutexGuard<'_, T> {
    mutex.lock().unwrap_or_else(PoisonError::into_inner)
}
