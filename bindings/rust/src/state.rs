//! States: all keys, values and installed programs at one point of a history.

use crate::error::{check, check_with};
use crate::{sys, Config, Error, Limits, Manifest};
use std::any::Any;
use std::ffi::{c_char, c_int, c_void};
use std::fmt;
use std::io::{self, Write};
use std::panic::{catch_unwind, resume_unwind, AssertUnwindSafe};
use std::ptr::{null_mut, NonNull};
use std::slice;

/// A state. It holds nothing of any store, and serves any number of snapshots. [`Store::new_state`](crate::Store::new_state) makes one for snapshots,
/// [`Store::close_into`](crate::Store::close_into) gives the one that a store ends in, [`State::load`] that of a dump.
///
/// It may be sent to another thread, and is used by one at a time:
///
/// ```compile_fail,E0277
/// fn is_shared<T: Sync>() {}
/// is_shared::<nrbpf::State>();
/// ```
pub struct State {
    at: NonNull<sys::nrbpf_state>,
}

// SAFETY: a state takes calls of any thread, one at a time. It is not `Sync`.
unsafe impl Send for State {}

impl State {
    /// A state that the library gave.
    pub(crate) fn at(out: *mut sys::nrbpf_state) -> State {
        State { at: NonNull::new(out).expect("a state is somewhere") }
    }

    pub(crate) fn as_ptr(&self) -> *mut sys::nrbpf_state {
        self.at.as_ptr()
    }

    /// The state that a dump says, for stores of this manifest with so many spare places. An empty dump is a new store's.
    ///
    /// # Errors
    ///
    /// C1 to C6 and H4 of the manifest, E0 to E9 and H4 of the dump, O1 of `spare`.
    pub fn load(manifest: &Manifest, spare: u32, dump: &[u8]) -> Result<State, Error> {
        State::load_with(manifest, Config::new(1, 1).spare(spare), dump)
    }

    /// The same of a manifest that is read by these limits.
    ///
    /// # Errors
    ///
    /// As [`State::load`]; O1 of the limits too.
    pub fn load_within(manifest: &Manifest, limits: Limits, spare: u32, dump: &[u8]) -> Result<State, Error> {
        State::load_with(manifest, Config::new(1, 1).spare(spare).limits(limits), dump)
    }

    /// The same for stores that are opened with the `spare`, the `limits` and the `long_bytes` of this configuration. Its other numbers say nothing.
    ///
    /// # Errors
    ///
    /// As [`State::load`]; O1 of the limits and of `long_bytes` too.
    pub fn load_with(manifest: &Manifest, config: Config, dump: &[u8]) -> Result<State, Error> {
        let config = config.told();
        let (mut out, mut why) = (null_mut(), sys::nrbpf_error::default());
        // SAFETY: each pointer has as many bytes behind it as the call is told.
        let status = manifest.with(|text, files| unsafe {
            let (at, len) = (dump.as_ptr().cast(), dump.len());
            sys::nrbpf_state_load(&config, text.as_ptr().cast(), text.len(), files.as_ptr(), files.len(), at, len, &mut out, &mut why)
        });
        check_with(status, why)?;
        Ok(State::at(out))
    }

    /// The state as text, which `nrbpf --load` takes too.
    ///
    /// # Errors
    ///
    /// E0: there is no memory for it.
    pub fn dump(&self) -> Result<Vec<u8>, Error> {
        let mut text = Vec::new();
        let mut parts = Parts { write: |part: &[u8]| text.write_all(part), ended: None };
        check(self.dump_by(&mut parts))?;
        Ok(text)
    }

    /// Writes the same, by parts of at most 16,384 bytes.
    ///
    /// # Errors
    ///
    /// That of the writer, or E0 as [`io::ErrorKind::Other`].
    pub fn write_to(&mut self, mut to: impl Write) -> io::Result<()> {
        // (by `&mut`: a writer that calls on this state can't be)
        let mut parts = Parts { write: |part: &[u8]| to.write_all(part), ended: None };
        let status = self.dump_by(&mut parts);
        match parts.ended {
            Some(Ended::Failed(why)) => Err(why),
            Some(Ended::Panicked(why)) => resume_unwind(why),
            None => Ok(check(status)?),
        }
    }

    fn dump_by<W: FnMut(&[u8]) -> io::Result<()>>(&self, parts: &mut Parts<W>) -> u32 {
        let to: *mut Parts<W> = parts;
        // SAFETY: `take` gets `to` back, as what it is, and nobody else has it meanwhile.
        unsafe { sys::nrbpf_state_dump(self.as_ptr(), take::<W>, to.cast()) }
    }
}

/// Who takes the parts of a dump, and why that ended before all were taken.
struct Parts<W> {
    write: W,
    ended: Option<Ended>,
}

enum Ended {
    Failed(io::Error),
    Panicked(Box<dyn Any + Send>),
}

/// What the library calls for each part. A panic goes on behind the library's call.
extern "C" fn take<W: FnMut(&[u8]) -> io::Result<()>>(to: *mut c_void, bytes: *const c_char, len: usize) -> c_int {
    // SAFETY: that of `dump_by`, and the bytes are there as long as this call.
    let (parts, part) = unsafe { (&mut *to.cast::<Parts<W>>(), slice::from_raw_parts(bytes.cast(), len)) };
    parts.ended = match catch_unwind(AssertUnwindSafe(|| (parts.write)(part))) {
        Ok(Ok(())) => None,
        Ok(Err(why)) => Some(Ended::Failed(why)),
        Err(why) => Some(Ended::Panicked(why)),
    };
    c_int::from(parts.ended.is_some())
}

impl Drop for State {
    fn drop(&mut self) {
        // SAFETY: the state is this value's own, and nobody uses it behind this.
        unsafe { sys::nrbpf_state_free(self.as_ptr()) }
    }
}

impl fmt::Debug for State {
    fn fmt(&self, f: &mut fmt::Formatter<'_>) -> fmt::Result {
        f.debug_struct("State").finish_non_exhaustive()
    }
}
