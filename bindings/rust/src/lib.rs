#![doc = include_str!("../README.md")]

mod error;
mod facts;
mod lane;
mod manifest;
mod posted;
mod session;
mod state;
mod store;
pub mod sys;

#[doc(hidden)]
pub use error::NAMES;
pub use error::{Error, QuestionRefused, Refusal};
pub use facts::{Counts, MapInfo, MapShape, ProgramFacts, ProgramInfo, StoreInfo};
pub use lane::{Lane, TriedEach, MOST_SLOTS};
pub use manifest::Manifest;
pub use session::{Answer, Found, Mode, Page, Question, Scan, Session, Tried, REPLY_INVALID, REPLY_NO_ROOM};
pub use state::State;
pub use store::{Config, Limits, NotClosed, Store, ENDLESS};

/// The version of the library: its major number and its minor one.
pub fn version() -> (u32, u32) {
    // SAFETY: it takes nothing.
    let version = unsafe { sys::nrbpf_version() };
    (version / 1000, version % 1000)
}
