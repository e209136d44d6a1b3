//! The crates by calls from outside, of what no text can say: frames, maps, logs, desks, the lock, schedules and the store on threads. There is no code here but
//! tests: their expected values were worked out by hand. Texts and their answers are in tests/rows, readers and
//! writers that fail in tests/growths.
//!
//! A folder has the tests of the crate that it is named after. They are run, and not proved: `.ci/tests` makes a crate of them,
//! with a module for each folder.
#![tactic(auto)]
