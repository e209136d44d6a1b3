// Readers and writers that move one byte at a time, and of which one read or one write fails.

ghost use Rattle.std.specs.Prelude.{⊤};

use crate::served::{BUMP_LINE, PEEK_LINE};
use engine::Folder;
use std::cell::Cell;
use std::io;
use std::io::{ErrorKind, Read, Write};

/// How often something was asked for, and which time fails; 0 for none.
#[derive(Drop)]
pub struct Turns {
    made: Cell<u64>,
    fails_at: u64,
}

impl Turns {
    /// None made yet.
    pub fn new(fails_at: u64) -> Turns {
        Turns {
            made: Cell::new(0),
            fails_at,
        }
    }

    /// How many were made.
    pub fn made(&self) -> u64 {
        self.made.get()
    }

    /// One more; whether it may succeed.
    fn take(&self) -> bool {
        let made = self.made.get().saturating_add(1);
        self.made.set(made);
        made != self.fails_at
    }
}

/// A text, read one byte at a time.
#[derive(Drop)]
pub struct Slow<'a> {
    left: &'a [u8],
    turns: &'a Turns,
}

impl<'a> Slow<'a> {
    /// Makes a slow text: its reads are counted with those of other texts.
    pub fn new(text: &'a str, turns: &'a Turns) -> Slow<'a> {
        Slow {
            left: text.as_bytes(),
            turns,
        }
    }
}

impl Read for Slow<'_> {
    fn read(&mut self, buf: &mut [u8]) -> io::Result<usize> {
        if !self.turns.take() {
            return Err(io::Error::from(ErrorKind::Interrupted));
        }
        match self.left {
            [first, rest @ ..] if !buf.is_empty() => {
                buf[0] = *first;
                self.left = rest;
                Ok(1)
            }
            _ => Ok(0),
        }
    }
}

/// The files that the manifest names.
#[derive(Drop)]
pub struct Programs<'a> {
    pub turns: &'a Turns,
}

impl<'a> Folder for Programs<'a> {
    type File = Slow<'a>;

    ghost can_fail = { λ _ _. ⊤ };

    fn open(&self, name: &str) -> Option<Slow<'a>> {
        match name {
            "bump.hex" => Some(Slow::new(BUMP_LINE, self.turns)),
            "peek.hex" => Some(Slow::new(PEEK_LINE, self.turns)),
            _ => None,
        }
    }
}

/// A writer that takes one byte at a time, and whose failing write is an error or takes nothing.
#[derive(Drop)]
pub struct Narrow<'a> {
    taken: [u8; 512],
    len: usize,
    turns: &'a Turns,
    is_error: bool,
}

impl<'a> Narrow<'a> {
    /// Nothing is written yet.
    pub fn new(turns: &'a Turns, is_error: bool) -> Narrow<'a> {
        Narrow {
            taken: [0; 512],
            len: 0,
            turns,
            is_error,
        }
    }

    /// What was written.
    pub fn text(&self) -> &[u8] {
        self.taken.get(..self.len).unwrap_or(&[])
    }
}

impl Write for Narrow<'_> {
    fn write(&mut self, buf: &[u8]) -> io::Result<usize> {
        if !self.turns.take() {
            if self.is_error {
                return Err(io::Error::from(ErrorKind::Interrupted));
            }
            return Ok(0);
        }
        if buf.is_empty() || self.len >= 512 {
            return Ok(0);
        }
        self.taken[self.len] = buf[0];
        self.len += 1;
        Ok(1)
    }

    fn flush(&mut self) -> io::Result<()> {
        Ok(())
    }
}
