//! Refusals, and the errors that they become.

use crate::sys;
use std::ffi::CStr;
use std::fmt;
use std::io;

/// A letter and a number of docs/REFUSALS.md, as `V18`.
#[derive(Clone, Copy, PartialEq, Eq, Hash)]
pub struct Refusal(pub(crate) u32);

impl Refusal {
    pub(crate) const fn new(letter: char, number: u8) -> Refusal {
        Refusal((letter as u32) << 8 | number as u32)
    }

    /// Who refuses: `V` is the verifier, for one.
    pub fn letter(self) -> char {
        char::from((self.0 >> 8) as u8)
    }

    /// Why.
    pub fn number(self) -> u8 {
        self.0 as u8
    }

    /// What it means, in a line that begins with its letter and number.
    pub fn text(self) -> &'static str {
        // SAFETY: the text is a constant of the library, never null.
        unsafe { CStr::from_ptr(sys::nrbpf_status_text(self.0)) }.to_str().unwrap_or("")
    }
}

impl fmt::Debug for Refusal {
    fn fmt(&self, f: &mut fmt::Formatter<'_>) -> fmt::Result {
        write!(f, "{}{}", self.letter(), self.number())
    }
}

impl fmt::Display for Refusal {
    fn fmt(&self, f: &mut fmt::Formatter<'_>) -> fmt::Result {
        f.write_str(self.text())
    }
}

/// Makes the enum, and the ways from and to what the library says, of one table: a name, its letter and number, and what it means.
macro_rules! errors {
    (
        plain { $($plain:ident = $pl:literal $pn:literal: $ptext:literal,)* }
        line { $($line:ident = $ll:literal $ln:literal: $ltext:literal,)* }
        program { $($program:ident = $gl:literal $gn:literal: $gtext:literal,)* }
        install { $($install:ident = $il:literal $in:literal: $itext:literal,)* }
    ) => {
        /// Why a call refused, or an install did nothing. `Display` writes the library's text.
        #[derive(Clone, Copy, Debug, PartialEq, Eq, Hash)]
        #[non_exhaustive]
        #[allow(missing_docs)] // of the fields: a line counts from 1, a slot from 0
        pub enum Error {
            $(#[doc = $ltext] $line { line: u32 },)*
            $(#[doc = $gtext] $program { line: u32, why: Refusal, slot: u32 },)*
            $(#[doc = $itext] $install { why: Refusal, slot: u32 },)*
            $(#[doc = $ptext] $plain,)*
            /// An install found no free place. It is in the history, at `point`, and did nothing. It is no refusal: its letter and number are 0.
            NoPlace { point: u64 },
            /// A refusal that this crate doesn't know.
            Other(Refusal),
        }

        impl Error {
            pub(crate) fn of(told: sys::nrbpf_error) -> Error {
                let sys::nrbpf_error { status, inner, line, slot } = told;
                match (char::from((status >> 8) as u8), status as u8) {
                    $(($pl, $pn) => Error::$plain,)*
                    $(($ll, $ln) => Error::$line { line },)*
                    $(($gl, $gn) => Error::$program { line, why: Refusal(inner), slot },)*
                    $(($il, $in) => Error::$install { why: Refusal(inner), slot },)*
                    _ => Error::Other(Refusal(status)),
                }
            }

            fn told(self) -> sys::nrbpf_error {
                let status = self.refusal().0;
                let (inner, line, slot) = match self {
                    $(Error::$line { line } => (0, line, 0),)*
                    $(Error::$program { line, why, slot } => (why.0, line, slot),)*
                    $(Error::$install { why, slot } => (why.0, 0, slot),)*
                    _ => (0, 0, 0),
                };
                sys::nrbpf_error { status, inner, line, slot }
            }

            /// Its letter and number.
            pub fn refusal(self) -> Refusal {
                match self {
                    $(Error::$plain => Refusal::new($pl, $pn),)*
                    $(Error::$line { .. } => Refusal::new($ll, $ln),)*
                    $(Error::$program { .. } => Refusal::new($gl, $gn),)*
                    $(Error::$install { .. } => Refusal::new($il, $in),)*
                    Error::NoPlace { .. } => Refusal(0),
                    Error::Other(refusal) => refusal,
                }
            }
        }

        /// Each refusal's name and number, for the test that compares them with the header's.
        #[doc(hidden)]
        pub const NAMES: &[(&str, Refusal)] = &[
            $((stringify!($line), Refusal::new($ll, $ln)),)*
            $((stringify!($program), Refusal::new($gl, $gn)),)*
            $((stringify!($install), Refusal::new($il, $in)),)*
            $((stringify!($plain), Refusal::new($pl, $pn)),)*
        ];
    };
}

errors! {
    plain {
        NoMemoryToLoad = 'C' 6: "C6: no memory to load the programs",
        NoMemoryForDump = 'E' 0: "E0: no memory for a dump, or for what it says",
        OutOfLimits = 'O' 1: "O1: a number of the configuration is out of its limits",
        NoMemory = 'O' 2: "O2: no memory for the store or the state",
        OtherState = 'O' 3: "O3: the state has other maps, or more or longer programs than there is room for",
        UnknownProgram = 'S' 1: "S1: unknown program",
        ArgumentLength = 'S' 2: "S2: the argument has another length",
        OtherMode = 'S' 3: "S3: the program has the other mode",
        Full = 'S' 4: "S4: the history has all its records: reads go on, updates do not",
        Attached = 'S' 5: "S5: sessions are attached: one was forgotten",
        TooLarge = 'S' 6: "S6: the program to install or its argument is too large",
        UnknownMap = 'S' 9: "S9: the store has no such map",
        UnknownPlace = 'S' 10: "S10: the map has no such place",
        KeyLength = 'S' 11: "S11: the map's keys have another length",
        ValueLength = 'S' 12: "S12: the map's values have another length",
        NoSession = 'H' 1: "H1: the node has too few free sessions, or there is no such node",
        Detached = 'H' 2: "H2: the session or the lane is not attached",
        Unanswered = 'H' 3: "H3: an update is posted on this session or lane and not answered: `poll` or `wait` comes first",
        NotUtf8 = 'H' 4: "H4: a text is not UTF-8",
        BadCall = 'H' 5: "H5: more than 16 questions, more calls than a lane has slots, or a lane of no or more than 16 slots",
        OtherStore = 'H' 6: "H6: the session is of another store",
        NullPointer = 'H' 7: "H7: a null pointer",
        OtherVersion = 'H' 8: "H8: this crate was made for a header that the library does not know",
        OtherSizes = 'H' 9: "H9: the state has other maps, another number of places or other `long_bytes` than the store",
        Stopped = 'H' 10: "H10: a dump's writer had enough",
        NothingPosted = 'H' 11: "H11: no update is posted on this session or lane",
    }
    line {
        BadLine = 'C' 1: "C1: no line of a manifest, or its program file is not among those given",
        BadDigits = 'C' 2: "C2: a program file is not hexadecimal digits",
        TooMuch = 'C' 5: "C5: too many maps or programs, or too large ones",
        BadDumpLine = 'E' 1: "E1: no line of a dump",
        BadDumpMap = 'E' 2: "E2: the manifest has no such map",
        BadDumpKey = 'E' 3: "E3: the key is none of that map",
        BadDumpValue = 'E' 4: "E4: the value has another length than that map's",
        BadDumpOrder = 'E' 5: "E5: the line is out of order",
        BadDumpZeros = 'E' 6: "E6: the value of an array is all zeros",
        DumpTooManyKeys = 'E' 7: "E7: the map has no room for the key",
        DumpTooManyPrograms = 'E' 9: "E9: there is no place for the program",
    }
    program {
        FileNotDecoded = 'C' 3: "C3: a program file is no program; `why` has the letter D",
        FileNotAccepted = 'C' 4: "C4: a program is not accepted; `why` has the letter V",
        DumpBadProgram = 'E' 8: "E8: a program of a dump is none, or not accepted; `why` has the letter D or V",
    }
    install {
        NotDecoded = 'S' 7: "S7: what is to be installed is no program; `why` has the letter D",
        NotAccepted = 'S' 8: "S8: what is to be installed is not accepted; `why` has the letter V",
    }
}

impl fmt::Display for Error {
    fn fmt(&self, f: &mut fmt::Formatter<'_>) -> fmt::Result {
        if let Error::NoPlace { .. } = self {
            return f.write_str("there is no free place for the program");
        }
        let mut text = [0; 512];
        // SAFETY: the room is as long as the call is told, and there is a zero in it behind the call.
        let text = unsafe {
            sys::nrbpf_error_text(&self.told(), text.as_mut_ptr(), text.len());
            CStr::from_ptr(text.as_ptr())
        };
        f.write_str(&text.to_string_lossy())
    }
}

impl std::error::Error for Error {}

impl From<Error> for io::Error {
    fn from(why: Error) -> io::Error {
        io::Error::other(why)
    }
}

/// Why [`Session::read_each`](crate::Session::read_each) or [`Lane::update_each`](crate::Lane::update_each) answered nothing.
#[derive(Clone, Copy, Debug, PartialEq, Eq, Hash)]
pub struct QuestionRefused {
    /// The first question or call that is refused, with S1 to S3; of other refusals none.
    pub question: Option<usize>,
    /// Why.
    pub why: Error,
}

impl QuestionRefused {
    pub(crate) fn of(told: sys::nrbpf_error) -> QuestionRefused {
        let why = Error::of(told);
        let is_of_one = matches!(why, Error::UnknownProgram | Error::ArgumentLength | Error::OtherMode);
        QuestionRefused { question: is_of_one.then_some(told.slot as usize), why }
    }
}

impl fmt::Display for QuestionRefused {
    fn fmt(&self, f: &mut fmt::Formatter<'_>) -> fmt::Result {
        match self.question {
            Some(number) => write!(f, "question {number}: {}", self.why),
            None => self.why.fmt(f),
        }
    }
}

impl std::error::Error for QuestionRefused {}

impl From<Error> for QuestionRefused {
    fn from(why: Error) -> QuestionRefused {
        QuestionRefused { question: None, why }
    }
}

impl From<QuestionRefused> for Error {
    fn from(it: QuestionRefused) -> Error {
        it.why
    }
}

/// Of a status the error, if it is one.
pub(crate) fn check(status: u32) -> Result<(), Error> {
    check_with(status, sys::nrbpf_error::default())
}

/// The same of a call that says more than a status.
pub(crate) fn check_with(status: u32, told: sys::nrbpf_error) -> Result<(), Error> {
    if status == sys::NRBPF_OK {
        Ok(())
    } else {
        Err(Error::of(sys::nrbpf_error { status, ..told }))
    }
}
