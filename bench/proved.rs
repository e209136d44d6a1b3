//! The proved store, as a program (bench/programs/bench_store) that is told over a pipe how many calls to make, and the programs that it runs.

use crate::twins::{Programs, Sizes};
use std::fs::read_to_string;
use std::io::{BufRead, BufReader, Write};
use std::process::{Child, ChildStdin, ChildStdout, Command, Stdio};

pub const BUMP: &str = "bf120000000000001851000000000000000000000000000085000000010000001500050000000000790600000000000007060000010000007b60000000000000bf600000000000009500000000000000b7000000ffffffff9500000000000000";

pub const PEEK: &str = "bf1200000000000018510000000000000000000000000000850000000100000015000200000000007900000000000000\
    9500000000000000b7000000ffffffff9500000000000000";

pub fn bytes(hex: &str) -> Vec<u8> {
    (0..hex.len() / 2).map(|i| u8::from_str_radix(&hex[2 * i..2 * i + 2], 16).expect("hexadecimal digits")).collect()
}

pub fn programs() -> Programs {
    Programs::new(&bytes(BUMP), &bytes(PEEK))
}

/// The proved store, in a process of its own.
pub struct Proved {
    child: Child,
    input: ChildStdin,
    output: BufReader<ChildStdout>,
}

impl Proved {
    pub fn start(path: &str, nodes: usize, slots: usize, sizes: Sizes) -> Proved {
        Proved::start_with(path, &[nodes, slots, sizes.window, sizes.entries as usize, sizes.value])
    }

    /// A store of one session, with a hash of so many entries besides.
    pub fn start_with_hash(path: &str, sizes: Sizes, keys: u32) -> Proved {
        Proved::start_with(path, &[1, 1, sizes.window, sizes.entries as usize, sizes.value, keys as usize])
    }

    /// A store of bench/programs/bench_lists: so many threads of each node, and lists of so many updates.
    pub fn start_lists(path: &str, nodes: usize, threads: usize, list: usize, sizes: Sizes) -> Proved {
        Proved::start_with(path, &[nodes, threads, list, sizes.window, sizes.entries as usize])
    }

    fn start_with(path: &str, words: &[usize]) -> Proved {
        let words = words.iter().map(|word| word.to_string());
        let mut child = Command::new(path).args(words).stdin(Stdio::piped()).stdout(Stdio::piped()).spawn().expect("the program starts");
        let input = child.stdin.take().expect("a pipe");
        let output = BufReader::new(child.stdout.take().expect("a pipe"));
        Proved { child, input, output }
    }

    /// The sum of the replies of so many calls, which the program is told in these words.
    pub fn calls(&mut self, words: &str, times: u64) -> u64 {
        writeln!(self.input, "{words} {times}").expect("the program reads");
        let mut line = String::new();
        self.output.read_line(&mut line).expect("the program writes");
        line.trim().parse().expect("a sum")
    }

    /// How much of its memory is resident, in KiB.
    pub fn resident(&self) -> u64 {
        let status = read_to_string(format!("/proc/{}/status", self.child.id())).expect("a process");
        let line = status.lines().find_map(|line| line.strip_prefix("VmRSS:")).expect("its memory");
        line.trim().trim_end_matches(" kB").parse().expect("a number")
    }

    pub fn end(mut self) {
        drop(self.input);
        assert!(self.child.wait().expect("the program ends").success());
    }
}
