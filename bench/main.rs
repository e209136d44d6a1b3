//! Runs the same programs in the proved machine and in three conventional interpreters, checks that all give the same replies, and prints
//! how their times compare. With the name of a program, of a machine, and a number it runs that alone so often, for a tool that counts
//! processor instructions.

mod host;
mod interpreter;

use interpreter::{Array, decode, run};
use std::hint::black_box;
use std::time::{Duration, Instant};

unsafe extern "C" {
    // Opens one array of so many 8-byte values, verifies the program once, runs it so often, and answers the sum of the replies.
    fn bench_run(code: *const u8, code_len: usize, argument: *const u8, argument_len: usize, entries: u32, times: u64) -> u64;

    // Runs a program so often over one array of 8-byte values, in C, and answers the sum of the replies (threaded.c).
    fn threaded_run(code: *mut u8, slots: u64, argument: *const u8, values: *mut u8, entries: u32, times: u64) -> u64;
}

struct Program {
    name: &'static str,
    code: Vec<u8>,
    argument: Vec<u8>,
    entries: u32,
    steps: u32,
    times: u64,
}

fn proved(program: &Program, times: u64) -> u64 {
    let (code, argument) = (&program.code, &program.argument);
    unsafe { bench_run(code.as_ptr(), code.len(), argument.as_ptr(), argument.len(), program.entries, times) }
}

fn plain<const CHECKED: bool>(program: &Program, times: u64) -> u64 {
    let instructions = decode(&program.code);
    let mut array = Array { values: vec![0; 8 * program.entries as usize], entries: program.entries };
    let mut sum = 0u64;
    for _ in 0..times {
        let (reply, steps) = run::<CHECKED>(black_box(&instructions), &mut array, black_box(&program.argument)).expect("the program is good");
        assert_eq!(steps, program.steps);
        sum = sum.wrapping_add(reply);
    }
    sum
}

fn threaded(program: &Program, times: u64) -> u64 {
    let slots = program.code.len() / 8;
    // (in words, so that they lie where instructions may)
    let mut code: Vec<u64> = program.code.chunks_exact(8).map(|slot| u64::from_le_bytes(slot.try_into().expect("8 bytes"))).collect();
    let mut values = vec![0u64; program.entries as usize];
    unsafe { threaded_run(code.as_mut_ptr().cast(), slots as u64, program.argument.as_ptr(), values.as_mut_ptr().cast(), program.entries, times) }
}

const MACHINES: [(&str, fn(&Program, u64) -> u64); 4] =
    [("proved", proved), ("threaded", threaded), ("safe", plain::<true>), ("unchecked", plain::<false>)];

fn timed(f: impl FnOnce() -> u64) -> (u64, Duration) {
    let start = Instant::now();
    let sum = f();
    (sum, start.elapsed())
}

fn bytes(hex: &str) -> Vec<u8> {
    let digits: Vec<u32> = hex.chars().filter_map(|c| c.to_digit(16)).collect();
    digits.chunks(2).map(|pair| (pair[0] * 16 + pair[1]) as u8).collect()
}

const EXIT: &str = "9500000000000000";

// Additions and moves between a first number and the exit.
fn straight(additions: u32) -> Vec<u8> {
    let mut code = bytes("b700000001000000 b706000000000000 b707000000000000");
    for k in 0..additions {
        code.extend(match k % 4 {
            0 => bytes("0700000003000000"),
            1 => bytes("bf06000000000000"),
            2 => bytes("0f60000000000000"),
            _ => bytes("b707000005000000"),
        });
    }
    code.extend(bytes(EXIT));
    code
}

// Sixty operations on r0, each on the result of the one before: all operations of both widths, with immediates and with r6.
fn dependent() -> Vec<u8> {
    let mut code = bytes("b7000000efbead0b b706000007000000");
    for k in 0..60u8 {
        let operation = [0x00, 0x20, 0xa0, 0x60, 0x10, 0x40, 0x70, 0x80, 0x50, 0xc0, 0x30, 0x90, 0x00, 0x20, 0xa0][k as usize % 15];
        let class = [0x07, 0x0f, 0x04, 0x0c][k as usize / 15];
        let source = if class & 8 == 8 && operation != 0x80 { 0x60 } else { 0x00 };
        let opcode = if operation == 0x80 { operation | class & 7 } else { operation | class };
        let imm = if class & 8 == 8 || operation == 0x80 { 0 } else { [3, 5, 0x55, 2, 9, 0x41, 1, 0, 0x7fff_ffff, 1, 3, 0x00ff_fff1, 11, 77, 0x1234][k as usize % 15] };
        code.extend([opcode, source, 0, 0]);
        code.extend(i32::to_le_bytes(imm));
    }
    code.extend(bytes(EXIT));
    code
}

const BUMP: &str = "bf12000000000000 1851000000000000 0000000000000000 8500000001000000 1500050000000000 7906000000000000 \
    0706000001000000 7b60000000000000 bf60000000000000 9500000000000000 b7000000ffffffff 9500000000000000";

const PEEK: &str = "bf12000000000000 1851000000000000 0000000000000000 8500000001000000 1500020000000000 7900000000000000 \
    9500000000000000 b7000000ffffffff 9500000000000000";

fn programs() -> Vec<Program> {
    let program = |name, code, argument: u32, entries, steps, times| Program { name, code, argument: argument.to_le_bytes().to_vec(), entries, steps, times };
    vec![
        program("straight", straight(57), 0, 16, 61, 400_000),
        program("bump", bytes(BUMP), 3, 16, 9, 2_000_000),
        program("peek", bytes(PEEK), 3, 16, 6, 2_000_000),
        program("dependent", dependent(), 0, 16, 63, 400_000),
        program("long", straight(4_092), 0, 16, 4_096, 5_000),
        program("wide", bytes(BUMP), 40_000, 65_536, 9, 2_000_000),
    ]
}

// One machine alone, for a counter of processor instructions.
fn alone(program: &str, machine: &str, times: u64) {
    let programs = programs();
    let program = programs.iter().find(|p| p.name == program).expect("a program's name");
    let (_, run) = MACHINES.iter().find(|m| m.0 == machine).expect("a machine's name");
    println!("{} {} {}", program.steps, times, run(program, times));
}

fn main() {
    let arguments: Vec<String> = std::env::args().collect();
    if let [_, program, machine, times] = &arguments[..] {
        return alone(program, machine, times.parse().expect("a number"));
    }
    host::print();
    let [program, steps, proved, threaded, safe, unchecked] = ["program", "steps", "proved ns", "threaded ns", "safe ns", "unchecked"];
    let [to_threaded, to_safe, to_unchecked] = ["to threaded", "to safe", "to unch."];
    println!("{program:<10}{steps:>6}{proved:>12}{threaded:>12}{safe:>12}{unchecked:>12}{to_threaded:>12}{to_safe:>10}{to_unchecked:>10}");
    for program in programs() {
        let mut best = [Duration::MAX; 4];
        for _ in 0..7 {
            let mut sums = [0; 4];
            for (k, (_, run)) in MACHINES.iter().enumerate() {
                let (sum, time) = timed(|| run(&program, program.times));
                sums[k] = sum;
                best[k] = best[k].min(time);
            }
            assert!(sums.iter().all(|sum| *sum == sums[0]), "{}: the replies differ", program.name);
        }
        let each = best.map(|t| t.as_nanos() as f64 / program.times as f64);
        let ratio = |k: usize| each[0] / each[k];
        let [proved, threaded, safe, unchecked] = each;
        print!("{:<10}{:>6}{proved:>12.1}{threaded:>12.1}{safe:>12.1}{unchecked:>12.1}", program.name, program.steps);
        println!("{:>12.2}{:>10.2}{:>10.2}", ratio(1), ratio(2), ratio(3));
    }
}
