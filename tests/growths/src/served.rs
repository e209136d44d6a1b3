// What the calls are made with: the two programs of a counter, its manifest and its script, and what each command writes for them.

/// Adds one to the number under the key, and replies it.
pub const BUMP_TEXT: &str =
    "mov64 r2, r1\nldmap r1, 0\ncall 1\njeq r0, 0, +5\nldxdw r6, [r0+0]\nadd64 r6, 1\nstxdw [r0+0], r6\nmov64 r0, r6\nexit\nmov64 r0, -1\nexit\n";

/// `BUMP_TEXT` as a program, in hexadecimal digits.
pub const BUMP_LINE: &str =
    "bf120000000000001851000000000000000000000000000085000000010000001500050000000000790600000000000007060000010000007b60000000000000bf600000000000009500000000000000b7000000ffffffff9500000000000000\n";

/// `BUMP_TEXT` after the slots and bytes of its instructions.
pub const BUMP_SLOTS: &str =
    "   0  bf12000000000000  mov64 r2, r1\n   1  18510000000000000000000000000000  ldmap r1, 0\n   3  8500000001000000  call 1\n   4  1500050000000000  jeq r0, 0, +5\n   5  7906000000000000  ldxdw r6, [r0+0]\n   6  0706000001000000  add64 r6, 1\n   7  7b60000000000000  stxdw [r0+0], r6\n   8  bf60000000000000  mov64 r0, r6\n   9  9500000000000000  exit\n  10  b7000000ffffffff  mov64 r0, -1\n  11  9500000000000000  exit\n";

/// Replies the number under the key.
pub const PEEK_LINE: &str =
    "bf12000000000000185100000000000000000000000000008500000001000000150002000000000079000000000000009500000000000000b7000000ffffffff9500000000000000\n";

/// The counter's maps and programs.
pub const MANIFEST: &str =
    "map array 8 16\nmap hash 4 8 4\nprogram bump update 4 bump.hex\nprogram peek read 4 peek.hex\n";

/// Counts twice, and reads.
pub const SCRIPT: &str = "bump 00000000\nbump 00000000\npeek 00000000\nbump 00\n";

/// The counter with its map alone.
pub const COUNTER: &str =
    "map array 8 16\nprogram bump update 4 bump.hex\nprogram peek read 4 peek.hex\n";

/// Five calls of it, of which the last names no program.
pub const FIVE_CALLS: &str =
    "bump 00000000\nbump 00000000\npeek 00000000\nbump 10000000\nnope 00\n";

/// Counts once in a store of one node, and reads.
pub const STEPS: &str =
    "post 0 0 bump 00000000\nclaim 0\nappend 0\nreplay 0\nfinish 0\nreply 0\ncollect 0 0\nreadbegin 0 1 peek 00000000\nreadanswer 0 1\n";

/// The calls of those steps and their answers.
pub const TRANSCRIPT: &str = "u 0 bump 00000000 1\nr 1 peek 00000000 1\n";

/// Counts, reads, and counts again: calls that `stress` makes all.
pub const CALLS: &str = "bump 00000000\npeek 00000000\nbump 00000000\n";

/// A command.
#[derive(Clone, Copy)]
pub enum Command {
    Check,
    Run,
    Assemble,
    Disassemble,
    Slots,
    Schedule,
    Replay,
    Stress,
    Serve,
}

/// Each command by its name.
pub const COMMANDS: [(&str, Command); 9] = [
    ("check", Command::Check),
    ("run", Command::Run),
    ("asm", Command::Assemble),
    ("dis", Command::Disassemble),
    ("dis --slots", Command::Slots),
    ("schedule", Command::Schedule),
    ("replay", Command::Replay),
    ("stress", Command::Stress),
    ("serve", Command::Serve),
];

/// What a command writes.
pub fn written(command: Command) -> &'static str {
    match command {
        Command::Check => "bump ok 12 11\npeek ok 9 8\n",
        Command::Run | Command::Serve => {
            "update 0 reply 1 steps 9\nupdate 1 reply 2 steps 9\nread 2 reply 2 steps 6\nrefused S2\n"
        }
        Command::Assemble => {
            "bf12000000000000185100000000000000000000000000008500000001000000150005000000000079060000000000000706000001000000\
            7b60000000000000bf600000000000009500000000000000b7000000ffffffff9500000000000000\n"
        }
        Command::Disassemble => BUMP_TEXT,
        Command::Slots => BUMP_SLOTS,
        Command::Schedule => {
            "ok\nok\nok\nok\nok\nok\nok place 0 reply 1\nok\nok point 1 reply 1\nlog base 0 tail 1 done 1\nnode 0 tail 1\n"
        }
        Command::Replay => "good 1 1 0\n",
        Command::Stress => "u 0 bump 00000000 1\nr 1 peek 00000000 1\nu 1 bump 00000000 2\n",
    }
}

/// Whether a command's answer may begin so where it breaks off: what `serve` has answered is written.
pub fn may_have_written(command: Command, text: &[u8]) -> bool {
    match command {
        Command::Serve => written(command).as_bytes().starts_with(text),
        _ => text.is_empty(),
    }
}
