//! What runs of two programs add up to.

use super::bench_run;

// Adds one to the counter that the argument names, and replies what it is then.
const BUMP: [u8; 96] = [
    0xbf, 0x12, 0, 0, 0, 0, 0, 0, 0x18, 0x51, 0, 0, 0, 0, 0, 0, 0, 0, 0, 0, 0, 0, 0, 0, 0x85, 0, 0,
    0, 1, 0, 0, 0, 0x15, 0, 5, 0, 0, 0, 0, 0, 0x79, 6, 0, 0, 0, 0, 0, 0, 7, 6, 0, 0, 1, 0, 0, 0,
    0x7b, 0x60, 0, 0, 0, 0, 0, 0, 0xbf, 0x60, 0, 0, 0, 0, 0, 0, 0x95, 0, 0, 0, 0, 0, 0, 0, 0xb7, 0,
    0, 0, 0xff, 0xff, 0xff, 0xff, 0x95, 0, 0, 0, 0, 0, 0, 0,
];

#[test]
fn adds_up_replies(rt: HostRuntime) {
    assert_eq!(rt; bench_run(rt.alloc(), &BUMP, &[0; 4], 16, 3), 6);
}

#[test]
fn answers_nothing_of_a_refused_program(rt: HostRuntime) {
    assert_eq!(rt; bench_run(rt.alloc(), &[0; 8], &[0; 4], 16, 3), 0);
}
