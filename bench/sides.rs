//! The two sides that are timed: the library and plain Rust.

use crate::calls::Side;
use crate::plain;

type Check = fn(&[u8]) -> u64;
type Pass = fn(&[u8], &mut [u8]) -> u64;
type Run = fn(&[u8], &mut [u64], &mut [u8], &mut [u64; 4]) -> u64;

/// The three calls, answering in the library's numbers.
pub struct Calls {
    pub check: Check,
    pub pass: Pass,
    pub run: Run,
}

pub const LIBRARY: Calls = Calls {
    check: |block| Side::Library.check(block),
    pass: |block, out| Side::Library.pass(block, out),
    run: |block, globals, memory, report| Side::Library.run(block, globals, memory, report),
};

pub const PLAIN: Calls = Calls {
    check: plain::check,
    pass: plain::pass,
    run: plain::run,
};
