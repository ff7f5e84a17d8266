//! The library's C interface, and the second interpreter's answers in the
//! same numbers.

use crate::second::{self, Ending, Refusal};

extern "C" {
    fn ngulo_check(block: *const u8, block_length: usize) -> u64;
    fn ngulo_pass(block: *const u8, block_length: usize, out: *mut u8, out_length: usize) -> u64;
    fn ngulo_run(
        block: *const u8,
        block_length: usize,
        globals: *mut u64,
        globals_length: usize,
        memory: *mut u8,
        memory_length: usize,
        report: *mut u64,
    ) -> u64;
}

/// One side of the comparison: the three calls, answering in numbers.
#[derive(Clone, Copy, PartialEq, Eq)]
pub enum Side {
    Library,
    Second,
}

impl Side {
    /// 0 for accepted, else number + 256 * place.
    pub fn check(self, block: &[u8]) -> u64 {
        if self == Side::Second {
            return second::check(block).map_or_else(refused, |()| 0);
        }
        // SAFETY: the pointer and length are those of one slice.
        unsafe { ngulo_check(block.as_ptr(), block.len()) }
    }

    /// 256 * the result's length, else number + 256 * place.
    pub fn pass(self, block: &[u8], out: &mut [u8]) -> u64 {
        if self == Side::Second {
            return second::pass(block, out).map_or_else(refused, |length| 256 * length as u64);
        }
        // SAFETY: each pointer and length are those of one slice; `out` is lent alone.
        unsafe { ngulo_pass(block.as_ptr(), block.len(), out.as_mut_ptr(), out.len()) }
    }

    /// 0 with the ending in the report, else number + 256 * place.
    pub fn run(
        self,
        block: &[u8],
        globals: &mut [u64],
        memory: &mut [u8],
        report: &mut [u64; 4],
    ) -> u64 {
        if self == Side::Second {
            return match second::run(block, globals, memory) {
                Ok(ending) => {
                    *report = reported(ending);
                    0
                }
                Err(refusal) => refused(refusal),
            };
        }
        // SAFETY: each pointer and length are those of one slice, the written
        // ones lent alone; the report has its four numbers.
        unsafe {
            ngulo_run(
                block.as_ptr(),
                block.len(),
                globals.as_mut_ptr(),
                globals.len(),
                memory.as_mut_ptr(),
                memory.len(),
                report.as_mut_ptr(),
            )
        }
    }
}

fn refused(refusal: Refusal) -> u64 {
    refusal.number as u64 + 256 * refusal.place as u64
}

fn reported(ending: Ending) -> [u64; 4] {
    match ending {
        Ending::Exit { value, count } => [1, value, 0, count],
        Ending::Fault {
            store,
            address,
            flags,
            reason,
            count,
        } => {
            let access = flags as u64 + 256 * store as u64 + 65_536 * reason as u64;
            [2, address, access, count]
        }
        Ending::NoResult { position, count } => [3, position, 0, count],
    }
}
