//! The comparison's code as a static library for the fuzz target.

#[path = "../compare/blocks.rs"]
pub mod blocks;
#[path = "../compare/calls.rs"]
pub mod calls;
#[path = "../compare/cases.rs"]
pub mod cases;
#[path = "../compare/demand.rs"]
pub mod demand;
#[path = "../compare/second.rs"]
pub mod second;
#[path = "../compare/shrink.rs"]
pub mod shrink;

use cases::{difference, hex, Case};
use std::slice;

/// Compares every call on one block; 0 if nothing differs. A difference is
/// made smaller and printed.
///
/// # Safety
/// Each pointer is not null and points to as many items as its length says.
#[no_mangle]
pub unsafe extern "C" fn compare_differs(
    block: *const u8,
    block_length: usize,
    globals: *const u64,
    globals_length: usize,
    memory: *const u8,
    memory_length: usize,
) -> i32 {
    let case = Case {
        block: slice::from_raw_parts(block, block_length).to_vec(),
        globals: slice::from_raw_parts(globals, globals_length).to_vec(),
        memory: slice::from_raw_parts(memory, memory_length).to_vec(),
    };
    if difference(&case).is_none() {
        return 0;
    }
    let smallest = shrink::smallest(case, &|case| difference(case).is_some());
    if let Some(found) = difference(&smallest) {
        eprintln!("difference: {}", found.call);
        eprintln!("  block:   {}", hex(&smallest.block));
        eprintln!("  globals: {:x?}", smallest.globals);
        eprintln!("  memory:  {}", hex(&smallest.memory));
        eprintln!("  library: {}", found.library);
        eprintln!("  second:  {}", found.second);
    }
    1
}
