//! One case: a block with globals and memory, and the comparison of every
//! call on it.

use crate::calls::Side;
use crate::demand;
pub use crate::second::RESULT;
use crate::second::{DECLARATION, MOVI};

/// A buffer has at most so many bytes more than the longest result.
const MORE: usize = 62;
/// What the report holds before a run.
const REPORT: [u64; 4] = [0xA5A5_A5A5_A5A5_A5A5, 1, u64::MAX, 0x5A];

#[derive(Clone)]
pub struct Case {
    pub block: Vec<u8>,
    pub globals: Vec<u64>,
    pub memory: Vec<u8>,
}

/// A call whose two answers differ, or a property that fails.
pub struct Difference {
    pub call: String,
    pub library: String,
    pub second: String,
}

/// What one run answers and leaves.
#[derive(Clone, PartialEq, Eq)]
pub struct Ran {
    pub answer: u64,
    pub report: [u64; 4],
    pub globals: Vec<u64>,
    pub memory: Vec<u8>,
}

/// What one pass answers and leaves.
#[derive(Clone, PartialEq, Eq)]
pub struct Passed {
    pub answer: u64,
    pub out: Vec<u8>,
}

impl Passed {
    /// The result, if the pass gave one that the buffer can hold.
    pub fn result(&self) -> Option<&[u8]> {
        let length = (self.answer / 256) as usize;
        if self.answer.is_multiple_of(256) {
            self.out.get(..length)
        } else {
            None
        }
    }
}

/// Runs the block on its own copy of the globals and memory.
pub fn ran(side: Side, block: &[u8], globals: &[u64], memory: &[u8]) -> Ran {
    let mut ran = Ran {
        answer: 0,
        report: REPORT,
        globals: globals.to_vec(),
        memory: memory.to_vec(),
    };
    ran.answer = side.run(block, &mut ran.globals, &mut ran.memory, &mut ran.report);
    ran
}

/// The header's `ngulo_result_bound`: the result of this block is no longer.
pub fn bound(block: &[u8]) -> usize {
    RESULT.min(MOVI * block.len() / DECLARATION)
}

/// A buffer's bytes before the pass: no two neighbours alike.
static PATTERN: [u8; RESULT + MORE] = {
    let mut bytes = [0; RESULT + MORE];
    let mut i = 0;
    while i < bytes.len() {
        bytes[i] = (i * 7 + i / 256 * 3 + 0x5B) as u8;
        i += 1;
    }
    bytes
};

/// Passes the block into a patterned buffer of this length.
pub fn passed(side: Side, block: &[u8], length: usize) -> Passed {
    let mut passed = Passed {
        answer: 0,
        out: PATTERN[..length].to_vec(),
    };
    passed.answer = side.pass(block, &mut passed.out);
    passed
}

/// The first difference of any call on this case, or a property that fails.
pub fn difference(case: &Case) -> Option<Difference> {
    check_differs(&case.block)
        .or_else(|| run_differs(case))
        .or_else(|| pass_differs(&case.block))
        .or_else(|| demand::broken(case))
}

fn check_differs(block: &[u8]) -> Option<Difference> {
    let (library, second) = (Side::Library.check(block), Side::Second.check(block));
    if library == second {
        return None;
    }
    Some(Difference {
        call: "check".into(),
        library: answer(library),
        second: answer(second),
    })
}

/// The run's answer, report, globals and memory; a refused run changes none.
pub fn run_differs(case: &Case) -> Option<Difference> {
    let library = ran(Side::Library, &case.block, &case.globals, &case.memory);
    let second = ran(Side::Second, &case.block, &case.globals, &case.memory);
    let before = Ran {
        answer: library.answer,
        report: REPORT,
        globals: case.globals.clone(),
        memory: case.memory.clone(),
    };
    if library == second && (library.answer == 0 || library == before) {
        return None;
    }
    Some(Difference {
        call: "run".into(),
        library: show_run(&library),
        second: show_run(&second),
    })
}

/// The pass into buffers of exact, more, one byte less and no room.
fn pass_differs(block: &[u8]) -> Option<Difference> {
    let whole = passed(Side::Second, block, bound(block))
        .result()
        .map_or(64, <[u8]>::len);
    let rooms = [
        whole,
        whole + 1 + block.len() % (MORE - 1),
        whole.saturating_sub(1),
        0,
        RESULT,
    ];
    rooms.into_iter().find_map(|room| pass_into(block, room))
}

fn pass_into(block: &[u8], room: usize) -> Option<Difference> {
    let library = passed(Side::Library, block, room);
    let second = passed(Side::Second, block, room);
    let untouched = match library.result() {
        Some(result) => result.len(),
        None => 0,
    };
    if library == second && library.out[untouched..] == PATTERN[untouched..room] {
        return None;
    }
    let call = format!("pass into {room} bytes");
    Some(Difference {
        call,
        library: show_pass(&library),
        second: show_pass(&second),
    })
}

/// An answer as its number and place.
pub fn answer(answer: u64) -> String {
    match (answer % 256, answer / 256) {
        (0, 0) => "accepted".into(),
        (0, length) => format!("length {length}"),
        (number, place) => format!("refusal {number} at {place}"),
    }
}

fn show_run(ran: &Ran) -> String {
    let [ending, value, more, count] = ran.report;
    let report = match (ran.answer, ending) {
        (0, 1) => format!("exit with {value:x}, {count} ops"),
        (0, 2) => format!("{} at {value:x}, {count} ops", show_fault(more)),
        (0, 3) => format!("no stated result at op {value}, {count} ops"),
        (refused, _) => format!("{}, report {:x?}", answer(refused), ran.report),
    };
    format!(
        "{report}; globals {:x?}; memory {}",
        ran.globals,
        hex(&ran.memory)
    )
}

/// What faults, its flags and the reason, from the report's third number.
fn show_fault(more: u64) -> String {
    let access = match more / 256 % 256 {
        0 => "load",
        1 => "store",
        _ => "unknown access",
    };
    let reason = match more / 65_536 {
        0 => "bounds",
        1 => "alignment",
        _ => "an unknown reason",
    };
    format!("{access} with flags {:x} faults by {reason}", more % 256)
}

fn show_pass(passed: &Passed) -> String {
    format!("{}; buffer {}", answer(passed.answer), hex(&passed.out))
}

/// Bytes in hex; of more than 400 only the first.
pub fn hex(bytes: &[u8]) -> String {
    if bytes.is_empty() {
        return "(empty)".into();
    }
    let shown: Vec<String> = bytes
        .iter()
        .take(400)
        .map(|byte| format!("{byte:02x}"))
        .collect();
    let more = if bytes.len() > 400 {
        format!(" ... {} bytes in all", bytes.len())
    } else {
        String::new()
    };
    shown.join(" ") + &more
}
