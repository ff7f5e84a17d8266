//! Holds the plain program to the library's answers: what is timed does the
//! whole job, on refused blocks too.

use crate::cases::{Case, RESULT};
use crate::sides::Calls;

/// What one call answered and left.
#[derive(PartialEq, Eq)]
enum Done {
    Check(u64),
    Run(u64, [u64; 4], Vec<u64>, Vec<u8>),
    Pass(u64, Vec<u8>),
}

/// A buffer has at most so many bytes more than the longest result.
const MORE: usize = 17;

/// What a buffer holds before a call: no two neighbours alike.
static PATTERN: [u8; RESULT + MORE] = {
    let mut bytes = [0; RESULT + MORE];
    let mut i = 0;
    while i < bytes.len() {
        bytes[i] = (i * 11 + i / 256 + 0x35) as u8;
        i += 1;
    }
    bytes
};

fn checked(side: &Calls, case: &Case) -> Done {
    Done::Check((side.check)(&case.block))
}

fn ran(side: &Calls, case: &Case) -> Done {
    let (mut globals, mut memory) = (case.globals.clone(), case.memory.clone());
    let mut report = [u64::MAX, 1, 2, 3];
    let answer = (side.run)(&case.block, &mut globals, &mut memory, &mut report);
    Done::Run(answer, report, globals, memory)
}

fn passed(side: &Calls, case: &Case, room: usize) -> Done {
    let mut out = PATTERN[..room].to_vec();
    let answer = (side.pass)(&case.block, &mut out);
    Done::Pass(answer, out)
}

/// The buffers of a pass: exact, with more, with too little and with no room.
fn rooms(side: &Calls, case: &Case) -> Vec<usize> {
    let answer = (side.pass)(&case.block, &mut [0; RESULT]);
    let whole = if answer % 256 == 0 {
        answer as usize / 256
    } else {
        0
    };
    let mut rooms = vec![RESULT, 0, whole, whole + 1, whole + MORE, whole / 2];
    rooms.push(whole.saturating_sub(1));
    rooms
}

/// The first call whose answers differ.
pub fn difference(one: &Calls, other: &Calls, case: &Case) -> Option<String> {
    if checked(one, case) != checked(other, case) {
        return Some("check".into());
    }
    if ran(one, case) != ran(other, case) {
        return Some("run".into());
    }
    let differs = |&room: &usize| passed(one, case, room) != passed(other, case, room);
    let room = rooms(one, case).into_iter().find(differs)?;
    Some(format!("pass into {room} bytes"))
}
