//! The paper's own cases and some of request 02, worked out by hand, asked of
//! the library and of the second interpreter; `worked` has those of request 03,
//! `worked_aligned` those of request 04, `worked_limits` those of request 05.

use crate::calls::Side;
use crate::cases::{hex, passed, ran, Ran, RESULT};
use crate::{worked, worked_aligned, worked_limits};

/// Kind, both inputs, cond if any, and the result if stated.
type Stated = (u8, u64, u64, &'static [u8], Option<u64>);

/// Cases 3 to 7, and one sum without a wrap.
const RESULTS: [Stated; 10] = [
    (0x14, 0xFFFF_FFFF, 1, &[], Some(0)),
    (0x1F, 0x8000_0000, 0xFFFF_FFFF, &[], None),
    (0x1F, 0x8000_0001, 0xFFFF_FFFF, &[], Some(0x7FFF_FFFF)),
    (0x1F, 0xFFFF_FFF9, 2, &[], Some(0xFFFF_FFFD)),
    (0x21, 0xFFFF_FFF9, 2, &[], Some(0xFFFF_FFFF)),
    (0x25, 0x8000_0000, 31, &[], Some(0xFFFF_FFFF)),
    (0x25, 0x8000_0000, 32, &[], None),
    (0x28, 0xFFFF_FFFF, 0, &[2], Some(1)),
    (0x28, 0xFFFF_FFFF, 0, &[6], Some(0)),
    (0x14, 2, 3, &[], Some(5)),
];

/// Case 8: kind, types of output and input, input, result.
const CONVERSIONS: [(u8, u8, u8, u64, u64); 3] = [
    (0x05, 1, 0, 0x8000_0000, 0xFFFF_FFFF_8000_0000),
    (0x06, 1, 0, 0x8000_0000, 0x8000_0000),
    (0x07, 0, 1, 0x1_0000_0005, 5),
];

/// Cases 9 and 10, memory of 16 bytes that starts 12 34 80: address, flags,
/// and the value loaded into 32 bits if no fault.
const LOADS: [(u64, u8, Option<u64>); 6] = [
    (12, 2, Some(0)),
    (13, 2, None),
    (u64::MAX, 0, None),
    (2, 4, Some(0xFFFF_FF80)),
    (0, 1, Some(0x3412)),
    (0, 9, Some(0x1234)),
];

/// Case 12: 000's three-op example, whole.
const SOURCE: [u8; 38] = [
    1, 0, 1, 1, 0, 0, 1, 0, 0, 1, 0, 0, 1, 2, 0, 0x10, 4, 1, 0, 0, 0, 0, 0, 0, 0, 0x14, 1, 2, 3,
    0x14, 1, 1, 4, 0x11, 1, 4, 4, 0,
];
const PRUNED: [u8; 27] = [
    1, 0, 1, 1, 0, 0, 1, 0, 0, 1, 0, 0, 1, 2, 0, 0x10, 1, 1, 0, 0, 0, 0, 0, 0, 0, 4, 0,
];

/// Request 02, over v0 a global, v1 a local temporary and v2 a temporary, all
/// of 64 bits.
const DECLARED: &[u8] = &[1, 0, 1, 1, 1, 1, 1, 2, 1];
const V0_IS_1: &[u8] = &[0x90, 0, 1, 0, 0, 0, 0, 0, 0, 0];
const V0_IS_5: &[u8] = &[0x90, 0, 5, 0, 0, 0, 0, 0, 0, 0];
const V1_IS_5: &[u8] = &[0x90, 1, 5, 0, 0, 0, 0, 0, 0, 0];
const V2_IS_5: &[u8] = &[0x90, 2, 5, 0, 0, 0, 0, 0, 0, 0];
const V0_IS_10: &[u8] = &[0x90, 0, 10, 0, 0, 0, 0, 0, 0, 0];
const V0_TO_2: &[u8] = &[0x91, 2, 0];
const V1_TO_0: &[u8] = &[0x91, 0, 1];
const V1_TO_2: &[u8] = &[0x91, 2, 1];
const V2_TO_0: &[u8] = &[0x91, 0, 2];
const TWICE_V1: &[u8] = &[0x94, 0, 1, 1];
const TWICE_V2: &[u8] = &[0x94, 0, 2, 2];
const BRCOND: &[u8] = &[0xAA, 1, 1, 0, 0];
const BR: &[u8] = &[3, 0];
const LABEL: &[u8] = &[2, 0];
const EXIT: &[u8] = &[4, 0];

type Ops = &'static [&'static [u8]];

/// Ops, and what the pass makes of them or the place of refusal 8.
type Branch = (Ops, Result<Ops, u64>);

const BRANCHES: [Branch; 12] = [
    // Known values are kept past brcond; the temporary is then dead.
    (
        &[V2_IS_5, BRCOND, TWICE_V2, LABEL, EXIT],
        Ok(&[BRCOND, V0_IS_10, LABEL, EXIT]),
    ),
    (
        &[V1_IS_5, BRCOND, TWICE_V1, LABEL, EXIT],
        Ok(&[V1_IS_5, BRCOND, V0_IS_10, LABEL, EXIT]),
    ),
    // But not past the label.
    (
        &[V1_IS_5, BRCOND, LABEL, TWICE_V1, EXIT],
        Ok(&[V1_IS_5, BRCOND, LABEL, TWICE_V1, EXIT]),
    ),
    // A temporary live after brcond is live before it, also before two.
    (
        &[V0_TO_2, BRCOND, V1_TO_0, V2_TO_0, LABEL, EXIT],
        Ok(&[V0_TO_2, BRCOND, V2_TO_0, LABEL, EXIT]),
    ),
    (
        &[V0_TO_2, BRCOND, BRCOND, V2_TO_0, LABEL, EXIT],
        Ok(&[V0_TO_2, BRCOND, BRCOND, V2_TO_0, LABEL, EXIT]),
    ),
    // One that is dead after it is dead before it.
    (&[V0_TO_2, BRCOND, LABEL, EXIT], Ok(&[BRCOND, LABEL, EXIT])),
    (
        &[V0_TO_2, BRCOND, V1_TO_2, V2_TO_0, LABEL, EXIT],
        Ok(&[BRCOND, V1_TO_2, V2_TO_0, LABEL, EXIT]),
    ),
    // All globals and local temporaries are live before it.
    (
        &[V0_IS_1, V1_IS_5, BRCOND, V1_TO_0, LABEL, EXIT],
        Ok(&[V0_IS_1, V1_IS_5, BRCOND, V0_IS_5, LABEL, EXIT]),
    ),
    // Set_label, br and exit_tb end everything.
    (&[V2_IS_5, LABEL, V2_TO_0, EXIT], Err(21)),
    (&[V2_IS_5, BRCOND, LABEL, V2_TO_0, EXIT], Err(26)),
    (&[V2_IS_5, BR, V2_TO_0, LABEL, EXIT], Err(21)),
    (&[V2_IS_5, EXIT, V2_TO_0, EXIT], Err(21)),
];

/// The first of these cases that a side does not answer as stated.
pub fn failed() -> Option<String> {
    for (side, name) in [
        (Side::Library, "the library"),
        (Side::Second, "the second interpreter"),
    ] {
        let sets = [
            blocks(side),
            results(side),
            conversions(side),
            loads(side),
            limits(side),
            example(side),
            branches(side),
            worked::failed(side),
            worked_aligned::failed(side),
            worked_limits::failed(side),
        ];
        if let Some(what) = sets.into_iter().flatten().next() {
            return Some(format!("{what}, by {name}"));
        }
    }
    None
}

fn unless(holds: bool, what: String) -> Option<String> {
    if holds {
        None
    } else {
        Some(what)
    }
}

/// Cases 1 and 2.
fn blocks(side: Side) -> Option<String> {
    let run = ran(side, &[1, 0, 1, 4, 0], &[0xABCD], &[]);
    let holds = side.check(&[]) == 10
        && side.check(&[1, 0]) == 1
        && side.check(&[1, 0, 1, 4, 0]) == 0
        && (run.answer, run.report) == (0, [1, 0xABCD, 0, 1]);
    unless(holds, "cases 1 and 2".into())
}

/// Global 0 after the op, if the run exits.
fn value(run: Ran) -> Option<u64> {
    if run.answer == 0 && run.report[0] == 1 {
        Some(run.globals[0])
    } else {
        None
    }
}

fn results(side: Side) -> Option<String> {
    RESULTS.iter().find_map(|&(kind, a, b, cond, stated)| {
        let mut block = vec![1, 0, 0, 1, 0, 0, 1, 0, 0, 1, 0, 1, kind, 0, 1, 2];
        block.extend(cond);
        block.extend([4, 3]);
        let run = ran(side, &block, &[7, a, b, 0], &[]);
        let ending = if stated.is_some() { 1 } else { 3 };
        let holds = run.report[0] == ending && value(run) == stated;
        unless(holds, format!("kind {kind:02X} of {a:X} and {b:X}"))
    })
}

fn conversions(side: Side) -> Option<String> {
    CONVERSIONS
        .iter()
        .find_map(|&(kind, output, input, a, result)| {
            let block = [1, 0, output, 1, 0, input, 1, 0, 1, kind, 0, 1, 4, 2];
            let run = ran(side, &block, &[7, a, 0], &[]);
            unless(
                value(run) == Some(result),
                format!("kind {kind:02X} of {a:X}"),
            )
        })
}

fn loads(side: Side) -> Option<String> {
    let mut memory = [0; 16];
    memory[..3].copy_from_slice(&[0x12, 0x34, 0x80]);
    LOADS.iter().find_map(|&(address, flags, loaded)| {
        let block = [1, 0, 0, 1, 0, 1, 0x2B, 0, 1, flags, 4, 1];
        let run = ran(side, &block, &[7, address], &memory);
        let fault = loaded.is_some() || run.report == [2, address, flags as u64, 1];
        unless(
            fault && value(run) == loaded,
            format!("load at {address}, flags {flags}"),
        )
    })
}

/// Case 11, with the limits of request 05.
fn limits(side: Side) -> Option<String> {
    let variables = |n: usize| [[1, 0, 1].repeat(n), vec![4, 0]].concat();
    let ops = |n: usize| [vec![1, 0, 1], [4, 0].repeat(n)].concat();
    let holds = side.check(&variables(200)) == 0
        && side.check(&variables(201)) == 3 + 256 * 600
        && side.check(&ops(1024)) == 0
        && side.check(&ops(1025)) == 9 + 256 * 2051;
    unless(holds, "case 11".into())
}

fn example(side: Side) -> Option<String> {
    let result = passed(side, &SOURCE, RESULT);
    let (before, after) = (
        ran(side, &SOURCE, &[0; 4], &[]),
        ran(side, &PRUNED, &[0; 4], &[]),
    );
    let holds = result.result() == Some(&PRUNED) && before.report[3] == 5 && after.report[3] == 2;
    unless(holds, "case 12".into())
}

/// The declarations and these ops.
fn declared(ops: &[&[u8]]) -> Vec<u8> {
    [DECLARED, &ops.concat()].concat()
}

/// Request 02.
fn branches(side: Side) -> Option<String> {
    BRANCHES.iter().find_map(|(ops, stated)| {
        let block = declared(ops);
        let passed = passed(side, &block, RESULT);
        let holds = match stated {
            Ok(result) => passed.result() == Some(&declared(result)),
            Err(place) => passed.answer == 8 + 256 * place,
        };
        unless(holds, format!("request 02: {}", hex(&block)))
    })
}
