//! Cases of request 03, bit fields, swaps and counts, worked out by hand from
//! 000's formulas, asked of the library and of the second interpreter.

use crate::calls::Side;
use crate::cases::{hex, passed, ran, RESULT};

/// t1, t2 (zero if there is none), what follows them, the result if stated.
type Worked = (u64, u64, &'static [u8], Option<u64>);

const UP: u64 = 0x0123_4567_89AB_CDEF;
const DOWN: u64 = 0xFEDC_BA98_7654_3210;

/// dest = (t1 & ~0x0f00) | ((t2 << 8) & 0x0f00) at 8, 4.
const DEPOSIT_I32: &[Worked] = &[
    (0x1234_5678, 0xAB, &[8, 4], Some(0x1234_5B78)),
    (0xFFFF_FFFF, 0, &[8, 4], Some(0xFFFF_F0FF)),
    (0xFFFF_FFFE, 1, &[0, 1], Some(0xFFFF_FFFF)),
    (0xFFFF_FFFF, 2, &[0, 1], Some(0xFFFF_FFFE)),
    (0, 0xFFFF_FFFF, &[31, 1], Some(0x8000_0000)),
    (0x8000_0001, 2, &[31, 1], Some(1)),
    (0x1234_5678, 0x9ABC_DEF0, &[0, 32], Some(0x9ABC_DEF0)),
    (0x1234_5678, 0xBEEF, &[16, 16], Some(0xBEEF_5678)),
];
const DEPOSIT_I64: &[Worked] = &[
    (UP, 5, &[8, 4], Some(0x0123_4567_89AB_C5EF)),
    (UP, 0, &[0, 1], Some(0x0123_4567_89AB_CDEE)),
    (0, 1, &[63, 1], Some(0x8000_0000_0000_0000)),
    (0, 3, &[31, 2], Some(0x1_8000_0000)),
    (
        UP,
        0xFFFF_FFFF_0000_0001,
        &[32, 32],
        Some(0x0000_0001_89AB_CDEF),
    ),
    (UP, DOWN, &[0, 64], Some(DOWN)),
];
const EXTRACT_I32: &[Worked] = &[
    (0x1234_5678, 0, &[8, 4], Some(6)),
    (0x1234_5678, 0, &[0, 1], Some(0)),
    (0x1234_5679, 0, &[0, 1], Some(1)),
    (0x8000_0000, 0, &[31, 1], Some(1)),
    (0x7FFF_FFFF, 0, &[31, 1], Some(0)),
    (0xFEDC_BA98, 0, &[0, 32], Some(0xFEDC_BA98)),
    (0xFEDC_BA98, 0, &[16, 16], Some(0xFEDC)),
    (0xFEDC_BA98, 0, &[4, 24], Some(0x00ED_CBA9)),
];
const EXTRACT_I64: &[Worked] = &[
    (UP, 0, &[8, 4], Some(0xD)),
    (DOWN, 0, &[0, 1], Some(0)),
    (0x8000_0000_0000_0000, 0, &[63, 1], Some(1)),
    (0x1_8000_0000, 0, &[31, 2], Some(3)),
    (DOWN, 0, &[32, 32], Some(0xFEDC_BA98)),
    (DOWN, 0, &[0, 64], Some(DOWN)),
];
/// dest = (t1 << 20) >> 28 at 8, 4, an arithmetic right shift.
const SEXTRACT_I32: &[Worked] = &[
    (0x0000_0800, 0, &[8, 4], Some(0xFFFF_FFF8)),
    (0x0000_0700, 0, &[8, 4], Some(7)),
    (0xFFFF_F7FF, 0, &[8, 4], Some(7)),
    (0x1234_5678, 0, &[8, 4], Some(6)),
    (1, 0, &[0, 1], Some(0xFFFF_FFFF)),
    (2, 0, &[0, 1], Some(0)),
    (0x8000_0000, 0, &[31, 1], Some(0xFFFF_FFFF)),
    (0x7FFF_FFFF, 0, &[31, 1], Some(0)),
    (0x8000_0001, 0, &[0, 32], Some(0x8000_0001)),
    (0x8000_FFFF, 0, &[16, 16], Some(0xFFFF_8000)),
    (0x7FFF_8000, 0, &[16, 16], Some(0x7FFF)),
    (0x0000_8000, 0, &[0, 16], Some(0xFFFF_8000)),
];
const SEXTRACT_I64: &[Worked] = &[
    (0x800, 0, &[8, 4], Some(0xFFFF_FFFF_FFFF_FFF8)),
    (0xFFFF_FFFF_FFFF_F7FF, 0, &[8, 4], Some(7)),
    (1, 0, &[0, 1], Some(0xFFFF_FFFF_FFFF_FFFF)),
    (
        0x8000_0000_0000_0000,
        0,
        &[63, 1],
        Some(0xFFFF_FFFF_FFFF_FFFF),
    ),
    (0x1_8000_0000, 0, &[31, 2], Some(0xFFFF_FFFF_FFFF_FFFF)),
    (0x1_0000_0000, 0, &[31, 2], Some(0xFFFF_FFFF_FFFF_FFFE)),
    (0x8000_0000, 0, &[31, 2], Some(1)),
    (0x8000_0000, 0, &[0, 32], Some(0xFFFF_FFFF_8000_0000)),
    (0x7FFF_FFFF_8000_0000, 0, &[32, 32], Some(0x7FFF_FFFF)),
    (
        0x8000_0000_0000_0001,
        0,
        &[0, 64],
        Some(0x8000_0000_0000_0001),
    ),
];
/// From t2:t1, so t1 at 0 and t2 at the width.
const EXTRACT2_I32: &[Worked] = &[
    (0x1234_5678, 0x9ABC_DEF0, &[0], Some(0x1234_5678)),
    (0x1234_5678, 0x9ABC_DEF0, &[8], Some(0xF012_3456)),
    (0x1234_5678, 0x9ABC_DEF0, &[32], Some(0x9ABC_DEF0)),
    (1, 1, &[1], Some(0x8000_0000)),
    (0x8000_0000, 1, &[31], Some(3)),
    (0x7FFF_FFFF, 0x8000_0000, &[31], Some(0)),
];
const EXTRACT2_I64: &[Worked] = &[
    (UP, DOWN, &[0], Some(UP)),
    (UP, DOWN, &[8], Some(0x1001_2345_6789_ABCD)),
    (UP, DOWN, &[32], Some(0x7654_3210_0123_4567)),
    (UP, DOWN, &[64], Some(DOWN)),
    (1, 1, &[1], Some(0x8000_0000_0000_0000)),
    (0x8000_0000_0000_0000, 1, &[63], Some(3)),
];
/// Flags: IZ is 1, OZ 2, OS 4.
const BSWAP16_I32: &[Worked] = &[
    (0x0000_1234, 0, &[2], Some(0x3412)),
    (0xFFFF_1234, 0, &[2], Some(0x3412)),
    (0x0000_1280, 0, &[2], Some(0x8012)),
    (0x0001_0000, 0, &[2], Some(0)),
    (0x0000_1234, 0, &[4], Some(0x3412)),
    (0xFFFF_1234, 0, &[4], Some(0x3412)),
    (0x0000_1280, 0, &[4], Some(0xFFFF_8012)),
    (0x0000_8012, 0, &[4], Some(0x1280)),
    (0x0000_1280, 0, &[3], Some(0x8012)),
    (0x0000_1280, 0, &[5], Some(0xFFFF_8012)),
    (0x0000_FFFF, 0, &[3], Some(0xFFFF)),
    (0x0000_FFFF, 0, &[5], Some(0xFFFF_FFFF)),
    (0, 0, &[3], Some(0)),
    (0x0001_0000, 0, &[3], None),
    (0x8000_1234, 0, &[5], None),
];
const BSWAP16_I64: &[Worked] = &[
    (UP, 0, &[2], Some(0xEFCD)),
    (UP, 0, &[4], Some(0xFFFF_FFFF_FFFF_EFCD)),
    (0x1234, 0, &[4], Some(0x3412)),
    (0xCDEF, 0, &[3], Some(0xEFCD)),
    (0xCDEF, 0, &[5], Some(0xFFFF_FFFF_FFFF_EFCD)),
    (0x1_0000, 0, &[3], None),
    (0x1_0000_0000, 0, &[3], None),
    (0x8000_0000_0000_1234, 0, &[5], None),
];
const BSWAP32_I32: &[Worked] = &[
    (0x1234_5678, 0, &[0], Some(0x7856_3412)),
    (1, 0, &[0], Some(0x0100_0000)),
    (0xFF, 0, &[0], Some(0xFF00_0000)),
    (0, 0, &[0], Some(0)),
];
const BSWAP32_I64: &[Worked] = &[
    (UP, 0, &[2], Some(0xEFCD_AB89)),
    (UP, 0, &[4], Some(0xFFFF_FFFF_EFCD_AB89)),
    (0x1_0000_0000, 0, &[2], Some(0)),
    (0x1234_5678, 0, &[4], Some(0x7856_3412)),
    (0xFF, 0, &[3], Some(0xFF00_0000)),
    (0xFF, 0, &[5], Some(0xFFFF_FFFF_FF00_0000)),
    (0xFFFF_FFFF, 0, &[3], Some(0xFFFF_FFFF)),
    (0xFFFF_FFFF, 0, &[5], Some(0xFFFF_FFFF_FFFF_FFFF)),
    (0x1_0000_0000, 0, &[3], None),
    (0x8000_0000_0000_0001, 0, &[5], None),
];
const BSWAP64_I64: &[Worked] = &[
    (UP, 0, &[0], Some(0xEFCD_AB89_6745_2301)),
    (1, 0, &[0], Some(0x0100_0000_0000_0000)),
    (0xFF, 0, &[0], Some(0xFF00_0000_0000_0000)),
    (0x8000_0000_0000_0000, 0, &[0], Some(0x80)),
];
/// t2 if t1 is zero.
const CLZ_I32: &[Worked] = &[
    (0, 7, &[], Some(7)),
    (0, 0xFFFF_FFFF, &[], Some(0xFFFF_FFFF)),
    (1, 9, &[], Some(31)),
    (0x0000_FFFF, 9, &[], Some(16)),
    (0x4000_0000, 9, &[], Some(1)),
    (0x8000_0000, 9, &[], Some(0)),
    (0xFFFF_FFFF, 9, &[], Some(0)),
];
const CLZ_I64: &[Worked] = &[
    (0, DOWN, &[], Some(DOWN)),
    (1, 9, &[], Some(63)),
    (0x8000_0000, 9, &[], Some(32)),
    (0x1_0000_0000, 9, &[], Some(31)),
    (0x8000_0000_0000_0000, 9, &[], Some(0)),
];
const CTZ_I32: &[Worked] = &[
    (0, 7, &[], Some(7)),
    (1, 9, &[], Some(0)),
    (0xFFFF_0000, 9, &[], Some(16)),
    (0x8000_0000, 9, &[], Some(31)),
    (0xFFFF_FFFF, 9, &[], Some(0)),
];
const CTZ_I64: &[Worked] = &[
    (0, 9, &[], Some(9)),
    (1, 9, &[], Some(0)),
    (0x8000_0000, 9, &[], Some(31)),
    (0x1_0000_0000, 9, &[], Some(32)),
    (0x8000_0000_0000_0000, 9, &[], Some(63)),
];
const CTPOP_I32: &[Worked] = &[
    (0, 0, &[], Some(0)),
    (1, 0, &[], Some(1)),
    (0x8000_0001, 0, &[], Some(2)),
    (0x1234_5678, 0, &[], Some(13)),
    (0xFFFF_FFFF, 0, &[], Some(32)),
];
const CTPOP_I64: &[Worked] = &[
    (0, 0, &[], Some(0)),
    (0x8000_0000_0000_0001, 0, &[], Some(2)),
    (UP, 0, &[], Some(32)),
    (0xFFFF_FFFF_FFFF_FFFF, 0, &[], Some(64)),
];

/// A kind, how many inputs it has, and its cases.
type Row = (u8, usize, &'static [Worked]);

const ROWS: [Row; 19] = [
    (0x2D, 2, DEPOSIT_I32),
    (0xAD, 2, DEPOSIT_I64),
    (0x2E, 1, EXTRACT_I32),
    (0xAE, 1, EXTRACT_I64),
    (0x2F, 1, SEXTRACT_I32),
    (0xAF, 1, SEXTRACT_I64),
    (0x30, 2, EXTRACT2_I32),
    (0xB0, 2, EXTRACT2_I64),
    (0x31, 1, BSWAP16_I32),
    (0xB1, 1, BSWAP16_I64),
    (0x32, 1, BSWAP32_I32),
    (0xB2, 1, BSWAP32_I64),
    (0xB3, 1, BSWAP64_I64),
    (0x34, 2, CLZ_I32),
    (0xB4, 2, CLZ_I64),
    (0x35, 2, CTZ_I32),
    (0xB5, 2, CTZ_I64),
    (0x36, 1, CTPOP_I32),
    (0xB6, 1, CTPOP_I64),
];

const FIELDS_I32: &[u8] = &[0x2D, 0x2E, 0x2F];
const FIELDS_I64: &[u8] = &[0xAD, 0xAE, 0xAF];
/// Swaps of less than the width, and of the width.
const PARTS: &[u8] = &[0x31, 0xB1, 0xB2];
const WHOLES: &[u8] = &[0x32, 0xB3];

/// Kinds, what follows their operands, and whether that is good.
type Limit = (&'static [u8], &'static [u8], bool);

const LIMITS: [Limit; 58] = [
    // A length of at least 1, within the width.
    (FIELDS_I32, &[0, 0], false),
    (FIELDS_I32, &[31, 0], false),
    (FIELDS_I32, &[32, 0], false),
    (FIELDS_I32, &[31, 1], true),
    (FIELDS_I32, &[31, 2], false),
    (FIELDS_I32, &[32, 1], false),
    (FIELDS_I32, &[1, 31], true),
    (FIELDS_I32, &[1, 32], false),
    (FIELDS_I32, &[0, 32], true),
    (FIELDS_I32, &[0, 33], false),
    (FIELDS_I32, &[128, 128], false),
    (FIELDS_I32, &[255, 2], false),
    (FIELDS_I64, &[0, 0], false),
    (FIELDS_I64, &[63, 0], false),
    (FIELDS_I64, &[64, 0], false),
    (FIELDS_I64, &[63, 1], true),
    (FIELDS_I64, &[63, 2], false),
    (FIELDS_I64, &[64, 1], false),
    (FIELDS_I64, &[1, 63], true),
    (FIELDS_I64, &[1, 64], false),
    (FIELDS_I64, &[0, 64], true),
    (FIELDS_I64, &[0, 65], false),
    (FIELDS_I64, &[31, 2], true),
    (FIELDS_I64, &[128, 128], false),
    (FIELDS_I64, &[255, 2], false),
    // Positions 0 to the width.
    (&[0x30, 0xB0], &[0], true),
    (&[0x30, 0xB0], &[32], true),
    (&[0x30], &[33], false),
    (&[0xB0], &[33], true),
    (&[0x30], &[64], false),
    (&[0xB0], &[64], true),
    (&[0x30, 0xB0], &[65], false),
    (&[0x30, 0xB0], &[128], false),
    (&[0x30, 0xB0], &[255], false),
    // Exactly one of OZ and OS.
    (PARTS, &[0], false),
    (PARTS, &[1], false),
    (PARTS, &[2], true),
    (PARTS, &[3], true),
    (PARTS, &[4], true),
    (PARTS, &[5], true),
    (PARTS, &[6], false),
    (PARTS, &[7], false),
    (PARTS, &[0x0A], false),
    (PARTS, &[0x12], false),
    (PARTS, &[0x24], false),
    (PARTS, &[0x44], false),
    (PARTS, &[0x83], false),
    // Zero flags.
    (WHOLES, &[0], true),
    (WHOLES, &[1], false),
    (WHOLES, &[2], false),
    (WHOLES, &[3], false),
    (WHOLES, &[4], false),
    (WHOLES, &[5], false),
    (WHOLES, &[6], false),
    (WHOLES, &[7], false),
    (WHOLES, &[8], false),
    (WHOLES, &[0x10], false),
    (WHOLES, &[0x80], false),
];

/// The length of four declarations.
const DECLARED: u64 = 12;
const EXIT: [u8; 2] = [4, 3];

/// The first of these cases that a side does not answer as stated.
pub fn failed(side: Side) -> Option<String> {
    let each = |of: fn(Side, Row) -> Option<String>| ROWS.iter().find_map(|&row| of(side, row));
    each(runs)
        .or_else(|| each(folds))
        .or_else(|| each(stays))
        .or_else(|| each(operands))
        .or_else(|| limits(side))
        .or_else(|| missing(side))
}

fn unless(holds: bool, what: &str, block: &[u8]) -> Option<String> {
    (!holds).then(|| format!("request 03, {what}: {}", hex(block)))
}

/// v0 a global, v1 and v2 of this class, all of the kind's width; v3 a global
/// of 64 bits, or of the class.
fn declared(kind: u8, class: u8) -> Vec<u8> {
    let width = kind >> 7;
    vec![1, 0, width, 1, class, width, 1, class, width, 1, class, 1]
}

/// The op that writes v0 from v1 and v2.
fn op(kind: u8, inputs: usize, constants: &[u8]) -> Vec<u8> {
    [&[kind, 0], &[1, 2][..inputs], constants].concat()
}

fn movi(kind: u8, variable: u8, value: u64) -> Vec<u8> {
    let mut bytes = vec![0x10 | kind & 0x80, variable];
    bytes.extend(value.to_le_bytes());
    bytes
}

/// The op run alone on globals.
fn runs(side: Side, (kind, inputs, cases): Row) -> Option<String> {
    cases.iter().find_map(|&(t1, t2, constants, stated)| {
        let block = [declared(kind, 0), op(kind, inputs, constants), EXIT.into()].concat();
        let run = ran(side, &block, &[7, t1, t2, 5], &[]);
        let (report, value) = match stated {
            Some(value) => ([1, 5, 0, 2], value),
            None => ([3, 0, 0, 0], 7),
        };
        let holds = run.answer == 0 && run.report == report && run.globals == [value, t1, t2, 5];
        unless(holds, "run", &block)
    })
}

/// The op with all inputs known; they are dead after it if it folds.
fn folds(side: Side, (kind, inputs, cases): Row) -> Option<String> {
    cases.iter().find_map(|&(t1, t2, constants, stated)| {
        let start = [declared(kind, 1), movi(0x90, 3, 5)].concat();
        let known = [movi(kind, 1, t1), movi(kind, 2, t2)].concat();
        let op = op(kind, inputs, constants);
        let block = [&start[..], &known, &op, &EXIT].concat();
        let left = match stated {
            Some(value) => movi(kind, 0, value),
            None => [movi(kind, 1, t1), op].concat(),
        };
        let result = [&start[..], &left, &EXIT].concat();
        let holds = passed(side, &block, RESULT).result() == Some(&result);
        unless(holds, "folded", &block)
    })
}

/// The op with one of two inputs known stays; with a dead output it goes.
fn stays(side: Side, (kind, inputs, cases): Row) -> Option<String> {
    cases.iter().find_map(|&(t1, t2, constants, _)| {
        let start = [declared(kind, 1), movi(0x90, 3, 5)].concat();
        let op = op(kind, inputs, constants);
        let twice = [&start[..], &op, &op, &EXIT].concat();
        let once = [&start[..], &op, &EXIT].concat();
        let holds = passed(side, &twice, RESULT).result() == Some(&once);
        let dropped = unless(holds, "dropped", &twice);
        let known = |variable: u8, value: u64| {
            let block = [&start[..], &movi(kind, variable, value), &op, &EXIT].concat();
            let holds = passed(side, &block, RESULT).result() == Some(&block);
            unless(inputs == 1 || holds, "one input known", &block)
        };
        dropped.or_else(|| known(1, t1)).or_else(|| known(2, t2))
    })
}

/// Operands not declared, of the other width, or not written; and the order of
/// refusals within a record.
fn operands(side: Side, (kind, inputs, cases): Row) -> Option<String> {
    let constants = cases[0].2;
    let refused = |start: &[u8], op: &[u8], number: u64, what| {
        let block = [start, op, &[4, 0]].concat();
        let answer = number + 256 * start.len() as u64;
        unless(side.check(&block) == answer, what, &block)
    };
    let (good, bad) = (op(kind, inputs, constants), vec![0xFF; constants.len()]);
    let temporaries = declared(kind, 2);
    // One more, of the other width.
    let five = [&temporaries[..], &[1, 1, 1 - (kind >> 7)]].concat();
    let last = &good[..good.len() - 1];
    let cut = [&temporaries[..], last].concat();
    let holds = side.check(&cut) == 1 + 256 * DECLARED;
    let mut all = vec![unless(holds, "cut", &cut)];
    for place in 1..=1 + inputs {
        // 4 and 5 come before 6, which comes before 8.
        let mut one = op(kind, inputs, &bad);
        one[place] = 4;
        all.push(refused(&temporaries, &one, 4, "not declared"));
        all.push(refused(&five, &one, 5, "width"));
    }
    if !constants.is_empty() {
        let one = op(kind, inputs, &bad);
        all.push(refused(&temporaries, &one, 6, "6 before 8"));
    }
    for input in 1..=inputs as u8 {
        let written = movi(kind, 3 - input, 1);
        let start = [temporaries.clone(), written].concat();
        all.push(refused(&start, &good, 8, "not written"));
    }
    all.into_iter().flatten().next()
}

/// Both sides of each limit.
fn limits(side: Side) -> Option<String> {
    LIMITS.iter().find_map(|&(kinds, constants, good)| {
        let inputs = |kind: u8| ROWS.iter().find(|row| row.0 == kind).map_or(0, |row| row.1);
        kinds.iter().find_map(|&kind| {
            let op = op(kind, inputs(kind), constants);
            let block = [declared(kind, 0), op, EXIT.into()].concat();
            let answer = if good { 0 } else { 6 + 256 * DECLARED };
            unless(side.check(&block) == answer, "limit", &block)
        })
    })
}

/// There is no bswap64 of 32 bits, and no kind above ctpop; 2 comes before 1.
fn missing(side: Side) -> Option<String> {
    [0x33, 0x37, 0xB7].into_iter().find_map(|kind| {
        let whole = [declared(kind, 0), op(kind, 1, &[0]), EXIT.into()].concat();
        let cut = [declared(kind, 0), vec![kind]].concat();
        let answer = 2 + 256 * DECLARED;
        let holds = side.check(&whole) == answer && side.check(&cut) == answer;
        unless(holds, "no such kind", &whole)
    })
}
