//! Cases of request 04, aligned accesses, worked out by hand from the papers,
//! asked of the library and of the second interpreter.

use crate::calls::Side;
use crate::cases::{hex, passed, ran, RESULT};

/// What the memory holds, as far as it goes.
const BYTES: [u8; 16] = [
    0x01, 0x23, 0x45, 0x67, 0x89, 0xAB, 0xCD, 0xEF, 0xFE, 0xDC, 0xBA, 0x98, 0x76, 0x54, 0x32, 0x10,
];
const LAST: u64 = u64::MAX;

/// Reasons, as a report gives them.
const BOUNDS: u64 = 0;
const ALIGNMENT: u64 = 1;

/// The memory's length, address, flags, and what is loaded into 64 bits, of
/// which 32 take the low half; or why it faults. A store with the same flags
/// faults alike.
type Access = (usize, u64, u8, Result<u64, u64>);

/// Every address is a multiple of 1.
const ONE_BYTE: &[Access] = &[
    (16, 0, 0x10, Ok(0x01)),
    (16, 7, 0x10, Ok(0xEF)),
    (16, 7, 0x18, Ok(0xEF)),
    (16, 7, 0x14, Ok(0xFFFF_FFFF_FFFF_FFEF)),
    (16, 3, 0x1C, Ok(0x67)),
    (16, 15, 0x10, Ok(0x10)),
    (16, 15, 0x00, Ok(0x10)),
    (16, 16, 0x10, Err(BOUNDS)),
    (16, 16, 0x00, Err(BOUNDS)),
    (16, 17, 0x18, Err(BOUNDS)),
    (16, 1 << 32, 0x10, Err(BOUNDS)),
    (16, LAST, 0x10, Err(BOUNDS)),
    (16, LAST, 0x00, Err(BOUNDS)),
    (1, 0, 0x10, Ok(0x01)),
    (0, 0, 0x10, Err(BOUNDS)),
    (0, 0, 0x00, Err(BOUNDS)),
    (0, LAST, 0x10, Err(BOUNDS)),
];
const TWO_BYTES: &[Access] = &[
    (16, 4, 0x11, Ok(0xAB89)),
    (16, 4, 0x19, Ok(0x89AB)),
    (16, 4, 0x15, Ok(0xFFFF_FFFF_FFFF_AB89)),
    (16, 4, 0x1D, Ok(0xFFFF_FFFF_FFFF_89AB)),
    (16, 0, 0x15, Ok(0x2301)),
    (16, 2, 0x11, Ok(0x6745)),
    (16, 5, 0x11, Err(ALIGNMENT)),
    (16, 5, 0x15, Err(ALIGNMENT)),
    (16, 5, 0x19, Err(ALIGNMENT)),
    (16, 5, 0x1D, Err(ALIGNMENT)),
    (16, 5, 0x01, Ok(0xCDAB)),
    (16, 5, 0x09, Ok(0xABCD)),
    // Up to the end, past it by one byte, after it.
    (16, 14, 0x11, Ok(0x1032)),
    (15, 14, 0x11, Err(BOUNDS)),
    (16, 15, 0x11, Err(ALIGNMENT)),
    (16, 15, 0x01, Err(BOUNDS)),
    (16, 16, 0x11, Err(BOUNDS)),
    (16, 17, 0x11, Err(ALIGNMENT)),
    (16, 17, 0x01, Err(BOUNDS)),
    (16, 1 << 32, 0x11, Err(BOUNDS)),
    (16, (1 << 32) + 1, 0x11, Err(ALIGNMENT)),
    (16, LAST - 1, 0x11, Err(BOUNDS)),
    (16, LAST, 0x11, Err(ALIGNMENT)),
    (16, LAST, 0x01, Err(BOUNDS)),
    (0, 0, 0x11, Err(BOUNDS)),
    (0, 1, 0x11, Err(ALIGNMENT)),
    (0, 1, 0x01, Err(BOUNDS)),
    (0, LAST, 0x11, Err(ALIGNMENT)),
];
const FOUR_BYTES: &[Access] = &[
    (16, 4, 0x12, Ok(0xEFCD_AB89)),
    (16, 4, 0x1A, Ok(0x89AB_CDEF)),
    (16, 4, 0x16, Ok(0xFFFF_FFFF_EFCD_AB89)),
    (16, 4, 0x1E, Ok(0xFFFF_FFFF_89AB_CDEF)),
    (16, 0, 0x16, Ok(0x6745_2301)),
    (16, 0, 0x1E, Ok(0x0123_4567)),
    (16, 5, 0x12, Err(ALIGNMENT)),
    (16, 6, 0x12, Err(ALIGNMENT)),
    (16, 7, 0x12, Err(ALIGNMENT)),
    (16, 6, 0x16, Err(ALIGNMENT)),
    (16, 6, 0x1A, Err(ALIGNMENT)),
    (16, 6, 0x1E, Err(ALIGNMENT)),
    (16, 5, 0x02, Ok(0xFEEF_CDAB)),
    (16, 6, 0x02, Ok(0xDCFE_EFCD)),
    (16, 6, 0x0A, Ok(0xCDEF_FEDC)),
    (16, 12, 0x12, Ok(0x1032_5476)),
    (16, 12, 0x1A, Ok(0x7654_3210)),
    (15, 12, 0x12, Err(BOUNDS)),
    (16, 13, 0x12, Err(ALIGNMENT)),
    (16, 13, 0x02, Err(BOUNDS)),
    (16, 14, 0x12, Err(ALIGNMENT)),
    (16, 16, 0x12, Err(BOUNDS)),
    (16, 18, 0x12, Err(ALIGNMENT)),
    (16, 18, 0x02, Err(BOUNDS)),
    (16, 1 << 32, 0x12, Err(BOUNDS)),
    (16, (1 << 32) + 2, 0x12, Err(ALIGNMENT)),
    (16, LAST - 3, 0x12, Err(BOUNDS)),
    (16, LAST - 1, 0x12, Err(ALIGNMENT)),
    (16, LAST, 0x12, Err(ALIGNMENT)),
    (16, LAST, 0x02, Err(BOUNDS)),
    (0, 0, 0x12, Err(BOUNDS)),
    (0, 2, 0x12, Err(ALIGNMENT)),
    (0, 2, 0x02, Err(BOUNDS)),
    (0, LAST, 0x12, Err(ALIGNMENT)),
];
const EIGHT_BYTES: &[Access] = &[
    (16, 0, 0x13, Ok(0xEFCD_AB89_6745_2301)),
    (16, 0, 0x1B, Ok(0x0123_4567_89AB_CDEF)),
    (16, 0, 0x17, Ok(0xEFCD_AB89_6745_2301)),
    (16, 8, 0x1F, Ok(0xFEDC_BA98_7654_3210)),
    (16, 1, 0x13, Err(ALIGNMENT)),
    (16, 2, 0x13, Err(ALIGNMENT)),
    (16, 4, 0x13, Err(ALIGNMENT)),
    (16, 7, 0x13, Err(ALIGNMENT)),
    (16, 4, 0x17, Err(ALIGNMENT)),
    (16, 4, 0x1B, Err(ALIGNMENT)),
    (16, 4, 0x1F, Err(ALIGNMENT)),
    (16, 4, 0x03, Ok(0x98BA_DCFE_EFCD_AB89)),
    (16, 4, 0x0B, Ok(0x89AB_CDEF_FEDC_BA98)),
    (16, 8, 0x13, Ok(0x1032_5476_98BA_DCFE)),
    (16, 8, 0x1B, Ok(0xFEDC_BA98_7654_3210)),
    (15, 8, 0x13, Err(BOUNDS)),
    (16, 9, 0x13, Err(ALIGNMENT)),
    (16, 9, 0x03, Err(BOUNDS)),
    (16, 12, 0x13, Err(ALIGNMENT)),
    (16, 16, 0x13, Err(BOUNDS)),
    (16, 20, 0x13, Err(ALIGNMENT)),
    (16, 20, 0x03, Err(BOUNDS)),
    (16, 1 << 63, 0x13, Err(BOUNDS)),
    (16, (1 << 63) + 4, 0x13, Err(ALIGNMENT)),
    (16, LAST - 7, 0x13, Err(BOUNDS)),
    (16, LAST - 3, 0x13, Err(ALIGNMENT)),
    (16, LAST, 0x13, Err(ALIGNMENT)),
    (16, LAST, 0x03, Err(BOUNDS)),
    (0, 0, 0x13, Err(BOUNDS)),
    (0, 4, 0x13, Err(ALIGNMENT)),
    (0, 4, 0x03, Err(BOUNDS)),
    (0, LAST, 0x13, Err(ALIGNMENT)),
];
const ACCESSES: [&[Access]; 4] = [ONE_BYTE, TWO_BYTES, FOUR_BYTES, EIGHT_BYTES];

/// What a store writes of this value, little-endian and big-endian, by size.
const VALUE: u64 = 0x0123_4567_89AB_CDEF;
const STORED: [[&[u8]; 4]; 2] = [
    [
        &[0xEF],
        &[0xEF, 0xCD],
        &[0xEF, 0xCD, 0xAB, 0x89],
        &[0xEF, 0xCD, 0xAB, 0x89, 0x67, 0x45, 0x23, 0x01],
    ],
    [
        &[0xEF],
        &[0xCD, 0xEF],
        &[0x89, 0xAB, 0xCD, 0xEF],
        &[0x01, 0x23, 0x45, 0x67, 0x89, 0xAB, 0xCD, 0xEF],
    ],
];

/// The flags below 16 that a kind may have; it may have them with bit 4 too, and
/// no others.
const FLAGS: [(u8, &[u8]); 4] = [
    (0x2B, &[0, 1, 2, 4, 5, 6, 8, 9, 10, 12, 13, 14]),
    (0x2C, &[0, 1, 2, 8, 9, 10]),
    (
        0xAB,
        &[0, 1, 2, 3, 4, 5, 6, 7, 8, 9, 10, 11, 12, 13, 14, 15],
    ),
    (0xAC, &[0, 1, 2, 3, 8, 9, 10, 11]),
];

/// Exits with v1, the address.
const EXIT: [u8; 2] = [4, 1];

/// The first of these cases that a side does not answer as stated.
pub fn failed(side: Side) -> Option<String> {
    runs(side)
        .or_else(|| flags(side))
        .or_else(|| orders(side))
        .or_else(|| stays(side))
        .or_else(|| before(side))
}

fn unless(holds: bool, what: &str, block: &[u8]) -> Option<String> {
    (!holds).then(|| format!("request 04, {what}: {}", hex(block)))
}

/// v0 of the kind's width and v1 of 64 bits, both of this class.
fn declared(kind: u8, class: u8) -> Vec<u8> {
    vec![1, class, kind >> 7, 1, class, 1]
}

/// Whether the kind may have these flags.
fn may(kind: u8, flags: u8) -> bool {
    let low = |good: &[u8]| flags < 32 && good.contains(&(flags & 15));
    FLAGS.iter().any(|&(one, good)| one == kind && low(good))
}

fn is_store(kind: u8) -> bool {
    kind & 1 == 0
}

/// Each access by every kind that may have its flags.
fn runs(side: Side) -> Option<String> {
    let mut all = ACCESSES.into_iter().flatten();
    all.find_map(|&access| {
        let kinds = FLAGS.into_iter().map(|(kind, _)| kind);
        let mut fitting = kinds.filter(|&kind| may(kind, access.2));
        fitting.find_map(|kind| runs_as(side, kind, access))
    })
}

/// The access run on globals: what it answers and leaves.
fn runs_as(side: Side, kind: u8, (length, address, flags, outcome): Access) -> Option<String> {
    let block = [&declared(kind, 0)[..], &[kind, 0, 1, flags], &EXIT].concat();
    let low = |value: u64| {
        if kind < 0x80 {
            value & 0xFFFF_FFFF
        } else {
            value
        }
    };
    let (mut value, mut memory) = (low(VALUE), BYTES[..length].to_vec());
    let run = ran(side, &block, &[value, address], &memory);
    let report = match outcome {
        Err(reason) => {
            let store = is_store(kind) as u64;
            [2, address, flags as u64 + 256 * store + 65_536 * reason, 1]
        }
        Ok(loaded) => {
            if is_store(kind) {
                let stored = STORED[(flags >> 3 & 1) as usize][(flags & 3) as usize];
                memory[address as usize..][..stored.len()].copy_from_slice(stored);
            } else {
                value = low(loaded);
            }
            [1, address, 0, 2]
        }
    };
    let holds = (run.answer, run.report) == (0, report)
        && (run.globals, run.memory) == (vec![value, address], memory);
    unless(holds, &format!("{length} bytes, at {address:X}"), &block)
}

/// All flags of each kind: 6 for all but those above.
fn flags(side: Side) -> Option<String> {
    FLAGS.into_iter().find_map(|(kind, _)| {
        (0..=255).find_map(|flags| {
            let start = declared(kind, 0);
            let block = [&start[..], &[kind, 0, 1, flags], &EXIT].concat();
            let answer = if may(kind, flags) {
                0
            } else {
                6 + 256 * start.len() as u64
            };
            unless(side.check(&block) == answer, "flags", &block)
        })
    })
}

/// Within a record 4 and 5 come before 6, which comes before 8; bit 5 gets 6 and
/// bit 4 does not.
fn orders(side: Side) -> Option<String> {
    FLAGS.into_iter().find_map(|(kind, _)| {
        let refused = |start: &[u8], address: u8, flags: u8, number: u64| {
            let block = [start, &[kind, 0, address, flags], &EXIT].concat();
            let answer = number + 256 * start.len() as u64;
            unless(side.check(&block) == answer, "order", &block)
        };
        let two = declared(kind, 2);
        // One more, of 32 bits.
        let three = [&two[..], &[1, 2, 0]].concat();
        refused(&two, 2, 0x30, 4)
            .or_else(|| refused(&three, 2, 0x30, 5))
            .or_else(|| refused(&two, 1, 0x30, 6))
            .or_else(|| refused(&two, 1, 0x10, 8))
    })
}

/// The pass leaves an access as it is, though its address is known (5, at which
/// a wider one with bit 4 faults) and what it loads is dead.
fn stays(side: Side) -> Option<String> {
    FLAGS.into_iter().find_map(|(kind, good)| {
        let mut all = good.iter().flat_map(|&flags| [flags, flags | 16]);
        all.find_map(|flags| {
            let movi = [0x90, 1, 5, 0, 0, 0, 0, 0, 0, 0];
            let access = [kind, 0, 1, flags];
            let start = declared(kind, 1);
            let block = [&start[..], &movi, &access, &access, &EXIT].concat();
            let holds = passed(side, &block, RESULT).result() == Some(&block);
            unless(holds, "pass", &block)
        })
    })
}

/// A fault by alignment leaves what the ops before it did, so the pass keeps
/// their writes of globals.
fn before(side: Side) -> Option<String> {
    FLAGS.into_iter().find_map(|(kind, _)| {
        let movi = |value: u8| [0x90, 2, value, 0, 0, 0, 0, 0, 0, 0];
        let access = [kind, 0, 1, 0x11];
        let start = [&declared(kind, 0)[..], &[1, 0, 1]].concat();
        let block = [&start[..], &movi(5), &access, &movi(6), &EXIT].concat();
        let run = ran(side, &block, &[7, 3, 4], &BYTES);
        let flags = 0x1_0011 + 256 * is_store(kind) as u64;
        let holds = (run.answer, run.report) == (0, [2, 3, flags, 2])
            && (run.globals, run.memory) == (vec![7, 3, 5], BYTES.to_vec())
            && passed(side, &block, RESULT).result() == Some(&block);
        unless(holds, "before the fault", &block)
    })
}
