//! Cases of request 05, larger blocks, worked out by hand: each limit and one
//! past it, asked of the library and of the second interpreter. Every variable
//! has 64 bits.

use crate::calls::Side;
use crate::cases::{hex, passed, ran, RESULT};

const V0: &[u8] = &[1, 0, 1];
const EXIT: &[u8] = &[4, 0];

/// The first of these cases that a side does not answer as stated.
pub fn failed(side: Side) -> Option<String> {
    let sets = [
        checks(side),
        one_more(side),
        at_once(side),
        longest(side),
        growth(side),
        late(side),
        borders(side),
        kept(side),
    ];
    sets.into_iter().flatten().next()
}

fn unless(holds: bool, what: &str, block: &[u8]) -> Option<String> {
    (!holds).then(|| format!("request 05, {what}: {}", hex(block)))
}

/// The check answers with this number at this place, or accepts by 0 at 0.
fn answers(side: Side, parts: &[&[u8]], number: u64, place: u64) -> Option<String> {
    let block = parts.concat();
    let holds = side.check(&block) == number + 256 * place;
    unless(holds, &format!("{number} at {place}"), &block)
}

/// A movi of a small value.
fn movi(variable: u8, value: u8) -> [u8; 10] {
    [0x90, variable, value, 0, 0, 0, 0, 0, 0, 0]
}

/// So many globals.
fn globals(count: usize) -> Vec<u8> {
    V0.repeat(count)
}

/// Ops on one global, the number of the answer and its place.
type Stated = (&'static [u8], u64, u64);

/// Labels 0 to 127, none taken for another.
const LABELS: [Stated; 20] = [
    (&[2, 127, 4, 0], 0, 0),
    (&[3, 127, 2, 127, 4, 0], 0, 0),
    (&[0xAA, 0, 0, 0, 127, 2, 127, 4, 0], 0, 0),
    (&[2, 128, 4, 0], 6, 3),
    (&[3, 128, 2, 128, 4, 0], 6, 3),
    (&[0xAA, 0, 0, 0, 128, 2, 127, 4, 0], 6, 3),
    (&[2, 127, 2, 128, 4, 0], 6, 5),
    (&[2, 255, 4, 0], 6, 3),
    (&[3, 255, 4, 0], 6, 3),
    (&[0xAA, 0, 0, 9, 255, 4, 0], 6, 3),
    // An operand not declared comes first, a label set twice after.
    (&[0xAA, 0, 1, 0, 128, 4, 0], 4, 3),
    (&[2, 127, 2, 127, 4, 0], 7, 5),
    (&[2, 127, 3, 127, 4, 0], 7, 5),
    (&[2, 127, 0xAA, 0, 0, 0, 127, 4, 0], 7, 5),
    (&[3, 127, 4, 0], 7, 7),
    (&[3, 127, 2, 126, 4, 0], 7, 9),
    (&[3, 31, 2, 63, 2, 95, 2, 127, 4, 0], 7, 13),
    (&[2, 31, 2, 63, 2, 95, 2, 127, 4, 0], 0, 0),
    (&[2, 0, 2, 32, 2, 64, 2, 96, 4, 0], 0, 0),
    (&[2, 0, 2, 32, 2, 64, 2, 0, 4, 0], 7, 9),
];

/// Variables and labels.
fn checks(side: Side) -> Option<String> {
    let labels = LABELS.iter();
    let mut labels = labels.map(|&(ops, number, place)| answers(side, &[V0, ops], number, place));
    let (less, all) = (globals(199), globals(200));
    let variables = [
        answers(side, &[&less, EXIT], 0, 0),
        answers(side, &[&all, EXIT], 0, 0),
        answers(side, &[&all, &[1, 0, 1], EXIT], 3, 600),
        answers(side, &[&all, &[1, 1, 0], EXIT], 3, 600),
        answers(side, &[&all, &[1, 2, 1], EXIT], 3, 600),
        answers(side, &[&all, &[1, 3, 2], EXIT], 3, 600),
        answers(side, &[&all, &[1, 0]], 1, 600),
        answers(side, &[&all, &[0, 1], EXIT], 2, 600),
        // The last variable, and one past it.
        answers(side, &[&all, &[4, 199]], 0, 0),
        answers(side, &[&all, &[4, 200]], 4, 600),
        answers(side, &[&all, &[4, 255]], 4, 600),
        answers(side, &[&less, &[4, 198]], 0, 0),
        answers(side, &[&less, &[4, 199]], 4, 597),
        answers(side, &[&less, &[1, 2, 1], &[4, 199]], 8, 600),
        answers(side, &[&all], 10, 600),
    ];
    labels
        .find_map(|found| found)
        .or_else(|| variables.into_iter().flatten().next())
}

/// 1,024 ops of two bytes, and what comes after them.
fn one_more(side: Side) -> Option<String> {
    let (less, all) = (EXIT.repeat(1023), EXIT.repeat(1024));
    let labels: Vec<u8> = (0..=127).flat_map(|label| [2, label]).collect();
    let set = [&labels[..], &EXIT.repeat(896)].concat();
    let cases = [
        answers(side, &[V0, &less], 0, 0),
        answers(side, &[V0, &all], 0, 0),
        answers(side, &[V0, &set], 0, 0),
        answers(side, &[V0, &all, EXIT], 9, 2051),
        answers(side, &[V0, &all, EXIT, EXIT], 9, 2051),
        answers(side, &[V0, &less, &[2, 0], EXIT], 9, 2051),
        // 2, 1 and 3 come before 9; 4 to 8 after.
        answers(side, &[V0, &all, &[0]], 2, 2051),
        answers(side, &[V0, &all, &[4]], 1, 2051),
        answers(side, &[V0, &all, &[1, 0, 1]], 3, 2051),
        answers(side, &[V0, &all, &[4, 1]], 9, 2051),
        answers(side, &[V0, &all, &[7, 0, 0]], 9, 2051),
        answers(side, &[V0, &all, &[3, 128]], 9, 2051),
        answers(side, &[V0, &set, &[2, 0]], 9, 2051),
        answers(side, &[V0, &[1, 2, 1], &all, &[4, 1]], 9, 2054),
        // The 1,024th op, refused for other reasons.
        answers(side, &[V0, &less, &[4, 1]], 4, 2049),
        answers(side, &[V0, &less, &[3, 128]], 6, 2049),
        answers(side, &[V0, &less, &[2, 0]], 10, 2051),
        answers(side, &[V0, &less, &[3, 0]], 10, 2051),
    ];
    cases.into_iter().flatten().next()
}

/// All three limits at once: 128 brconds that do not jump, their labels, 767
/// moves of which the last counts, and an exit.
fn at_once(side: Side) -> Option<String> {
    let branches: Vec<u8> = (0..=127).flat_map(|label| [0xAA, 0, 0, 1, label]).collect();
    let labels: Vec<u8> = (0..=127).flat_map(|label| [2, label]).collect();
    let start = [globals(200), branches, labels].concat();
    let with = |moves: usize| [&start[..], &[0x91, 199, 0].repeat(moves), &[4, 199]].concat();
    let block = with(767);
    let mut lent = vec![3; 200];
    lent[0] = 0xABCD;
    let run = ran(side, &block, &lent, &[]);
    lent[199] = 0xABCD;
    let holds = side.check(&block) == 0
        && (run.answer, run.report) == (0, [1, 0xABCD, 0, 1024])
        && run.globals == lent
        && passed(side, &block, 1501).result() == Some(&with(1))
        && passed(side, &block, 1500).answer == 12
        && side.check(&with(768)) == 9 + 256 * 3800
        && with(1).len() == 1501;
    unless(holds, "all limits", &block)
}

/// 1,023 movis on 200 globals: 10,832 bytes, of which the last 200 movis stay.
fn longest(side: Side) -> Option<String> {
    let with = |first: usize, end: usize| {
        let movis = (first..end).flat_map(|i| movi((i % 200) as u8, (i % 7) as u8));
        [globals(200), movis.collect(), EXIT.to_vec()].concat()
    };
    let (block, result) = (with(0, 1023), with(823, 1023));
    let holds = block.len() == 10_832
        && result.len() == 2602
        && side.check(&block) == 0
        && ran(side, &block, &[9; 200], &[]).report == [1, 1000 % 7, 0, 1024]
        && passed(side, &block, 2602).result() == Some(&result)
        && passed(side, &block, 2601).answer == 12
        && side.check(&with(0, 1024)) == 9 + 256 * 10_840;
    unless(holds, "longest block", &block)
}

/// So many copies of v0, each of the one before it, or the movis they become.
fn copies(count: u8, folded: bool) -> Vec<u8> {
    let copy = |i: u8| {
        if i == 0 || folded {
            movi(i, 7).to_vec()
        } else {
            vec![0x91, i, i - 1]
        }
    };
    (0..count).flat_map(copy).collect()
}

/// Five times 200 copies and 18 more, four brconds and a set_label between:
/// 3,720 bytes become 10,804. No result has the bound's 10,840 bytes.
fn growth(side: Side) -> Option<String> {
    let with = |folded: bool| {
        let mut block = globals(200);
        for _ in 0..4 {
            block.extend(copies(200, folded));
            block.extend([0xAA, 0, 0, 1, 127]);
        }
        block.extend(copies(200, folded));
        block.extend([2, 127]);
        block.extend(copies(18, folded));
        block.extend(EXIT);
        block
    };
    let (block, result) = (with(false), with(true));
    let holds = RESULT == 10_840
        && (block.len(), result.len()) == (3720, 10_804)
        && ran(side, &block, &[0; 200], &[]).report == [1, 7, 0, 1024]
        && passed(side, &block, RESULT).result() == Some(&result)
        && passed(side, &block, 10_804).result() == Some(&result)
        && passed(side, &block, 10_803).answer == 12
        && passed(side, &block, 8192).answer == 12
        && passed(side, &result, 10_804).result() == Some(&result);
    unless(holds, "longest result", &block)
}

/// What comes late in a block: a refusal, an ending, a label.
fn late(side: Side) -> Option<String> {
    let start = globals(200);
    let movis = |count: usize| movi(1, 0).repeat(count);
    let last = [&start[..], &movis(1000), &[4, 200]].concat();
    // divu of v0 by v1, which is known to be zero.
    let divided = [&start[..], &movis(1022), &[0xA0, 0, 0, 1], EXIT].concat();
    let loaded = [&start[..], &movis(1022), &[0xAB, 0, 0, 3], EXIT].concat();
    let jumped = [&start[..], &[3, 127], &movis(1021), &[2, 127], EXIT].concat();
    let report = |block: &[u8]| ran(side, block, &[5; 200], &[]).report;
    let cases: [(bool, &str, &[u8]); 4] = [
        (side.check(&last) == 4 + 256 * 10_600, "late 4", &last),
        (
            report(&divided) == [3, 1022, 0, 1022],
            "no result",
            &divided,
        ),
        (report(&loaded) == [2, 5, 3, 1023], "fault", &loaded),
        (report(&jumped) == [1, 5, 0, 3], "jump", &jumped),
    ];
    let mut told = cases
        .into_iter()
        .map(|(holds, what, block)| unless(holds, what, block));
    told.find_map(|found| found)
}

/// A global, a local temporary, and 198 temporaries.
fn temporaries() -> Vec<u8> {
    [V0, &[1, 1, 1], &[1, 2, 1].repeat(198)].concat()
}

/// v199 is written in a stretch of ops that movis of v198 fill up, before and
/// after; then comes a border; then v199 is read, which is refused unless it is
/// written again.
fn borders(side: Side) -> Option<String> {
    // A movi, a move, a load; a store and a brcond have an input first.
    let writers: [&[u8]; 5] = [
        &movi(199, 5),
        &[0x91, 199, 0],
        &[0xAB, 199, 0, 0],
        &[0x91, 199, 0, 0xAC, 199, 0, 0],
        &[0x91, 199, 0, 0xAA, 199, 0, 0, 5],
    ];
    let borders: [&[u8]; 5] = [
        &[2, 0],
        &[3, 4],
        &[4, 0],
        &[2, 0, 2, 1],
        &[4, 0, 3, 4, 2, 1],
    ];
    let fills = [
        (0, 0),
        (0, 1),
        (1, 0),
        (3, 2),
        (0, 300),
        (300, 0),
        (150, 150),
    ];
    let (start, end) = (temporaries(), [0x91, 0, 199, 2, 4, 2, 5, 4, 0]);
    let asked = |writer: &[u8], border: &[u8], (before, after): (usize, usize)| {
        let (before, after) = (movi(198, 1).repeat(before), movi(198, 2).repeat(after));
        let all = [&start[..], &before, writer, &after, border].concat();
        let place = all.len() as u64;
        answers(side, &[&all, &end], 8, place)
            .or_else(|| answers(side, &[&all, &movi(199, 6), &end], 0, 0))
            .or_else(|| answers(side, &[&all, &movi(198, 6), &end], 8, place + 10))
    };
    let pairs = writers.into_iter().flat_map(|w| borders.map(|b| (w, b)));
    let mut all = pairs.flat_map(|(w, b)| fills.map(|fill| (w, b, fill)));
    all.find_map(|(writer, border, fill)| asked(writer, border, fill))
}

/// A value known before a border is not known after it, wherever it was made
/// known: the add stays. A store of v0 leaves it readable.
fn kept(side: Side) -> Option<String> {
    let start = temporaries();
    let end = [0x94, 0, 0, 0, 0x94, 1, 1, 1, 0xAC, 1, 0, 3, 2, 4, 4, 0];
    let borders: [&[u8]; 3] = [&[2, 0], &[3, 4], &[2, 0, 2, 1]];
    let fills = [(0, 0), (0, 1), (1, 0), (0, 300), (300, 0)];
    let asked = |border: &[u8], (before, after): (usize, usize)| {
        let known = [movi(0, 5), movi(1, 6)].concat();
        let (before, after) = (movi(198, 1).repeat(before), movi(199, 2).repeat(after));
        let store = [0xAC, 0, 0, 0];
        let block = [&start[..], &before, &known, &after, &store, border, &end].concat();
        let result = [&start[..], &known, &store, border, &end].concat();
        let holds = passed(side, &block, RESULT).result() == Some(&result);
        unless(holds, "known before a border", &block)
    };
    let mut all = borders
        .into_iter()
        .flat_map(|b| fills.map(|fill| (b, fill)));
    all.find_map(|(border, fill)| asked(border, fill))
}
