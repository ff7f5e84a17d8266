//! Blocks of request 05: at the limits and one past each, of the sizes at which
//! an implementation may turn to more room, and with late ends.

use super::{
    broken, corner, full, growth, jump_gone_wrong, record, records, Maker, Random, Setting, Style,
};
use crate::second::{one, Form, DECLARATION, LABELS, MOVI, OPS, SHAPES, VARIABLES};

/// Numbers of ops about those at which other room may be taken.
pub const SOME_OPS: [usize; 16] = [
    62,
    63,
    64,
    65,
    66,
    127,
    128,
    129,
    130,
    254,
    255,
    256,
    257,
    258,
    OPS - 1,
    OPS,
];
/// Numbers of bytes of such blocks.
pub const SOME_BYTES: [usize; 24] = [
    127, 128, 129, 130, 255, 256, 257, 258, 511, 512, 513, 514, 515, 1023, 1024, 1025, 2047, 2048,
    2049, 2050, 4096, 4097, 8191, 8192,
];
/// Both at once.
pub const SOME_BOTH: [(usize, usize); 16] = [
    (127, 62),
    (128, 62),
    (129, 63),
    (131, 64),
    (133, 65),
    (511, 254),
    (511, 64),
    (511, 65),
    (512, 64),
    (512, 65),
    (512, 253),
    (513, 64),
    (513, 65),
    (513, 255),
    (515, 256),
    (517, 257),
];

/// The block of this number.
pub(super) fn block(random: &mut Random, number: usize, setting: Setting) -> Vec<u8> {
    let turn = number / 24;
    match number % 24 {
        0 => broken(random, setting),
        1 => jump_gone_wrong(random, setting),
        2 => cut_short(random, turn, setting),
        3 => label_too_high(random, setting),
        4 => crowd(random, turn, setting),
        5 => variable_too_many(random, turn, setting),
        6 => last_label(random, setting),
        7..=13 => sized(random, number, setting),
        14 => all_labels(random, setting),
        15 => growth(random, setting),
        16 => grown(random, setting),
        17 => late_end(random, setting),
        18 => longest(random, setting),
        19 => late_refusal(random, turn, setting),
        20 => full(random, setting),
        21 => one_op_more(random, setting),
        _ => op_too_many(random, 2 * turn + number % 2, setting),
    }
}

/// A block of a certain number of bytes or ops; at times its last op is bad.
fn sized(random: &mut Random, number: usize, setting: Setting) -> Vec<u8> {
    let turn = number / 24;
    let mut block = match number % 24 {
        7..=9 => of_bytes(random, 3 * turn + number % 3, setting),
        10 | 11 => of_ops(random, 2 * turn + number % 2, setting),
        _ => of_both(random, 2 * turn + number % 2, setting),
    };
    let last = block.len() - 1;
    if random.chance(20) {
        block[last] = VARIABLES as u8;
    }
    block
}

/// A style of ops of every sort, with exactly so many ops.
fn exactly(ops: usize, risk: usize) -> Style {
    Style {
        constants: 25,
        accesses: 15,
        jumps: 8,
        risk,
        ops,
        exact: true,
    }
}

/// A maker of a block whose first variable is a global of 64 bits.
fn maker(random: &mut Random, variables: usize, setting: Setting) -> Maker<'_> {
    let mut maker = Maker::new(random, variables, setting);
    maker.bytes[..DECLARATION].copy_from_slice(&[1, 0, 1]);
    (maker.classes[0], maker.types[0]) = (0, 1);
    maker
}

fn exit(mut maker: Maker) -> Vec<u8> {
    maker.op(0x04, &[0]);
    maker.bytes
}

/// One movi is doubled, so the last op is the one too many.
fn one_op_more(random: &mut Random, setting: Setting) -> Vec<u8> {
    let mut block = full(random, setting);
    let movi = |start: &usize| SHAPES[block[*start] as usize].form == Form::Movi;
    let all: Vec<usize> = records(&block).into_iter().filter(movi).collect();
    if let Some(&start) = all.get(random.below(all.len().max(1))) {
        let twice = record(&block, start);
        block.splice(start..start, twice);
    }
    block
}

/// A declared variable of this class and type.
fn declared(block: &[u8], class: u8, width: u8) -> Option<u8> {
    let declarations = block[..DECLARATION * VARIABLES].chunks(DECLARATION);
    let found = declarations
        .zip(0..)
        .find(|(d, _)| d[1..] == [class, width]);
    found.map(|(_, variable)| variable)
}

/// A record that breaks the rule of this number, after a block of as many
/// variables as there may be; 0 breaks none.
fn bad_record(block: &[u8], rule: u8) -> Vec<u8> {
    let wide = |class| declared(block, class, 1);
    let set = records(block).into_iter().find(|&start| block[start] == 2);
    match rule {
        1 => vec![0x90, 0],
        2 => vec![0x3F, 0],
        3 => vec![1, 0, 1],
        5 => vec![4, declared(block, 0, 0).unwrap_or(VARIABLES as u8)],
        6 => vec![3, LABELS as u8],
        7 => vec![2, set.map_or(LABELS as u8, |start| block[start + 1])],
        8 => vec![4, wide(2).unwrap_or(VARIABLES as u8)],
        0 => vec![4, wide(0).unwrap_or(VARIABLES as u8)],
        _ => vec![4, VARIABLES as u8],
    }
}

/// A record after as many ops as there may be, that often breaks another rule
/// too.
fn op_too_many(random: &mut Random, turn: usize, setting: Setting) -> Vec<u8> {
    let mut block = full(random, setting);
    let bad = bad_record(&block, (turn % 9) as u8);
    block.extend(bad);
    if random.chance(50) {
        block.extend([4, 0]);
    }
    block
}

/// Few ops on so many variables that their numbers pass a power of two, or as
/// many as there may be.
fn crowd(random: &mut Random, turn: usize, setting: Setting) -> Vec<u8> {
    let all = [63, 64, 65, 127, 128, 129, VARIABLES - 1, VARIABLES];
    let mut maker = Maker::new(random, all[turn % all.len()], setting);
    let ops = 5 + maker.random.below(40);
    maker.body(&exactly(ops, 2));
    maker.bytes
}

/// One variable more than there may be, of each class and type, also bad ones.
fn variable_too_many(random: &mut Random, turn: usize, setting: Setting) -> Vec<u8> {
    let (class, width) = (turn % 4, random.pick(&[0, 1, 1, 2]));
    let mut block = if class == 0 {
        let width = random.below(2) as u8;
        let mut globals = [1, 0, width].repeat(VARIABLES);
        globals[DECLARATION - 1] = 1;
        globals.extend([4, 0]);
        globals
    } else {
        let mut maker = Maker::new(random, VARIABLES, setting);
        maker.body(&exactly(8, 0));
        maker.bytes
    };
    let first = DECLARATION * VARIABLES;
    block.splice(first..first, [1, class as u8, width]);
    block
}

/// A set_label, br or brcond of a label that is just too high, or higher.
fn label_too_high(random: &mut Random, setting: Setting) -> Vec<u8> {
    let variables = 1 + random.below(8);
    let mut maker = maker(random, variables, setting);
    let ops = 6 + maker.random.below(10);
    maker.body(&exactly(ops, 0));
    let mut block = maker.bytes;
    let starts = records(&block);
    let start = starts[variables + random.below(starts.len() - variables)];
    let first = LABELS as u8;
    let label = random.pick(&[first, first, first, first + 1, first | 32, u8::MAX]);
    let narrow = (0..variables).find(|v| block[DECLARATION * v + 1..][..2] == [0, 0]);
    let bad: Vec<u8> = match (random.below(4), narrow) {
        (0, _) => vec![2, label],
        (1, _) => vec![3, label],
        (2, Some(v)) => vec![0x2A, v as u8, v as u8, 0, label],
        _ => vec![0xAA, 0, 0, 0, label],
    };
    block.splice(start..start, bad);
    block
}

/// The last label, or another high one, jumped to or fallen into.
fn last_label(random: &mut Random, setting: Setting) -> Vec<u8> {
    let variables = random.pick(&[2, 6, 70, VARIABLES]);
    let mut maker = maker(random, variables, setting);
    let last = LABELS as u8 - 1;
    let label = maker.random.pick(&[last, last, last / 2, last / 2 + 1]);
    for _ in 0..maker.random.below(4) {
        maker.compute(0);
    }
    match maker.random.below(5) {
        0 => {}
        1 => maker.br(label),
        _ => drop(maker.brcond(label)),
    }
    for _ in 0..maker.random.below(4) {
        maker.compute(0);
    }
    maker.set_label(label);
    let ops = maker.ops + 8;
    maker.body(&exactly(ops, 0));
    maker.bytes
}

fn shuffle(random: &mut Random, labels: &mut [u8]) {
    for i in 1..labels.len() {
        labels.swap(i, random.below(i + 1));
    }
}

/// Every label, mostly jumped to; often as many ops and variables as there may
/// be.
fn all_labels(random: &mut Random, setting: Setting) -> Vec<u8> {
    let variables = random.pick(&[3, 70, VARIABLES, VARIABLES]);
    let mut labels: Vec<u8> = (0..LABELS as u8).collect();
    shuffle(random, &mut labels);
    let lag = 1 + random.below(LABELS);
    let jumps = random.pick(&[50, 100, 100]);
    let mut maker = maker(random, variables, setting);
    for turn in 0..LABELS + lag {
        if let Some(&label) = labels.get(turn).filter(|_| maker.random.chance(jumps)) {
            let branches = maker.random.chance(85) && maker.brcond(label).is_some();
            if !branches {
                maker.br(label);
            }
        }
        if turn >= lag {
            maker.set_label(labels[turn - lag]);
        }
        if maker.random.chance(20) {
            maker.compute(0);
        }
    }
    let ops = if variables == VARIABLES { OPS } else { 0 };
    maker.finish(&exactly(ops, 0));
    maker.bytes
}

/// Results as long as they get: all globals are written between two ops before
/// which they are live, by ops that fold.
fn grown(random: &mut Random, setting: Setting) -> Vec<u8> {
    let label = random.below(LABELS) as u8;
    let mut maker = Maker {
        classes: vec![0; VARIABLES],
        types: vec![1; VARIABLES],
        ..Maker::new(random, 1, setting)
    };
    maker.bytes = [1, 0, 1].repeat(VARIABLES);
    for turn in 0..=OPS / VARIABLES {
        let left = OPS - 1 - maker.ops;
        let value = corner(maker.random, true);
        maker.movi(0, value);
        for next in 1..left.min(VARIABLES) as u8 {
            // mov, neg, not; then add to nor.
            let kind = 0x91 + maker.random.below(14) as u8;
            let length = SHAPES[kind as usize].body as usize;
            maker.op(kind, &[next, next - 1, next - 1][..length]);
        }
        match OPS / VARIABLES - turn {
            0 => {}
            1 => maker.set_label(label),
            _ => {
                let cond = maker.random.below(10) as u8;
                maker.jumped |= one(label);
                maker.op(0xAA, &[0, 0, cond, label]);
            }
        }
    }
    exit(maker)
}

/// The lengths that `op_of` can make.
const LENGTHS: [usize; 6] = [2, 3, 4, 5, 7, MOVI];

/// An op of so many bytes; one of two bytes is mostly a label.
fn op_of(maker: &mut Maker, length: usize) {
    let output = maker.output(true).unwrap_or(0);
    let mut input = || maker.input(true).unwrap_or(0);
    let (a, b, c, d) = (input(), input(), input(), input());
    let cond = maker.random.below(10) as u8;
    let kind = maker.random.below(3) as u8;
    match length {
        2 => match maker.label() {
            Some(label) => maker.set_label(label),
            None => maker.op(0x04, &[0]),
        },
        3 => maker.op(0x91 + kind, &[output, a]),
        4 if maker.random.chance(10) => maker.op(0xAB + kind % 2, &[output_or(kind, output), 0, 0]),
        4 => maker.op(0x94 + kind, &[output, a, b]),
        5 => maker.op(0xA8, &[output, a, b, cond]),
        7 => maker.op(0xA9, &[output, a, b, c, d, cond]),
        _ => {
            let value = corner(maker.random, true);
            maker.movi(output, value);
        }
    }
}

/// What a load writes; a store has the first variable there.
fn output_or(kind: u8, output: u8) -> u8 {
    if kind % 2 == 0 {
        output
    } else {
        0
    }
}

/// Whether so many ops can have so many bytes: none has 9, 8 or 6.
fn reachable(bytes: usize, ops: usize) -> bool {
    let Some(less) = (MOVI * ops).checked_sub(bytes) else {
        return false;
    };
    bytes >= 2 * ops && ![1, 2, 4].contains(&less)
}

/// Ops and an exit_tb up to exactly so many bytes and ops in all.
fn fill(mut maker: Maker, bytes: usize, ops: usize) -> Vec<u8> {
    while maker.ops + 1 < ops {
        let (left, count) = (bytes - 2 - maker.bytes.len(), ops - 1 - maker.ops);
        let fits = |&&length: &&usize| length <= left && reachable(left - length, count - 1);
        let some: Vec<usize> = LENGTHS.iter().filter(fits).copied().collect();
        let length = maker.random.pick(&some);
        op_of(&mut maker, length);
    }
    exit(maker)
}

/// A block of so many bytes: ops of every sort, and then some that fill it up.
fn of_bytes(random: &mut Random, turn: usize, setting: Setting) -> Vec<u8> {
    let bytes = SOME_BYTES[turn % SOME_BYTES.len()];
    let variables = 1 + random.below(if bytes > 600 { VARIABLES } else { 12 });
    let style = exactly(OPS, random.pick(&[0, 0, 5]));
    let mut maker = maker(random, variables, setting);
    // A step may come with movis, and owe a label; movis have to fill the rest.
    while maker.bytes.len() + 2 * maker.owed() + 100 < bytes
        && bytes < maker.bytes.len() + MOVI * (OPS - 60).saturating_sub(maker.ops)
    {
        maker.step(&style);
    }
    maker.set_owed();
    let left = bytes - maker.bytes.len();
    let least = maker.ops + left.div_ceil(MOVI) + 2;
    let ops = (least + maker.random.below(20)).min(maker.ops + left / 3);
    fill(maker, bytes, ops)
}

/// A block of so many ops.
fn of_ops(random: &mut Random, turn: usize, setting: Setting) -> Vec<u8> {
    let ops = SOME_OPS[turn % SOME_OPS.len()];
    let variables = 1 + random.below(20);
    let risk = random.pick(&[0, 0, 5]);
    let mut maker = Maker::new(random, variables, setting);
    maker.body(&exactly(ops, risk));
    maker.bytes
}

/// A block of so many bytes and so many ops.
fn of_both(random: &mut Random, turn: usize, setting: Setting) -> Vec<u8> {
    let (bytes, ops) = SOME_BOTH[turn % SOME_BOTH.len()];
    let fits = |&n: &usize| {
        let declared = DECLARATION * n + 2;
        declared <= bytes && reachable(bytes - declared, ops - 1)
    };
    let all: Vec<usize> = (1..=VARIABLES).filter(fits).collect();
    let variables = random.pick(&all);
    fill(maker(random, variables, setting), bytes, ops)
}

/// A block that ends late: by an exit, for want of a result or by a fault.
fn late_end(random: &mut Random, setting: Setting) -> Vec<u8> {
    let ops = random.pick(&[250, 257, 258, 300, 513, OPS - 1, OPS, OPS, OPS, OPS]);
    let variables = random.pick(&[4, 70, VARIABLES]);
    let style = Style {
        jumps: 0,
        accesses: if setting.memory < 8 { 0 } else { 10 },
        ..exactly(ops, 0)
    };
    let mut maker = maker(random, variables, setting);
    while maker.ops + 8 < ops {
        maker.step(&style);
    }
    while maker.ops + 3 < ops {
        maker.constant();
    }
    let (value, kind) = maker.random.pick(&[
        (0, [0xA0, 0, 0, 0]),
        (u64::MAX, [0xAB, 0, 0, 3]),
        (u64::MAX, [0xAC, 0, 0, 3]),
        (0, [0x94, 0, 0, 0]),
    ]);
    maker.movi(0, value);
    maker.op(kind[0], &kind[1..]);
    exit(maker)
}

/// As many bytes as a block may have, or an op more.
fn longest(random: &mut Random, setting: Setting) -> Vec<u8> {
    let more = random.below(2);
    let mut maker = maker(random, VARIABLES, setting);
    while maker.ops + 1 < OPS + more {
        maker.constant();
    }
    exit(maker)
}

/// A long block with a record near its end that breaks a rule.
fn late_refusal(random: &mut Random, turn: usize, setting: Setting) -> Vec<u8> {
    let ops = OPS - 3 - random.below(200);
    let mut maker = maker(random, VARIABLES, setting);
    maker.set_label(0);
    while maker.ops < ops {
        maker.constant();
    }
    let mut block = exit(maker);
    let bad = bad_record(&block, 1 + (turn % 8) as u8);
    block.extend(bad);
    block.extend([4, 0]);
    block
}

/// Declarations alone, or the last op gone or cut, or its label never set.
fn cut_short(random: &mut Random, turn: usize, setting: Setting) -> Vec<u8> {
    let variables = random.pick(&[1, 64, 65, 128, 129, VARIABLES]);
    let mut maker = maker(random, variables, setting);
    let ops = maker.random.pick(&[20, 64, 65, 256, 257]);
    maker.body(&exactly(ops, 0));
    let mut block = maker.bytes;
    match turn % 4 {
        0 => block.truncate(DECLARATION * variables),
        1 => block.truncate(block.len() - 2),
        2 => block.truncate(block.len() - 1),
        _ => {
            let last = block.len() - 2;
            let unset = (0..LABELS as u8).rev().find(|label| {
                let sets = |start: usize| block[start..start + 2] == [2, *label];
                !records(&block).into_iter().any(sets)
            });
            block.splice(last..last, [3, unset.unwrap_or(0)]);
        }
    }
    block
}
