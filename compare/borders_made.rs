//! Blocks that try the ends of extended basic blocks: stretches of ops, a
//! border (set_label, br or exit_tb) after each, and then a read of what was
//! written before one.

use super::{corner, Maker, Random, Setting};
use crate::second::{one, LABELS, OPS, VARIABLES};

/// A block of some stretches and a read.
pub(super) fn block(random: &mut Random, setting: Setting) -> Vec<u8> {
    let variables = match random.below(8) {
        0..=2 => 4 + random.below(8),
        3 => 60 + random.below(9),
        4 => 124 + random.below(9),
        5 => VARIABLES,
        _ => 4 + random.below(VARIABLES - 3),
    };
    let stretches = 1 + random.below(4);
    let mut maker = declared(random, variables, setting);
    if maker.random.chance(20) {
        borders(&mut maker);
    }
    let mut written: Vec<u8> = vec![];
    for _ in 0..stretches {
        let variable = match written.last() {
            Some(&again) if maker.random.chance(40) => again,
            _ => chosen(&mut maker),
        };
        written.push(variable);
        stretch(&mut maker, variable);
        borders(&mut maker);
    }
    let variable = maker.random.pick(&written);
    // One whose number differs in a high bit.
    let twin = variable ^ maker.random.pick(&[64, 128, 128, 128]);
    if (twin as usize) < variables && maker.random.chance(60) {
        write(&mut maker, variable);
        last_read(&mut maker, twin);
    } else {
        last_read(&mut maker, variable);
    }
    maker.set_owed();
    maker.op(0x04, &[0]);
    maker.bytes
}

/// Two globals, of 64 and of 32 bits, maybe more; then mostly temporaries.
fn declared(random: &mut Random, variables: usize, setting: Setting) -> Maker<'_> {
    let globals = 2 + random.below(variables / 2 - 1);
    let (mut classes, mut types) = (vec![], vec![]);
    for variable in 0..variables {
        classes.push(match variable {
            _ if variable < globals => 0,
            _ if random.chance(75) => 2,
            _ => 1,
        });
        types.push(match variable {
            0 => 1,
            1 => 0,
            _ => random.below(2) as u8,
        });
    }
    let pairs = classes.iter().zip(&types);
    let bytes = pairs.flat_map(|(&class, &width)| [1, class, width]);
    Maker {
        bytes: bytes.collect(),
        classes,
        types,
        ..Maker::new(random, 1, setting)
    }
}

/// A variable to write before a border: mostly a temporary.
fn chosen(maker: &mut Maker) -> u8 {
    let all: Vec<u8> = (0..maker.classes.len() as u8).collect();
    let temporary = |v: &u8| maker.classes[*v as usize] == 2;
    let temporaries: Vec<u8> = all.iter().copied().filter(temporary).collect();
    if temporaries.is_empty() || maker.random.chance(25) {
        maker.random.pick(&all)
    } else {
        maker.random.pick(&temporaries)
    }
}

/// How many ops stand between two borders.
fn length(random: &mut Random) -> usize {
    match random.below(20) {
        0 => 0,
        1..=5 => 1,
        6..=8 => 2,
        9..=14 => 3 + random.below(6),
        15 | 16 => 10 + random.below(30),
        17 => 62 + random.below(6),
        18 => 126 + random.below(6),
        _ => 254 + random.below(6),
    }
}

/// Ops of which one, the first, the last or another, writes the variable.
fn stretch(maker: &mut Maker, variable: u8) {
    // Room is left for the labels that are jumped to, and the rest.
    let length = length(maker.random).min((OPS - LABELS - 20).saturating_sub(maker.ops));
    if length == 0 {
        return;
    }
    let writes = match maker.random.below(3) {
        0 => 0,
        1 => length - 1,
        _ => maker.random.below(length),
    };
    for turn in 0..length {
        if turn == writes {
            write(maker, variable);
        } else {
            other(maker, variable);
        }
    }
}

fn is_wide(maker: &Maker, variable: u8) -> bool {
    maker.types[variable as usize] == 1
}

/// The kind of this width.
fn sized(kind: u8, wide: bool) -> u8 {
    if wide {
        kind | 0x80
    } else {
        kind
    }
}

/// A variable of this width to read: often this one, where that is allowed.
fn input(maker: &mut Maker, variable: u8, wide: bool) -> u8 {
    let fits = is_wide(maker, variable) == wide && maker.may_read(variable);
    if fits && maker.random.chance(60) {
        return variable;
    }
    maker.input(wide).unwrap_or(!wide as u8)
}

/// One op that writes the variable: a movi, a load or another.
fn write(maker: &mut Maker, variable: u8) {
    let wide = is_wide(maker, variable);
    let (a, b) = (input(maker, variable, wide), input(maker, variable, wide));
    match maker.random.below(4) {
        0 => maker.op(sized(0x2B, wide), &[variable, 0, 0]),
        1 => maker.op(sized(0x11, wide), &[variable, a]),
        2 => maker.op(sized(0x14, wide), &[variable, a, b]),
        _ => {
            let value = corner(maker.random, wide);
            maker.movi(variable, value);
        }
    }
}

/// One op that does not write the variable, but may read it.
fn other(maker: &mut Maker, variable: u8) {
    let wide = maker.random.chance(50);
    let (a, b) = (input(maker, variable, wide), input(maker, variable, wide));
    let output = maker.output(wide).filter(|&output| output != variable);
    let cond = maker.random.below(10) as u8;
    match (maker.random.below(8), output) {
        (0 | 1, Some(output)) => {
            let value = corner(maker.random, wide);
            maker.movi(output, value);
        }
        (2 | 3, Some(output)) => maker.op(sized(0x11, wide), &[output, a]),
        (4, Some(output)) => maker.op(sized(0x28, wide), &[output, a, b, cond]),
        (5, Some(output)) => maker.op(sized(0x2B, wide), &[output, 0, 0]),
        (6, _) => match maker.label() {
            Some(label) => jump_if(maker, &[a, b, cond, label]),
            None => maker.op(sized(0x2C, wide), &[a, 0, 0]),
        },
        _ => maker.op(sized(0x2C, wide), &[a, 0, 0]),
    }
}

/// A brcond with this body.
fn jump_if(maker: &mut Maker, body: &[u8; 4]) {
    maker.jumped |= one(body[3]);
    let wide = is_wide(maker, body[0]);
    maker.op(sized(0x2A, wide), body);
}

/// A border, or some one after another.
fn borders(maker: &mut Maker) {
    let count = maker.random.pick(&[1, 1, 1, 2, 3]);
    for _ in 0..count {
        match (maker.random.below(3), maker.label()) {
            (0, Some(label)) => maker.br(label),
            (1, Some(label)) => maker.set_label(label),
            _ => maker.op(0x04, &[0]),
        }
    }
}

/// A read of the variable by one op, at times after it is written again.
fn last_read(maker: &mut Maker, variable: u8) {
    let wide = is_wide(maker, variable);
    for _ in 0..maker.random.pick(&[0, 0, 1, 3]) {
        other(maker, variable);
    }
    if maker.random.chance(30) {
        write(maker, variable);
        if maker.random.chance(30) {
            borders(maker);
        }
    }
    // The globals of this width and of the other.
    let (d, v) = (!wide as u8, variable);
    let cond = maker.random.below(10) as u8;
    let label = maker.label().unwrap_or(0);
    match maker.random.below(if wide { 11 } else { 8 }) {
        0 => maker.op(sized(0x11, wide), &[d, v]),
        1 => maker.op(sized(0x14, wide), &[d, v, v]),
        2 => maker.op(sized(0x14, wide), &[d, v, d]),
        3 => maker.op(sized(0x19, wide), &[d, d, v]),
        4 => maker.op(sized(0x2C, wide), &[v, 0, 0]),
        5 => jump_if(maker, &[v, d, cond, label]),
        6 => jump_if(maker, &[d, v, cond, label]),
        7 => maker.op(sized(0x29, wide), &[d, d, d, d, v, cond]),
        8 => maker.op(0x04, &[v]),
        9 => maker.op(0xAB, &[0, v, 3]),
        _ => maker.op(0x2C, &[1, v, 0]),
    }
}
