//! Blocks to compare on. Each case follows from the seed and its number alone.

use crate::cases::Case;
use crate::second::{
    one, size, Form, Set, ALIGNED, DECLARATION, IZ, LABELS, MEMORY, OPS, OS, OZ, SHAPES, SIGNED,
    VARIABLES,
};

#[path = "borders_made.rs"]
mod borders_made;
#[path = "larger.rs"]
pub mod larger;

/// A small generator of pseudo-random numbers (splitmix64).
pub struct Random(u64);

impl Random {
    pub fn new(seed: u64, number: u64) -> Random {
        let mut random = Random(seed ^ number.wrapping_mul(0xD1B5_4A32_D192_ED03));
        random.next();
        random
    }

    pub fn next(&mut self) -> u64 {
        self.0 = self.0.wrapping_add(0x9E37_79B9_7F4A_7C15);
        let mut z = self.0;
        z = (z ^ z >> 30).wrapping_mul(0xBF58_476D_1CE4_E5B9);
        z = (z ^ z >> 27).wrapping_mul(0x94D0_49BB_1331_11EB);
        z ^ z >> 31
    }

    /// A number below the bound, which is not zero.
    pub fn below(&mut self, bound: usize) -> usize {
        (self.next() % bound as u64) as usize
    }

    /// True in so many cases of a hundred.
    pub fn chance(&mut self, percent: usize) -> bool {
        self.below(100) < percent
    }

    pub fn pick<T: Copy>(&mut self, from: &[T]) -> T {
        from[self.below(from.len())]
    }
}

/// Values at the edges of both widths and of the shift counts.
const CORNERS: [u64; 26] = [
    0,
    1,
    2,
    3,
    7,
    8,
    15,
    31,
    32,
    33,
    63,
    64,
    65,
    0x80,
    0x8000,
    0x7FFF_FFFF,
    0x8000_0000,
    0x8000_0001,
    0xFFFF_FFFE,
    0xFFFF_FFFF,
    0x1_0000_0000,
    0x1_0000_0001,
    0x7FFF_FFFF_FFFF_FFFF,
    0x8000_0000_0000_0000,
    0x8000_0000_0000_0001,
    0xFFFF_FFFF_FFFF_FFFF,
];

fn narrowed(value: u64, wide: bool) -> u64 {
    if wide {
        value
    } else {
        value & 0xFFFF_FFFF
    }
}

fn corner(random: &mut Random, wide: bool) -> u64 {
    let value = match random.below(10) {
        0..=5 => random.pick(&CORNERS),
        6 | 7 => random.next() & 0x3F,
        8 => random.next(),
        _ => (random.next() & 0x3F).wrapping_neg(),
    };
    narrowed(value, wide)
}

/// Values that bit fields, swaps and counts tell apart.
const BITS: [u64; 16] = [
    0,
    0,
    1,
    0x80,
    0x1234,
    0x8000,
    0xFFFF,
    0x1_0000,
    0x1234_5678,
    0x8000_0000,
    0xFFFF_FFFF,
    0x1_0000_0000,
    0x0123_4567_89AB_CDEF,
    0xFEDC_BA98_7654_3210,
    0x8000_0000_0000_0000,
    0xFFFF_FFFF_FFFF_FFFF,
];

fn some_value(random: &mut Random) -> u64 {
    if random.chance(30) {
        random.next()
    } else {
        random.pick(&BITS)
    }
}

/// Whether request 03 added the kind: a bit field, swap or count.
fn is_added(kind: u8) -> bool {
    kind & 0x7F >= 0x2D
}

fn width(kind: u8) -> u8 {
    if kind & 0x80 != 0 {
        64
    } else {
        32
    }
}

/// How many low bits a swap that carries OZ or OS has to swap.
fn part(kind: u8) -> Option<u8> {
    match kind {
        0x31 | 0xB1 => Some(16),
        0xB2 => Some(32),
        _ => None,
    }
}

/// A field within the width, often at one of its ends.
fn field(random: &mut Random, width: u8) -> Vec<u8> {
    let length = match random.below(5) {
        0 => 1,
        1 => width,
        _ => 1 + random.below(width as usize) as u8,
    };
    let last = width - length;
    let position = match random.below(4) {
        0 => 0,
        1 => last,
        _ => random.below(last as usize + 1) as u8,
    };
    vec![position, length]
}

/// What follows the operands of a kind that request 03 added.
fn good(random: &mut Random, kind: u8) -> Vec<u8> {
    let width = width(kind);
    match kind & 0x7F {
        0x2D..=0x2F => field(random, width),
        0x30 if random.chance(40) => vec![random.pick(&[0, 1, width - 1, width])],
        0x30 => vec![random.below(width as usize + 1) as u8],
        0x31..=0x33 if part(kind).is_some() => {
            vec![random.pick(&[OZ, OS]) | random.pick(&[0, IZ])]
        }
        0x31..=0x33 => vec![0],
        _ => vec![],
    }
}

/// A kind that has such constants; not every block has variables of 32 bits.
fn limited(random: &mut Random) -> u8 {
    let kind = match random.below(9) {
        0..=3 => 0x2D + random.below(3) as u8,
        4 => 0x30,
        _ => random.pick(&[0x31, 0x32, 0x32, 0x33]),
    };
    if kind == 0x33 || random.chance(35) {
        kind | 0x80
    } else {
        kind
    }
}

/// The same just beyond a limit.
fn bad(random: &mut Random, kind: u8) -> Vec<u8> {
    let width = width(kind);
    let position = random.below(width as usize + 1) as u8;
    match kind & 0x7F {
        0x2D..=0x2F => match random.below(5) {
            0 | 1 => vec![position, 0],
            2 | 3 => vec![position, width + 1 - position],
            // The end is within the width if it is reckoned in a byte.
            _ => vec![
                255 - position,
                position + 1 + random.below(width as usize) as u8,
            ],
        },
        0x30 => vec![random.pick(&[width + 1, width + 1, width + 2, 128, 255])],
        0x31..=0x33 if random.chance(30) => {
            let low = good(random, kind)[0];
            vec![low | 8 << random.below(5)]
        }
        0x31..=0x33 if part(kind).is_some() => vec![random.pick(&[0, IZ, OZ | OS, IZ | OZ | OS])],
        0x31..=0x33 if random.chance(70) => vec![random.pick(&[IZ, OZ, OS])],
        0x31..=0x33 => vec![1 + random.below(7) as u8],
        _ => vec![],
    }
}

/// The flags of an access just beyond a limit, with and without bit 4: the size
/// against the width, bit 2 on a store, a high bit.
fn bad_flags(random: &mut Random, wide: bool, store: bool) -> u8 {
    let low = random.below(32) as u8;
    match random.below(5) {
        0 if !wide => low | 3,
        1 | 2 if store => low | SIGNED,
        _ => low | 0x20 << random.below(3),
    }
}

/// How large blocks are made.
#[derive(Clone, Copy)]
pub struct Sizes {
    pub variables: usize,
    pub ops: usize,
    pub labels: usize,
}

/// Older front ends write smaller blocks than the limits allow.
pub const OLDER: Sizes = Sizes {
    variables: 64,
    ops: 256,
    labels: 32,
};
const NEWER: Sizes = Sizes {
    variables: VARIABLES,
    ops: OPS,
    labels: LABELS,
};

/// What a block is made for.
#[derive(Clone, Copy)]
struct Setting {
    /// The length of the memory lent.
    memory: usize,
    /// Newer front ends read temporaries past a brcond, write the kinds that
    /// request 03 added, ask for aligned addresses and go up to the limits of
    /// request 05; older ones do not. The benchmark times blocks of older ones,
    /// so those that are accepted stay as they are.
    newer: bool,
}

impl Setting {
    fn has(self, kind: u8) -> bool {
        self.newer || !is_added(kind)
    }

    fn sizes(self) -> Sizes {
        if self.newer {
            NEWER
        } else {
            OLDER
        }
    }
}

/// What a block may have wrong.
#[derive(Clone, Copy, PartialEq, Eq)]
enum Slip {
    Nothing,
    /// Older front ends read temporaries before a write, and newer ones after
    /// the end of their extended basic block.
    Lifetimes,
    /// Fields, positions and flags of swaps lie on both sides of their limits.
    Constants,
    /// Flags of loads and stores lie on both sides of their limits.
    Flags,
}

/// How often ops of each sort come, in cases of a hundred, and how many ops.
struct Style {
    constants: usize,
    accesses: usize,
    jumps: usize,
    /// Divisors, counts and addresses that may have no result or fault.
    risk: usize,
    ops: usize,
    /// Fill up to exactly so many ops.
    exact: bool,
}

fn style(random: &mut Random, setting: Setting) -> Style {
    let ops = match random.below(20) {
        0..=9 => 5 + random.below(12),
        10..=15 => 10 + random.below(40),
        16..=18 => 40 + random.below(OLDER.ops - 40),
        _ if !setting.newer => OLDER.ops,
        // Few have more ops, so that the comparison takes no longer.
        _ if random.chance(85) => 40 + random.below(OLDER.ops - 40),
        _ if random.chance(70) => OLDER.ops + random.below(OPS - OLDER.ops),
        _ => OPS,
    };
    let exact = ops == setting.sizes().ops || random.chance(10);
    Style {
        constants: random.pick(&[5, 15, 30, 45]),
        accesses: random.pick(&[0, 5, 20, 50]),
        jumps: random.pick(&[0, 3, 10, 25]),
        risk: random.pick(&[0, 0, 2, 10, 50]),
        ops,
        exact,
    }
}

/// Writes one accepted block, op by op.
struct Maker<'a> {
    random: &'a mut Random,
    bytes: Vec<u8>,
    classes: Vec<u8>,
    types: Vec<u8>,
    ops: usize,
    /// Variables written in this extended basic block; for older front ends,
    /// since its last brcond.
    written: Set,
    set: Set,
    jumped: Set,
    setting: Setting,
    slip: Slip,
    /// The kinds that fold may replace, as far as the front end writes them.
    kinds: Vec<u8>,
}

/// The most ops that `branch` makes, and the label it owes.
const BRANCH: usize = 9;

impl Maker<'_> {
    fn new(random: &mut Random, variables: usize, setting: Setting) -> Maker<'_> {
        let globals = random.below(variables + 1);
        let sure = random.below(variables);
        let folds = |&k: &u8| SHAPES[k as usize].form == Form::Compute && setting.has(k);
        let mut maker = Maker {
            random,
            bytes: vec![],
            classes: vec![],
            types: vec![],
            ops: 0,
            written: Set::NONE,
            set: Set::NONE,
            jumped: Set::NONE,
            setting,
            slip: Slip::Nothing,
            kinds: (0..=255).filter(folds).collect(),
        };
        for variable in 0..variables {
            let class = if variable < globals {
                0
            } else {
                1 + maker.random.below(2) as u8
            };
            // At least one variable has 64 bits, for exit_tb.
            let width = if variable == sure {
                1
            } else {
                maker.random.below(2) as u8
            };
            maker.bytes.extend([1, class, width]);
            maker.classes.push(class);
            maker.types.push(width);
        }
        maker
    }

    fn careless(&self) -> bool {
        self.slip == Slip::Lifetimes
    }

    fn of_width(&self, wide: bool) -> Vec<u8> {
        (0..self.types.len() as u8)
            .filter(|&v| (self.types[v as usize] == 1) == wide)
            .collect()
    }

    fn output(&mut self, wide: bool) -> Option<u8> {
        let all = self.of_width(wide);
        // Few outputs make many dead writes.
        let some = if self.random.chance(40) {
            all.len().min(2)
        } else {
            all.len()
        };
        if all.is_empty() {
            None
        } else {
            Some(all[self.random.below(some)])
        }
    }

    /// Whether a read of this variable is allowed here.
    fn may_read(&self, variable: u8) -> bool {
        self.classes[variable as usize] != 2 || self.written.has(variable)
    }

    /// A variable that may be read here, often one that was just written.
    fn input(&mut self, wide: bool) -> Option<u8> {
        let mut all = self.of_width(wide);
        let any = self.careless() && !self.setting.newer;
        if any && self.random.chance(15) && !all.is_empty() {
            return Some(self.random.pick(&all));
        }
        all.retain(|&v| self.may_read(v));
        let fresh: Vec<u8> = all
            .iter()
            .copied()
            .filter(|&v| self.written.has(v))
            .collect();
        if !fresh.is_empty() && self.random.chance(75) {
            return Some(self.random.pick(&fresh));
        }
        if all.is_empty() {
            None
        } else {
            Some(self.random.pick(&all))
        }
    }

    fn op(&mut self, kind: u8, body: &[u8]) {
        self.bytes.push(kind);
        self.bytes.extend(body);
        self.ops += 1;
        let shape = &SHAPES[kind as usize];
        if shape.outputs == 1 {
            self.written |= one(body[0]);
        }
        if self.ends(shape.form) {
            self.written = Set::NONE;
        }
    }

    /// Whether temporaries are no longer read after this op.
    fn ends(&mut self, form: Form) -> bool {
        match form {
            Form::SetLabel | Form::Br | Form::ExitTb => {
                let forgets = self.careless() && self.setting.newer;
                !forgets || self.random.chance(50)
            }
            Form::BrCond => !self.setting.newer,
            _ => false,
        }
    }

    fn movi(&mut self, variable: u8, value: u64) {
        let wide = self.types[variable as usize] == 1;
        let mut body = vec![variable];
        body.extend(narrowed(value, wide).to_le_bytes());
        self.op(if wide { 0x90 } else { 0x10 }, &body);
    }

    fn constant(&mut self) {
        let wide = self.random.chance(50);
        if let Some(variable) = self.output(wide) {
            let value = corner(self.random, wide);
            self.movi(variable, value);
        }
    }

    /// An input that a movi has just written.
    fn known(&mut self, wide: bool, value: u64) -> Option<u8> {
        let variable = self.output(wide)?;
        self.movi(variable, value);
        Some(variable)
    }

    /// The divisor or count, mostly one that gives a stated result.
    fn second(&mut self, kind: u8, wide: bool, risk: usize) -> Option<u8> {
        let width = if wide { 64 } else { 32 };
        let value = match kind & 0x7F {
            0x1F..=0x22 if !self.random.chance(risk) => 1 + self.random.next() % 9,
            0x23..=0x27 if !self.random.chance(risk) => self.random.next() % width,
            0x1F..=0x22 => self.random.pick(&[0, u64::MAX, 1]),
            0x23..=0x27 => self
                .random
                .pick(&[0, width - 1, width, width + 1, u64::MAX, 1 << 31]),
            _ => return self.input(wide),
        };
        if risk > 0 && self.random.chance(15) {
            self.input(wide)
        } else {
            self.known(wide, value)
        }
    }

    /// An op that fold may replace.
    fn compute(&mut self, risk: usize) -> Option<()> {
        let kind = if self.slip == Slip::Constants && self.random.chance(50) {
            limited(self.random)
        } else {
            self.random.pick(&self.kinds)
        };
        if is_added(kind) {
            return self.added(kind, risk);
        }
        let shape = SHAPES[kind as usize];
        let wide = |i: u8| shape.wide >> i & 1 != 0;
        let mut body = vec![self.output(wide(0))?];
        if shape.inputs >= 2 {
            let b = self.second(kind, wide(2), risk)?;
            // The smallest signed value meets minus one.
            let edge = (kind & 0x7F) <= 0x22 && self.random.chance(risk / 2);
            let smallest = if wide(1) { 1 << 63 } else { 1 << 31 };
            let a = if edge {
                self.known(wide(1), smallest)?
            } else {
                self.input(wide(1))?
            };
            body.extend([a, b]);
        }
        while body.len() <= shape.inputs as usize {
            body.push(self.input(wide(body.len() as u8))?);
        }
        if shape.body as usize > body.len() {
            body.push(self.random.below(10) as u8);
        }
        self.op(kind, &body);
        Some(())
    }

    /// A bit field, swap or count.
    fn added(&mut self, kind: u8, risk: usize) -> Option<()> {
        let wide = kind & 0x80 != 0;
        let constants = if self.slip == Slip::Constants && self.random.chance(40) {
            bad(self.random, kind)
        } else {
            good(self.random, kind)
        };
        let mut body = vec![self.output(wide)?];
        while body.len() <= SHAPES[kind as usize].inputs as usize {
            body.push(match part(kind) {
                Some(bits) if constants[0] & IZ != 0 => self.extended(bits, wide, risk)?,
                _ => self.some_bits(wide)?,
            });
        }
        body.extend(constants);
        // There is no bswap64 of 32 bits.
        let missing = kind == 0xB3 && self.slip == Slip::Constants && self.random.chance(20);
        self.op(if missing { 0x33 } else { kind }, &body);
        Some(())
    }

    /// An input, often one that fold knows.
    fn some_bits(&mut self, wide: bool) -> Option<u8> {
        if self.random.chance(60) {
            return self.input(wide);
        }
        let value = some_value(self.random);
        self.known(wide, value)
    }

    /// An input mostly zero-extended from so many bits.
    fn extended(&mut self, bits: u8, wide: bool, risk: usize) -> Option<u8> {
        if self.random.chance(risk) && self.random.chance(50) {
            return self.some_bits(wide);
        }
        if self.random.chance(50) {
            let first = if self.random.chance(risk) {
                1 << bits
            } else {
                0
            };
            let value = first | some_value(self.random) & ((1 << bits) - 1);
            return self.known(wide, value);
        }
        let (output, input) = (self.output(wide)?, self.input(wide)?);
        let extract = if wide { 0xAE } else { 0x2E };
        self.op(extract, &[output, input, 0, bits]);
        Some(output)
    }

    /// An address about the memory's length, or near 2^64.
    fn address(&mut self, size: u64, risk: usize) -> u64 {
        let length = self.setting.memory as u64;
        if length >= size && !self.random.chance(risk) {
            let far = length - size;
            return if self.random.chance(30) {
                far
            } else {
                self.random.next() % (far + 1)
            };
        }
        let edge = length.wrapping_sub(size);
        let high = 0u64.wrapping_sub(size);
        self.random.pick(&[
            edge.wrapping_add(1),
            length,
            edge,
            high,
            high.wrapping_add(1),
            u64::MAX,
            1 << 63,
            1 << 32,
        ])
    }

    /// An address for an access with these flags: mostly a multiple of the size
    /// where they ask for one.
    fn address_for(&mut self, flags: u8, risk: usize) -> u64 {
        let size = size(flags);
        let address = self.address(size, risk);
        if flags & ALIGNED == 0 {
            return address;
        }
        let above = if self.random.chance(risk) {
            self.random
                .pick(&[1 % size, size / 2, size - 1, address % size])
        } else {
            0
        };
        address - address % size + above
    }

    fn flags(&mut self, wide: bool, store: bool) -> u8 {
        if self.slip == Slip::Flags && self.random.chance(40) {
            return bad_flags(self.random, wide, store);
        }
        let mut flags = self.random.below(16) as u8;
        if self.setting.newer && self.random.chance(50) {
            flags |= ALIGNED;
        }
        if !wide && flags & 3 == 3 {
            flags ^= 1;
        }
        if store {
            flags &= !SIGNED;
        }
        flags
    }

    fn access(&mut self, risk: usize) -> Option<()> {
        let wide = self.random.chance(50);
        let store = self.random.chance(50);
        let flags = self.flags(wide, store);
        let known = risk == 0 || self.random.chance(70);
        let at = self.address_for(flags, risk);
        let address = if known {
            self.known(true, at)?
        } else {
            self.input(true)?
        };
        let value = if store {
            self.input(wide)?
        } else {
            self.output(wide)?
        };
        let kind = if store { 0x2C } else { 0x2B } + if wide { 0x80 } else { 0 };
        self.op(kind, &[value, address, flags]);
        Some(())
    }

    /// A label that is not set; often one already jumped to.
    fn label(&mut self) -> Option<u8> {
        let unset: Vec<u8> = (0..self.setting.sizes().labels as u8)
            .filter(|&l| !self.set.has(l))
            .collect();
        let jumped: Vec<u8> = unset
            .iter()
            .copied()
            .filter(|&l| self.jumped.has(l))
            .collect();
        let from = if jumped.is_empty() || self.random.chance(40) {
            unset
        } else {
            jumped
        };
        if from.is_empty() {
            None
        } else {
            Some(self.random.pick(&from))
        }
    }

    fn set_label(&mut self, label: u8) {
        self.set |= one(label);
        self.op(0x02, &[label]);
    }

    fn jump(&mut self) -> Option<()> {
        let label = self.label()?;
        match self.random.below(20) {
            0..=7 => self.set_label(label),
            8 | 9 => self.br(label),
            10 => self.exit(),
            _ => self.brcond(label)?,
        }
        Some(())
    }

    fn br(&mut self, label: u8) {
        self.jumped |= one(label);
        self.op(0x03, &[label]);
    }

    fn brcond(&mut self, label: u8) -> Option<()> {
        let wide = self.random.chance(50);
        let a = self.input(wide)?;
        let b = self.input(wide)?;
        let cond = self.random.below(10) as u8;
        self.jumped |= one(label);
        self.op(if wide { 0xAA } else { 0x2A }, &[a, b, cond, label]);
        Some(())
    }

    /// Writes, then mostly a brcond, then reads of what was written on its
    /// fall-through path, and often its label and such reads after it.
    fn branch(&mut self) -> Option<()> {
        let label = self.label()?;
        let wide = self.random.chance(50);
        let mut before = vec![];
        for _ in 0..1 + self.random.below(2) {
            before.push(self.write(wide)?);
        }
        match self.random.below(if self.careless() { 4 } else { 10 }) {
            0 => self.br(label),
            1 => self.exit(),
            _ => self.brcond(label)?,
        }
        self.reads(&before, wide);
        if self.random.chance(70) {
            self.set_label(label);
            self.reads(&before, wide);
        }
        Some(())
    }

    /// Writes a value, known or not, to a variable, often a temporary.
    fn write(&mut self, wide: bool) -> Option<u8> {
        let all = self.of_width(wide);
        let temporary = |v: &u8| self.classes[*v as usize] == 2;
        let temporaries: Vec<u8> = all.iter().copied().filter(temporary).collect();
        let from = if temporaries.is_empty() || self.random.chance(40) {
            all
        } else {
            temporaries
        };
        if from.is_empty() {
            return None;
        }
        let output = self.random.pick(&from);
        match self.input(wide) {
            Some(a) if self.random.chance(50) => {
                self.op(if wide { 0x91 } else { 0x11 }, &[output, a]);
            }
            _ => {
                let value = corner(self.random, wide);
                self.movi(output, value);
            }
        }
        Some(output)
    }

    /// Reads some of these variables of one width, if that is allowed here;
    /// the others are often dead.
    fn reads(&mut self, some: &[u8], wide: bool) {
        for &a in some {
            let b = self.random.pick(some);
            if !self.may_read(a) || !self.may_read(b) || self.random.chance(40) {
                continue;
            }
            // mov to nor, whose results are all stated.
            let kind = 0x11 + self.random.below(14) as u8;
            let Some(output) = self.output(wide) else {
                continue;
            };
            let body = [output, a, b];
            let length = SHAPES[kind as usize].body as usize;
            self.op(if wide { kind | 0x80 } else { kind }, &body[..length]);
        }
    }

    fn exit(&mut self) {
        if let Some(variable) = self.input(true).or_else(|| self.known(true, 5)) {
            self.op(0x04, &[variable]);
        }
    }

    /// The labels still to set; every exit may need a movi before it.
    fn owed(&self) -> usize {
        (self.jumped & !self.set).count() + 2
    }

    /// Sets the labels that were jumped to and not set.
    fn set_owed(&mut self) {
        for label in 0..LABELS as u8 {
            if (self.jumped & !self.set).has(label) {
                self.set_label(label);
            }
        }
    }

    fn finish(&mut self, style: &Style) {
        while style.exact && self.ops + self.owed() < style.ops {
            self.constant();
        }
        self.set_owed();
        if style.exact {
            // What exit_tb reads, and then as many movis as are left.
            self.known(true, 6);
            while self.ops + 1 < style.ops {
                self.constant();
            }
        }
        self.exit();
    }

    /// Whether `branch` may come here, and has room.
    fn branches(&self, style: &Style) -> bool {
        self.setting.newer && self.ops + self.owed() + BRANCH <= style.ops
    }

    fn body(&mut self, style: &Style) {
        // Most runs reach a branch at the start.
        if self.branches(style) && self.random.chance(40) {
            self.branch();
        }
        // An op may come with two movis, and jump to a new label.
        while self.ops + self.owed() + 4 <= style.ops {
            self.step(style);
        }
        self.finish(style);
    }

    /// An op of some sort, with what it needs.
    fn step(&mut self, style: &Style) {
        let sort = self.random.below(100);
        if sort < style.jumps && self.branches(style) && self.random.chance(50) {
            self.branch();
        } else if sort < style.jumps {
            self.jump();
        } else if sort < style.jumps + style.accesses {
            self.access(style.risk);
        } else if sort < style.jumps + style.accesses + style.constants {
            self.constant();
        } else {
            self.compute(style.risk);
        }
    }
}

fn variables(random: &mut Random, setting: Setting) -> usize {
    let most = setting.sizes().variables;
    match random.below(20) {
        0..=9 => 1 + random.below(6),
        10..=16 => 4 + random.below(13),
        17 | 18 => 16 + random.below(most - 16),
        _ => most,
    }
}

fn memory_length(random: &mut Random) -> usize {
    match random.below(1000) {
        0 => MEMORY,
        1 => 257,
        2..=99 => 0,
        _ => random.pick(&[1, 2, 3, 4, 7, 8, 9, 15, 16, 17, 32, 64]),
    }
}

fn made(random: &mut Random, setting: Setting, slip: Slip) -> Vec<u8> {
    let style = style(random, setting);
    styled(random, style, setting, slip)
}

/// Mostly loads and stores, at addresses of which many fault.
fn accesses(random: &mut Random, setting: Setting, slip: Slip) -> Vec<u8> {
    let style = Style {
        accesses: 60,
        risk: 50,
        ops: 10 + random.below(30),
        exact: false,
        ..style(random, setting)
    };
    styled(random, style, setting, slip)
}

fn styled(random: &mut Random, style: Style, setting: Setting, slip: Slip) -> Vec<u8> {
    let variables = variables(random, setting);
    let mut maker = Maker {
        slip,
        ..Maker::new(random, variables, setting)
    };
    maker.body(&style);
    maker.bytes
}

/// An accepted block.
fn accepted(random: &mut Random, setting: Setting) -> Vec<u8> {
    made(random, setting, Slip::Nothing)
}

/// The starts of the records, as far as they can be read.
pub fn records(block: &[u8]) -> Vec<usize> {
    let mut starts = vec![];
    let mut place = 0;
    while place < block.len() && SHAPES[block[place] as usize].form != Form::Unknown {
        starts.push(place);
        place += 1 + SHAPES[block[place] as usize].body as usize;
    }
    starts
}

/// The bytes of one record.
fn record(block: &[u8], start: usize) -> Vec<u8> {
    let end = start + 1 + SHAPES[block[start] as usize].body as usize;
    block[start..end.min(block.len())].to_vec()
}

/// A jump over all of this many ops less one, to the label after them.
fn jump(random: &mut Random, length: usize, setting: Setting) -> Vec<u8> {
    let mut maker = Maker {
        classes: vec![0, 1],
        types: vec![1, 0],
        ..Maker::new(random, 1, setting)
    };
    maker.bytes = vec![1, 0, 1, 1, 1, 0];
    let label = (setting.sizes().labels - 1) as u8;
    maker.op(0x03, &[label]);
    while maker.ops < length {
        maker.constant();
    }
    maker.set_label(label);
    maker.exit();
    maker.bytes
}

/// As many folded copies as fit, so the result is longer than the block.
fn growth(random: &mut Random, setting: Setting) -> Vec<u8> {
    let Sizes { variables, ops, .. } = setting.sizes();
    let copies = 1 + random.below(variables - 1) as u8;
    let mut maker = Maker {
        classes: vec![0; variables],
        types: vec![1; variables],
        ..Maker::new(random, 1, setting)
    };
    maker.bytes = [1, 0, 1].repeat(variables);
    while maker.ops + copies as usize + 3 <= ops {
        let value = corner(maker.random, true);
        maker.movi(0, value);
        for copy in 1..=copies {
            maker.op(0x91, &[copy, copy - 1]);
        }
        maker.op(0xAC, &[1, (variables - 1) as u8, 0x0B]);
    }
    maker.exit();
    maker.bytes
}

/// A record to break, often one with a cond, a label or flags.
fn broken_record(random: &mut Random, block: &[u8], starts: &[usize]) -> usize {
    let constants = |start: &&usize| {
        let shape = SHAPES[block[**start] as usize];
        shape.form != Form::Movi
            && shape.form != Form::Declaration
            && shape.body > shape.outputs + shape.inputs
    };
    let some: Vec<usize> = starts.iter().filter(constants).copied().collect();
    let any = some.is_empty() || random.chance(40);
    random.pick(if any { starts } else { &some })
}

/// Raises one byte of one record just above its limit.
fn broken(random: &mut Random, setting: Setting) -> Vec<u8> {
    let mut block = accepted(random, setting);
    let starts = records(&block);
    let start = broken_record(random, &block, &starts);
    let variables = starts.iter().filter(|&&s| block[s] == 1).count() as u8;
    let shape = SHAPES[block[start] as usize];
    let operands = (shape.outputs + shape.inputs) as usize;
    let first = if random.chance(70) && operands < shape.body as usize {
        operands
    } else {
        0
    };
    let field = first + random.below(shape.body as usize - first);
    let place = start + 1 + field;
    block[place] = match shape.form {
        _ if field < operands && random.chance(50) => variables,
        _ if field < operands => random.below(variables as usize) as u8,
        Form::Declaration => 3 - field as u8,
        Form::Movi => {
            block[start + 6] = 1;
            block[place]
        }
        Form::SetLabel | Form::Br => LABELS as u8,
        Form::BrCond if field == 3 => LABELS as u8,
        Form::Load | Form::Store if setting.newer => {
            bad_flags(random, width(block[start]) == 64, shape.form == Form::Store)
        }
        Form::Load | Form::Store => random.pick(&[0x40, 3, 4, 7, 0x20, 0x80]),
        _ if is_added(block[start]) => {
            let constants = bad(random, block[start]);
            block.splice(
                start + 1 + operands..start + 1 + shape.body as usize,
                constants,
            );
            block[place]
        }
        _ => 10,
    };
    block
}

/// A block of as many variables and ops as its front end writes.
fn full(random: &mut Random, setting: Setting) -> Vec<u8> {
    let Sizes { variables, ops, .. } = setting.sizes();
    let full = Style {
        constants: 20,
        accesses: 10,
        jumps: 5,
        risk: 1,
        ops,
        exact: true,
    };
    let mut maker = Maker::new(random, variables, setting);
    maker.body(&full);
    maker.bytes
}

/// Blocks that reach the size of older front ends or pass it by one; `larger`
/// has those at the limits.
fn limit(random: &mut Random, number: usize, setting: Setting) -> Vec<u8> {
    let mut block = full(random, setting);
    let Sizes { variables, ops, .. } = setting.sizes();
    let first = DECLARATION * variables;
    match number % 7 {
        0 => block,
        1 => {
            block.splice(first..first, [1, 1 + random.below(2) as u8, 1]);
            block
        }
        2 => {
            let starts = records(&block);
            let start = starts[variables + random.below(ops)];
            let twice = record(&block, start);
            block.splice(start..start, twice);
            block
        }
        3 => growth(random, setting),
        4 => {
            // Declarations alone, or one of the last ops gone.
            let keep = random.pick(&[first, 3, block.len() - 2, block.len() - 1]);
            block.truncate(keep);
            block
        }
        5 => jump_gone_wrong(random, setting),
        _ => broken(random, setting),
    }
}

/// A label never set, set twice, or set before the jump.
fn jump_gone_wrong(random: &mut Random, setting: Setting) -> Vec<u8> {
    let mut block = accepted(random, setting);
    let starts = records(&block);
    let ops: Vec<usize> = starts.into_iter().filter(|&s| block[s] != 1).collect();
    let start = random.pick(&ops);
    let kind = random.pick(&[2, 3]);
    let labels = setting.sizes().labels;
    let label = if random.chance(50) {
        labels - 1
    } else {
        random.below(labels)
    };
    block.splice(start..start, [kind, label as u8]);
    block
}

/// One damage: a byte or a record changed, removed, inserted, swapped, cut.
fn damage(random: &mut Random, block: &mut Vec<u8>, setting: Setting) {
    if block.is_empty() {
        return;
    }
    let place = random.below(block.len());
    let starts = records(block);
    let (one, two) = match starts.len() {
        0 => (0, 0),
        n => (starts[random.below(n)], starts[random.below(n)]),
    };
    match random.below(9) {
        0 => block[place] = random.next() as u8,
        1 => block[place] ^= 1 << random.below(8),
        2 => block[place] = random.below(12) as u8,
        3 => drop(block.remove(place)),
        4 => block.insert(
            place,
            random.below(if setting.newer { 0x38 } else { 0x30 }) as u8,
        ),
        5 => block.truncate(place),
        6 => drop(block.splice(one..one, record(block, two))),
        7 => {
            let gone = record(block, one).len();
            block.drain(one..one + gone);
        }
        _ => swap(block, one.min(two), one.max(two)),
    }
}

fn swap(block: &mut Vec<u8>, one: usize, two: usize) {
    let (first, second) = (record(block, one), record(block, two));
    block.splice(two..two + second.len(), first.clone());
    block.splice(one..one + first.len(), second);
}

fn damaged(random: &mut Random, setting: Setting) -> Vec<u8> {
    let mut block = accepted(random, setting);
    for _ in 0..1 + random.below(3) {
        damage(random, &mut block, setting);
    }
    block
}

/// Byte soup, uniform or of known kinds with small operands.
fn soup(random: &mut Random, setting: Setting) -> Vec<u8> {
    let length = random.below(80);
    if random.chance(30) {
        return (0..length).map(|_| random.next() as u8).collect();
    }
    // In the tame half all variables are 64-bit globals, so some are accepted.
    let tame = random.chance(50);
    let mut block = vec![];
    for _ in 0..if tame { 4 } else { random.below(5) } {
        block.extend(if tame {
            [1, 0, 1]
        } else {
            [1, random.below(3) as u8, random.below(2) as u8]
        });
    }
    let known = |kind: &u8| {
        let has = SHAPES[*kind as usize].form != Form::Unknown && setting.has(*kind);
        has && (!tame || *kind >= 0x90 && *kind != 0xAA)
    };
    let kinds: Vec<u8> = (0..=255).filter(known).collect();
    while block.len() < length {
        let kind = random.pick(&kinds);
        block.push(kind);
        let large = random.chance(3);
        for _ in 0..SHAPES[kind as usize].body {
            block.push(if large {
                random.next() as u8
            } else {
                random.below(4) as u8
            });
        }
    }
    if tame {
        block.extend([4, 0]);
    }
    block
}

/// More than 100,000 bytes.
fn long(random: &mut Random, setting: Setting) -> Vec<u8> {
    let length = 100_000 + random.below(40_000);
    let mut block = match random.below(4) {
        0 => vec![],
        1 => vec![1, 0, 1],
        _ => accepted(random, setting),
    };
    let unit: &[u8] = random.pick(&[
        &[1u8, 0, 1] as &[u8],
        &[4, 0],
        &[2, 1],
        &[0x90, 0, 1, 2, 3, 4, 5, 6, 7, 8],
        &[0],
    ]);
    while block.len() < length {
        block.extend(unit);
    }
    block
}

/// Globals that fit the block's declarations, as far as it has any.
fn lent(random: &mut Random, block: &[u8], setting: Setting) -> Vec<u64> {
    let mut globals = vec![];
    for start in records(block) {
        if block[start] != 1 || start + 2 >= block.len() || globals.len() == VARIABLES {
            break;
        }
        if block[start + 1] == 0 {
            let wide = block[start + 2] != 0;
            globals.push(if setting.newer && random.chance(40) {
                narrowed(some_value(random), wide)
            } else {
                corner(random, wide)
            });
        }
    }
    globals
}

/// The case of this number, in turn as older and as newer front ends write
/// blocks.
pub fn case(seed: u64, number: u64) -> Case {
    if number.is_multiple_of(2) {
        older(seed, number / 2)
    } else {
        made_case(Random::new(seed, !number), number / 2, true)
    }
}

/// The case of this number as older front ends write blocks.
pub fn older(seed: u64, number: u64) -> Case {
    made_case(Random::new(seed, number), number, false)
}

fn made_case(mut random: Random, number: u64, newer: bool) -> Case {
    let length = memory_length(&mut random);
    let setting = Setting {
        memory: length,
        newer,
    };
    let block = block(&mut random, number, setting);
    let globals = lent(&mut random, &block, setting);
    let memory = (0..length).map(|_| random.next() as u8).collect();
    Case {
        block,
        globals,
        memory,
    }
}

/// A block of the sort that follows from the number.
fn block(random: &mut Random, number: u64, setting: Setting) -> Vec<u8> {
    let (hundreds, rest) = ((number / 100) as usize, (number % 100) as usize);
    let newer = setting.newer;
    let over = 1 + (hundreds * 2 + rest % 2) % (setting.sizes().ops - 2);
    match rest {
        0 if hundreds.is_multiple_of(10) => vec![],
        0 if hundreds % 10 == 1 => long(random, setting),
        0 | 47..=51 if newer => borders_made::block(random, setting),
        0..=2 => jump(random, over, setting),
        3..=8 if newer => larger::block(random, hundreds * 6 + rest - 3, setting),
        3..=8 => limit(random, hundreds * 6 + rest, setting),
        9..=13 => broken(random, setting),
        14..=16 => made(random, setting, Slip::Lifetimes),
        17..=19 if newer => made(random, setting, Slip::Lifetimes),
        20..=25 if newer => made(random, setting, Slip::Constants),
        37..=42 if newer => accesses(random, setting, Slip::Flags),
        43..=46 if newer => accesses(random, setting, Slip::Nothing),
        17..=28 => damaged(random, setting),
        29..=36 => soup(random, setting),
        _ => accepted(random, setting),
    }
}

/// The same block with other globals or memory; most do not fit.
pub fn other(seed: u64, number: u64, case: &Case) -> Case {
    let mut random = Random::new(!seed, number);
    let mut other = case.clone();
    let globals = &mut other.globals;
    match random.below(100) {
        0 => other.memory = vec![0x80; MEMORY],
        1 => other.memory = vec![0x80; MEMORY + 1],
        2..=19 => other.memory.clear(),
        20..=39 => globals.push(0),
        40..=49 => globals.clear(),
        50..=64 => drop(globals.pop()),
        _ if globals.is_empty() => globals.push(1),
        sort => {
            let place = random.below(globals.len());
            globals[place] = if sort < 90 {
                1 << 32
            } else {
                random.pick(&[u64::MAX, 0xFFFF_FFFF, 1 << 63])
            };
        }
    }
    other
}
