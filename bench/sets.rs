//! The sets of blocks that are timed. Each follows from its seed alone.

use crate::blocks::{self, Random, OLDER};
use crate::calls::Side;
use crate::cases::Case;
use crate::second::{self, Form, ALIGNED, DECLARATION, LABELS, OPS, SHAPES};

pub struct Set {
    pub name: &'static str,
    pub cases: Vec<Case>,
}

pub fn all() -> Vec<Set> {
    let two_records = Case {
        block: vec![0x01, 0, 1, 0x04, 0],
        globals: vec![7],
        memory: vec![],
    };
    let aligned: Vec<Case> = (0..ALIGNED_BLOCKS).map(aligned).collect();
    let without_bit_4 = aligned.iter().map(without_bit_4).collect();
    let borders: Vec<Case> = (0..BORDERS).map(bordered).collect();
    let on_two = borders.iter().map(on_two_variables).collect();
    let set = |name, cases| Set { name, cases };
    vec![
        set("seeded", seeded()),
        set("short", (0..SHORT).map(short).collect()),
        set("globals", (0..CROWDED).map(crowded).collect()),
        set("fields", fields()),
        set("aligned", aligned),
        set("aligned, bit 4 clear", without_bit_4),
        set("two records", vec![two_records]),
        set("long", (0..LONG).map(long).collect()),
        set("borders", borders),
        set("borders, 2 variables", on_two),
    ]
}

const SEED: u64 = 1;
/// Of the seeded set: so many blocks of at least so many ops.
const SEEDED: usize = 200;
const LEAST_OPS: usize = 64;
/// How many blocks the other sets have.
const SHORT: u64 = 400;
const CROWDED: u64 = 100;
const FIELDS: usize = 200;
const ALIGNED_BLOCKS: u64 = 200;
const LONG: u64 = 20;
const BORDERS: u64 = 20;
/// The bytes of memory in these.
const MEMORY: usize = 1024;

pub fn ops(block: &[u8]) -> usize {
    second::read(block).map_or(0, |read| read.ops)
}

/// The report of a run, if it was not refused.
pub fn report(case: &Case) -> Option<[u64; 4]> {
    let (mut globals, mut memory) = (case.globals.clone(), case.memory.clone());
    let mut report = [0; 4];
    let answer = Side::Second.run(&case.block, &mut globals, &mut memory, &mut report);
    (answer == 0).then_some(report)
}

/// Whether the block is no larger than older front ends write them.
fn is_older(block: &[u8]) -> bool {
    let Ok(read) = second::read(block) else {
        return false;
    };
    let high = |position: usize| {
        let op = read.op(block, position);
        let labelled = matches!(op.shape.form, Form::SetLabel | Form::Br | Form::BrCond);
        labelled && op.label() as usize >= OLDER.labels
    };
    let fits = read.variables <= OLDER.variables && read.ops <= OLDER.ops;
    fits && !(0..read.ops).any(high)
}

/// The comparison's accepted blocks of older front ends with many ops whose
/// run takes at least half of them.
fn seeded() -> Vec<Case> {
    let belongs = |case: &Case| {
        let ops = ops(&case.block);
        let runs = || report(case).is_some_and(|report| 2 * report[3] >= ops as u64);
        ops >= LEAST_OPS && is_older(&case.block) && runs()
    };
    let cases = (0..).map(|number| blocks::older(SEED, number));
    cases.filter(belongs).take(SEEDED).collect()
}

/// A block as a front end writes it, guest instruction by guest instruction:
/// it computes in temporaries and moves the result to a guest register.
struct FrontEnd {
    random: Random,
    block: Vec<u8>,
    ops: usize,
    /// How many of them are bit fields, swaps and counts.
    fields: usize,
    /// Are addresses multiples of 8, and do most accesses have bit 4?
    aligned: bool,
    /// The values lent for the globals.
    globals: Vec<u64>,
    variables: u8,
    /// Guest registers of 64 bits, flags and other guest state of 32.
    registers: Vec<u8>,
    flags: Vec<u8>,
    pc: u8,
    /// Temporaries of 32 and of 64 bits, used in turn.
    temporaries: [Vec<u8>; 2],
    turn: usize,
    /// A local temporary of 64 bits.
    local: u8,
    /// How many labels are used, and how many may be.
    labels: u8,
    most_labels: u8,
}

const NARROW: usize = 0;
const WIDE: usize = 1;
/// Kinds of 64-bit ops.
const MOVI: u8 = 0x90;
const MOV: u8 = 0x91;
const ADD: u8 = 0x94;
const SUB: u8 = 0x95;
const AND: u8 = 0x97;
const XOR: u8 = 0x99;
const SHR: u8 = 0xA4;
const SETCOND: u8 = 0xA8;
const MOVCOND: u8 = 0xA9;
const BRCOND: u8 = 0xAA;
const LOAD: u8 = 0xAB;
const STORE: u8 = 0xAC;
/// What makes any of these its 32-bit form.
const TO_32: u8 = 0x7F;
const EXTU: u8 = 0x06;
const TRUNC: u8 = 0x07;
/// Kinds of 32-bit bit fields, swaps and counts, the fields more often.
const FIELD_OPS: [u8; 12] = [
    0x2D, 0x2D, 0x2E, 0x2E, 0x2F, 0x2F, 0x30, 0x31, 0x32, 0x34, 0x35, 0x36,
];
const BSWAP64: u8 = 0xB3;
/// Flags of a swap.
const IZ: u8 = 1;
const OZ: u8 = 2;
const OS: u8 = 4;

impl FrontEnd {
    fn new(random: Random) -> FrontEnd {
        FrontEnd {
            random,
            block: vec![],
            ops: 0,
            fields: 0,
            aligned: false,
            globals: vec![],
            variables: 0,
            registers: vec![],
            flags: vec![],
            pc: 0,
            temporaries: [vec![], vec![]],
            turn: 0,
            local: 0,
            labels: 0,
            most_labels: OLDER.labels as u8,
        }
    }

    fn declare(&mut self, class: u8, width: usize) -> u8 {
        self.block.extend([1, class, width as u8]);
        self.variables += 1;
        self.variables - 1
    }

    fn global(&mut self, width: usize, value: u64) -> u8 {
        self.globals.push(value);
        self.declare(0, width)
    }

    /// Guest registers; the first three hold addresses.
    fn registers(&mut self, count: usize) {
        for number in 0..count {
            let value = self.random.next();
            let address = self.multiple(value % (MEMORY as u64 / 2));
            let register = self.global(WIDE, if number < 3 { address } else { value });
            self.registers.push(register);
        }
    }

    /// Flags and other guest state; the first four are the flags.
    fn flags(&mut self, count: usize) {
        for _ in 0..count {
            let value = self.random.next() & 1;
            let flag = self.global(NARROW, value);
            self.flags.push(flag);
        }
    }

    /// 16 to 32 globals, then temporaries and a local temporary.
    fn state(&mut self) {
        self.pc = self.global(WIDE, 0x1000);
        let registers = 9 + self.random.below(12);
        self.registers(registers);
        let flags = 6 + self.random.below(6);
        self.flags(flags);
        for width in [WIDE, NARROW] {
            self.temporaries[width] = (0..4 + self.random.below(4))
                .map(|_| self.declare(2, width))
                .collect();
        }
        self.local = self.declare(1, WIDE);
    }

    /// 64 globals, some of which serve as temporaries.
    fn crowded_state(&mut self) {
        self.pc = self.global(WIDE, 0x1000);
        self.local = self.global(WIDE, 0);
        self.registers(34);
        self.temporaries[WIDE] = (0..12).map(|_| self.global(WIDE, 0)).collect();
        self.flags(10);
        self.temporaries[NARROW] = (0..6).map(|_| self.global(NARROW, 0)).collect();
    }

    /// 80 globals, 20 local temporaries and 100 temporaries; the local
    /// temporaries. All have 64 bits if there are no narrow ones.
    fn full_state(&mut self, narrow: bool) -> Vec<u8> {
        self.pc = self.global(WIDE, 0x1000);
        let (flags, temporaries) = if narrow { (20, 36) } else { (0, 0) };
        self.registers(79 - flags);
        self.flags(flags);
        let locals = (0..20).map(|_| self.declare(1, WIDE)).collect();
        for (width, count) in [(WIDE, 100 - temporaries), (NARROW, temporaries)] {
            self.temporaries[width] = (0..count).map(|_| self.declare(2, width)).collect();
        }
        locals
    }

    fn op(&mut self, kind: u8, body: &[u8]) {
        self.block.push(kind);
        self.block.extend(body);
        self.ops += 1;
    }

    fn movi(&mut self, d: u8, value: u64) {
        let mut body = vec![d];
        body.extend(value.to_le_bytes());
        self.op(MOVI, &body);
    }

    fn temporary(&mut self, width: usize) -> u8 {
        self.turn += 1;
        let all = &self.temporaries[width];
        all[self.turn % all.len()]
    }

    fn constant(&mut self, value: u64) -> u8 {
        let t = self.temporary(WIDE);
        self.movi(t, value);
        t
    }

    /// A temporary that an op with two inputs writes.
    fn binary(&mut self, kind: u8, a: u8, b: u8) -> u8 {
        let width = (kind >> 7) as usize;
        let t = self.temporary(width);
        self.op(kind, &[t, a, b]);
        t
    }

    fn truncated(&mut self, a: u8) -> u8 {
        let t = self.temporary(NARROW);
        self.op(TRUNC, &[t, a]);
        t
    }

    fn source(&mut self) -> u8 {
        self.random.pick(&self.registers)
    }

    /// A register to write, none that holds an address.
    fn target(&mut self) -> u8 {
        self.random.pick(&self.registers[3..])
    }

    /// add, sub, and, or, xor: the more usual ones more often.
    fn arithmetic(&mut self) -> u8 {
        self.random
            .pick(&[ADD, ADD, ADD, SUB, SUB, AND, 0x98, XOR, 0x96, 0x9A])
    }

    fn small(&mut self) -> u64 {
        self.random.next() % 256
    }

    fn condition(&mut self) -> u8 {
        self.random.below(10) as u8
    }

    /// Register and register, or register and immediate.
    fn compute(&mut self) {
        let (kind, a, d) = (self.arithmetic(), self.source(), self.target());
        let b = if self.random.chance(60) {
            let value = self.small();
            self.constant(value)
        } else {
            self.source()
        };
        if self.random.chance(50) {
            self.op(kind, &[d, a, b]);
        } else {
            let t = self.binary(kind, a, b);
            self.op(MOV, &[d, t]);
        }
    }

    /// The same on the low halves.
    fn compute_32(&mut self) {
        let (kind, a, b) = (self.arithmetic(), self.source(), self.source());
        let a = self.truncated(a);
        let b = self.truncated(b);
        let t = self.binary(kind & TO_32, a, b);
        let d = self.target();
        self.op(EXTU, &[d, t]);
    }

    fn shift(&mut self) {
        let kind = self.random.pick(&[0xA3, SHR, 0xA5]);
        let (a, d) = (self.source(), self.target());
        let count = self.random.next() % 64;
        let count = self.constant(count);
        self.op(kind, &[d, a, count]);
    }

    /// A constant in two halves, or relative to the guest's pc: it folds.
    fn load_immediate(&mut self) {
        let high = self.random.next() & 0xFFFF_F000;
        let low = self.random.next() & 0xFFF;
        let a = self.constant(high);
        let b = self.constant(low);
        let t = self.binary(ADD, a, b);
        let d = self.target();
        self.op(MOV, &[d, t]);
    }

    /// A comparison that writes all four flags; the next one makes these
    /// writes dead, if no load or store stands between.
    fn compare(&mut self) {
        let (a, b) = (self.source(), self.source());
        let difference = self.binary(SUB, a, b);
        let zero = self.constant(0);
        let count = self.constant(63);
        let sign = self.binary(SHR, difference, count);
        let one = self.flags[0];
        self.op(TRUNC, &[one, sign]);
        let equal = self.temporary(WIDE);
        self.op(SETCOND, &[equal, difference, zero, 0]);
        let two = self.flags[1];
        self.op(TRUNC, &[two, equal]);
        let carry = self.temporary(WIDE);
        self.op(SETCOND, &[carry, a, b, 7]);
        let three = self.flags[2];
        self.op(TRUNC, &[three, carry]);
        let unlike = self.binary(XOR, a, b);
        let turned = self.binary(XOR, a, unlike);
        let overflow = self.truncated(turned);
        let four = self.flags[3];
        self.op(MOV & TO_32, &[four, overflow]);
    }

    /// A register chosen by a flag.
    fn select(&mut self) {
        let (a, b, d) = (self.source(), self.source(), self.target());
        let zero = self.constant(0);
        let flag = self.temporary(WIDE);
        let from = self.random.pick(&self.flags);
        self.op(EXTU, &[flag, from]);
        let cond = self.condition();
        self.op(MOVCOND, &[d, flag, zero, a, b, cond]);
    }

    /// The value of a register or constant in an address: rounded down to a
    /// multiple of 8 if it has to be.
    fn multiple(&self, value: u64) -> u64 {
        if self.aligned {
            value - value % 8
        } else {
            value
        }
    }

    /// An access of a temporary or register, at an address, with these flags.
    fn access(&mut self, kind: u8, variable: u8, address: u8, flags: u8) {
        let asks = self.aligned && self.random.chance(90);
        let flags = if asks { flags | ALIGNED } else { flags };
        self.op(kind, &[variable, address, flags]);
    }

    /// An address: a register and a constant.
    fn address(&mut self) -> u8 {
        let base = self.random.pick(&self.registers[..3]);
        if self.random.chance(25) {
            return base;
        }
        let offset = self.small();
        let offset = self.constant(self.multiple(offset));
        self.binary(ADD, base, offset)
    }

    fn load(&mut self) {
        let address = self.address();
        let d = self.target();
        if self.random.chance(70) {
            self.access(LOAD, d, address, 3);
            return;
        }
        let flags = self.random.pick(&[0, 1, 2, 4, 5, 6]);
        let t = self.temporary(NARROW);
        self.access(LOAD & TO_32, t, address, flags);
        self.op(EXTU, &[d, t]);
    }

    fn store(&mut self) {
        let address = self.address();
        let value = self.source();
        if self.random.chance(70) {
            self.access(STORE, value, address, 3);
            return;
        }
        let flags = self.random.pick(&[0, 1, 2]);
        let t = self.truncated(value);
        self.access(STORE & TO_32, t, address, flags);
    }

    /// An instruction that a condition jumps over.
    fn skipped(&mut self) {
        let (a, b, cond) = (self.source(), self.source(), self.condition());
        let label = self.labels;
        self.labels += 1;
        let local = self.local;
        self.op(MOV, &[local, a]);
        self.op(BRCOND, &[local, b, cond, label]);
        self.compute();
        self.op(0x02, &[label]);
    }

    /// A bit field, swap or count of registers, of their low halves, or of
    /// constants.
    fn field(&mut self) {
        let (a, b, d) = (self.source(), self.source(), self.target());
        match self.random.below(10) {
            0..=5 => self.field_op(WIDE, d, a, b),
            6..=7 => {
                let a = self.truncated(a);
                let b = self.random.pick(&self.flags);
                let d = self.random.pick(&self.flags[4..]);
                self.field_op(NARROW, d, a, b);
            }
            8 => {
                let (a, b) = (self.small(), self.small());
                let a = self.constant(a);
                let b = self.constant(b);
                self.field_op(WIDE, d, a, b);
            }
            _ => self.load_swapped(d),
        }
    }

    fn field_op(&mut self, width: usize, d: u8, a: u8, b: u8) {
        self.fields += 1;
        let kind = self.random.pick(&FIELD_OPS);
        let bits = 32 << width;
        let length = 1 + self.random.below(bits);
        let position = self.random.below(bits - length + 1) as u8;
        let flags = self.random.pick(&[OZ, OS]);
        let body = match kind {
            0x2D => vec![d, a, b, position, length as u8],
            0x2E | 0x2F => vec![d, a, position, length as u8],
            0x30 => vec![d, a, b, position],
            0x32 if width == NARROW => vec![d, a, 0],
            0x31 | 0x32 => vec![d, a, flags],
            0x36 => vec![d, a],
            _ => vec![d, a, b],
        };
        self.op(kind | (width as u8) << 7, &body);
    }

    /// A load from memory of the other endianness.
    fn load_swapped(&mut self, d: u8) {
        self.fields += 1;
        let address = self.address();
        let t = self.temporary(WIDE);
        let size = 1 + self.random.below(3) as u8;
        self.op(LOAD, &[t, address, size]);
        let flags = IZ | self.random.pick(&[OZ, OS]);
        match size {
            1 => self.op(0xB1, &[d, t, flags]),
            2 => self.op(0xB2, &[d, t, flags]),
            _ => self.op(BSWAP64, &[d, t, 0]),
        }
    }

    /// The guest's pc, kept up to date for faults.
    fn advance(&mut self) {
        let pc = self.pc;
        let place = 0x1000 + 4 * self.ops as u64;
        self.movi(pc, place);
    }

    fn instruction(&mut self) {
        // One label is left for the end.
        let more = self.labels + 1 < self.most_labels;
        let most = if more { 100 } else { 97 };
        match self.random.below(most) {
            0..=29 => self.compute(),
            30..=37 => self.compute_32(),
            38..=45 => self.shift(),
            46..=53 => self.load_immediate(),
            54..=61 => self.compare(),
            62..=64 => self.select(),
            65..=81 => self.load(),
            82..=96 => self.store(),
            _ => self.skipped(),
        }
    }

    fn leave(&mut self, target: u64) {
        let pc = self.pc;
        self.movi(pc, target);
        let zero = self.constant(0);
        self.op(0x04, &[zero]);
    }

    /// One way out, or two.
    fn end(&mut self) {
        if self.random.chance(50) {
            let (a, b, cond) = (self.source(), self.source(), self.condition());
            let label = self.labels;
            self.op(BRCOND, &[a, b, cond, label]);
            self.leave(0x2000);
            self.op(0x02, &[label]);
        }
        self.leave(0x3000);
    }

    fn case(mut self) -> Case {
        Case {
            memory: (0..MEMORY).map(|_| self.random.next() as u8).collect(),
            block: self.block,
            globals: self.globals,
        }
    }
}

/// A block of 10 to 60 ops.
fn short(number: u64) -> Case {
    let mut front_end = FrontEnd::new(Random::new(SEED, number));
    front_end.state();
    // An instruction has at most 14 ops with its pc, the end 8.
    let most = 4 + front_end.random.below(34);
    let keeps_pc = front_end.random.chance(50);
    while front_end.ops <= most {
        if keeps_pc {
            front_end.advance();
        }
        front_end.instruction();
    }
    while front_end.ops < 7 {
        front_end.compute();
    }
    front_end.end();
    front_end.case()
}

/// A block of 100 to 200 ops on 64 globals alone, with many stores and loads.
fn crowded(number: u64) -> Case {
    let mut front_end = FrontEnd::new(Random::new(SEED, number));
    front_end.crowded_state();
    let most = 96 + front_end.random.below(84);
    while front_end.ops <= most {
        if front_end.random.chance(40) {
            front_end.store();
        } else {
            front_end.instruction();
        }
    }
    front_end.end();
    front_end.case()
}

/// A block of as many ops and variables as there may be.
fn long(number: u64) -> Case {
    let mut front_end = FrontEnd {
        most_labels: LABELS as u8,
        ..FrontEnd::new(Random::new(SEED, number))
    };
    let locals = front_end.full_state(true);
    // An instruction has at most 14 ops with its pc, the end 3.
    while front_end.ops + 17 <= OPS {
        front_end.local = front_end.random.pick(&locals);
        if front_end.random.chance(30) {
            front_end.advance();
        }
        front_end.instruction();
    }
    while front_end.ops + 3 < OPS {
        let (d, a) = (front_end.target(), front_end.source());
        front_end.op(MOV, &[d, a]);
    }
    front_end.leave(0x3000);
    front_end.case()
}

/// One to three ops on variables that last: some compute in temporaries.
fn brief(front_end: &mut FrontEnd, lasting: &[u8]) {
    let random = &mut front_end.random;
    let (d, a, b) = (
        random.pick(lasting),
        random.pick(lasting),
        random.pick(lasting),
    );
    let (sort, kind) = (front_end.random.below(3), front_end.arithmetic());
    let t = match sort {
        0 => return front_end.op(kind, &[d, a, b]),
        1 => front_end.binary(kind, a, b),
        _ => {
            let value = front_end.small();
            let value = front_end.constant(value);
            front_end.binary(kind, a, value)
        }
    };
    front_end.op(MOV, &[d, t]);
}

/// A block of some hundred ops on as many variables as there may be, with a
/// border, a set_label or br, after every few of them.
fn bordered(number: u64) -> Case {
    let mut front_end = FrontEnd::new(Random::new(SEED, number));
    let mut lasting = front_end.full_state(false);
    lasting.extend(&front_end.registers);
    for label in 0..LABELS as u8 {
        for _ in 0..1 + front_end.random.below(2) {
            brief(&mut front_end, &lasting);
        }
        if front_end.random.chance(30) {
            front_end.op(0x03, &[label]);
            brief(&mut front_end, &lasting);
        }
        front_end.op(0x02, &[label]);
    }
    front_end.leave(0x3000);
    front_end.case()
}

/// The same ops on two variables, a global for those that last and a temporary
/// for the others, which shows what the number of variables costs.
fn on_two_variables(case: &Case) -> Case {
    let mut same = case.clone();
    same.globals.truncate(1);
    same.block = vec![1, 0, 1, 1, 2, 1];
    for start in blocks::records(&case.block) {
        let shape = SHAPES[case.block[start] as usize];
        let (operands, body) = (shape.outputs + shape.inputs, shape.body as usize);
        let mut record = case.block[start..=start + body].to_vec();
        for variable in &mut record[1..=operands as usize] {
            *variable = (case.block[DECLARATION * *variable as usize + 1] == 2) as u8;
        }
        if shape.form != Form::Declaration {
            same.block.extend(record);
        }
    }
    same
}

/// Blocks of 20 to 40 ops, a third of them bit fields, swaps and counts.
fn fields() -> Vec<Case> {
    let belongs = |case: &Case| (20..=40).contains(&ops(&case.block));
    let cases = (0..).map(field_case);
    cases.filter(belongs).take(FIELDS).collect()
}

fn field_case(number: u64) -> Case {
    let mut front_end = FrontEnd::new(Random::new(SEED, number));
    front_end.state();
    let most = 12 + front_end.random.below(22);
    while front_end.ops < most {
        // Some more, for the ops of the last instruction and of the end.
        if 3 * front_end.fields < front_end.ops + 9 {
            front_end.field();
        } else {
            front_end.instruction();
        }
    }
    front_end.end();
    front_end.case()
}

/// A block whose instructions mostly load or store.
fn aligned(number: u64) -> Case {
    let mut front_end = FrontEnd {
        aligned: true,
        ..FrontEnd::new(Random::new(SEED, number))
    };
    front_end.state();
    let most = 12 + front_end.random.below(26);
    while front_end.ops <= most {
        match front_end.random.below(10) {
            0..=3 => front_end.load(),
            4..=6 => front_end.store(),
            _ => front_end.instruction(),
        }
    }
    front_end.end();
    front_end.case()
}

/// The same block without bit 4, which shows what the bit costs.
fn without_bit_4(case: &Case) -> Case {
    let mut same = case.clone();
    for place in blocks::records(&case.block) {
        if [LOAD, STORE].contains(&(case.block[place] | !TO_32)) {
            same.block[place + 3] &= !ALIGNED;
        }
    }
    same
}
