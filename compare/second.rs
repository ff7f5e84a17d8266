//! A second interpreter of blocks, written from the papers alone: its own
//! table, check, run, fold and prune. The comparison sets its answers beside
//! those of the proved library.

use std::ops::{BitAnd, BitAndAssign, BitOr, BitOrAssign, Not, Range};

/// At most so many variables.
pub const VARIABLES: usize = 200;
/// At most so many ops.
pub const OPS: usize = 1024;
/// Labels from 0 to below this.
pub const LABELS: usize = 128;
/// A run takes at most 65,536 bytes of memory.
pub const MEMORY: usize = 65_536;
/// The bytes of a movi, the longest op: its kind, its output, eight bytes of
/// value.
pub const MOVI: usize = 10;
/// The bytes of a declaration: its kind, class and type.
pub const DECLARATION: usize = 3;
/// A result has at most so many bytes, and so has an accepted block.
pub const RESULT: usize = DECLARATION * VARIABLES + MOVI * OPS;

/// A set of variables or of labels: a bit for each number that a byte holds.
#[derive(Clone, Copy, Debug, PartialEq, Eq)]
pub struct Set([u64; 4]);

impl Set {
    pub const NONE: Set = Set([0; 4]);

    pub fn is_empty(self) -> bool {
        self == Set::NONE
    }

    pub fn has(self, number: u8) -> bool {
        self.0[number as usize / 64] >> (number % 64) & 1 != 0
    }

    /// How many it has.
    pub fn count(self) -> usize {
        self.0.iter().map(|word| word.count_ones() as usize).sum()
    }

    fn with(self, other: Set, join: impl Fn(u64, u64) -> u64) -> Set {
        let mut all = self;
        for (word, more) in all.0.iter_mut().zip(other.0) {
            *word = join(*word, more);
        }
        all
    }
}

impl BitAnd for Set {
    type Output = Set;
    fn bitand(self, other: Set) -> Set {
        self.with(other, |a, b| a & b)
    }
}

impl BitOr for Set {
    type Output = Set;
    fn bitor(self, other: Set) -> Set {
        self.with(other, |a, b| a | b)
    }
}

impl Not for Set {
    type Output = Set;
    fn not(self) -> Set {
        Set(self.0.map(|word| !word))
    }
}

impl BitAndAssign for Set {
    fn bitand_assign(&mut self, other: Set) {
        *self = *self & other;
    }
}

impl BitOrAssign for Set {
    fn bitor_assign(&mut self, other: Set) {
        *self = *self | other;
    }
}

/// A refusal carries only its number and place.
#[derive(Clone, Copy, Debug, PartialEq, Eq)]
pub struct Refusal {
    pub number: u8,
    pub place: usize,
}

/// Why an access faults; the values are those that a report gives.
#[derive(Clone, Copy, Debug, PartialEq, Eq)]
pub enum Reason {
    Bounds = 0,
    Alignment = 1,
}

/// A run ends in one of three ways; each gives the number of ops run.
#[derive(Clone, Copy, Debug, PartialEq, Eq)]
pub enum Ending {
    Exit {
        value: u64,
        count: u64,
    },
    Fault {
        store: bool,
        address: u64,
        flags: u8,
        reason: Reason,
        count: u64,
    },
    NoResult {
        position: u64,
        count: u64,
    },
}

/// What a record is. `Compute` is every op that fold may replace.
#[derive(Clone, Copy, Debug, PartialEq, Eq)]
pub enum Form {
    Unknown,
    Declaration,
    SetLabel,
    Br,
    ExitTb,
    Movi,
    Compute,
    BrCond,
    Load,
    Store,
}

/// What the kind fixes: the body's length, the operands and their widths.
#[derive(Clone, Copy, Debug)]
pub struct Shape {
    pub form: Form,
    pub body: u8,
    pub outputs: u8,
    pub inputs: u8,
    /// Bit i is set when operand i has 64 bits.
    pub wide: u8,
}

const fn row(form: Form, body: u8, outputs: u8, inputs: u8, wide: u8) -> Shape {
    Shape {
        form,
        body,
        outputs,
        inputs,
        wide,
    }
}

/// The flags of a swap: its input is zero-extended, its output is, or is
/// sign-extended.
pub const IZ: u8 = 1;
pub const OZ: u8 = 2;
pub const OS: u8 = 4;

/// The bits of an access's flags beside its size: sign-extended, big-endian,
/// and that the address be a multiple of the size.
pub const SIGNED: u8 = 4;
pub const BIG_ENDIAN: u8 = 8;
pub const ALIGNED: u8 = 16;

/// The size of an access in bytes.
pub fn size(flags: u8) -> u64 {
    1 << (flags & 3)
}

/// Kinds 10 to 36, and with 80 added their 64-bit forms.
const fn sized(kind: u8) -> Shape {
    let wide = if kind & 0x80 != 0 { 0xFF } else { 0 };
    match kind & 0x7F {
        0x10 => row(Form::Movi, 9, 1, 0, wide),
        0x11..=0x13 => row(Form::Compute, 2, 1, 1, wide),
        0x14..=0x27 => row(Form::Compute, 3, 1, 2, wide),
        0x28 => row(Form::Compute, 4, 1, 2, wide),
        0x29 => row(Form::Compute, 6, 1, 4, wide),
        0x2A => row(Form::BrCond, 4, 0, 2, wide),
        // Addresses are 64-bit.
        0x2B => row(Form::Load, 3, 1, 1, wide | 0b10),
        0x2C => row(Form::Store, 3, 0, 2, wide | 0b10),
        // deposit; extract and sextract; extract2.
        0x2D => row(Form::Compute, 5, 1, 2, wide),
        0x2E | 0x2F => row(Form::Compute, 4, 1, 1, wide),
        0x30 => row(Form::Compute, 4, 1, 2, wide),
        // bswap16, bswap32 and bswap64; clz and ctz; ctpop.
        0x31..=0x33 => row(Form::Compute, 3, 1, 1, wide),
        0x34 | 0x35 => row(Form::Compute, 3, 1, 2, wide),
        _ => row(Form::Compute, 2, 1, 1, wide),
    }
}

const fn shape(kind: u8) -> Shape {
    match kind {
        0x01 => row(Form::Declaration, 2, 0, 0, 0),
        0x02 => row(Form::SetLabel, 1, 0, 0, 0),
        0x03 => row(Form::Br, 1, 0, 0, 0),
        0x04 => row(Form::ExitTb, 1, 0, 1, 0b1),
        0x05 | 0x06 => row(Form::Compute, 2, 1, 1, 0b01),
        0x07 => row(Form::Compute, 2, 1, 1, 0b10),
        // 000 has no bswap64 of 32 bits.
        0x33 => row(Form::Unknown, 0, 0, 0, 0),
        0x10..=0x36 | 0x90..=0xB6 => sized(kind),
        _ => row(Form::Unknown, 0, 0, 0, 0),
    }
}

/// The table from kind to shape.
pub static SHAPES: [Shape; 256] = {
    let mut table = [row(Form::Unknown, 0, 0, 0, 0); 256];
    let mut kind = 0;
    while kind < 256 {
        table[kind] = shape(kind as u8);
        kind += 1;
    }
    table
};

/// The set of one variable or label.
pub fn one(number: u8) -> Set {
    let bit = 1 << (number % 64);
    Set([0, 1, 2, 3].map(|word| if number / 64 == word { bit } else { 0 }))
}

/// The set of some operands.
pub fn set(operands: &[u8]) -> Set {
    let join = |all, &variable: &u8| all | one(variable);
    operands.iter().fold(Set::NONE, join)
}

/// An op where it stands in the block.
pub struct Op<'a> {
    /// Where it starts.
    pub place: usize,
    pub kind: u8,
    pub shape: &'static Shape,
    pub body: &'a [u8],
}

impl<'a> Op<'a> {
    pub fn at(bytes: &'a [u8], place: usize) -> Op<'a> {
        let kind = bytes[place];
        let shape = &SHAPES[kind as usize];
        Op {
            place,
            kind,
            shape,
            body: &bytes[place + 1..place + 1 + shape.body as usize],
        }
    }

    fn operands(&self) -> usize {
        (self.shape.outputs + self.shape.inputs) as usize
    }

    pub fn outputs(&self) -> &'a [u8] {
        &self.body[..self.shape.outputs as usize]
    }

    pub fn inputs(&self) -> &'a [u8] {
        &self.body[self.shape.outputs as usize..self.operands()]
    }

    /// The output's number, of an op that has one.
    fn output(&self) -> usize {
        self.body[0] as usize
    }

    /// What follows the operands: value, cond, label, flags, position, length.
    pub fn constants(&self) -> &'a [u8] {
        &self.body[self.operands()..]
    }

    /// The value of a movi.
    pub fn value(&self) -> u64 {
        let mut eight = [0; 8];
        eight.copy_from_slice(&self.body[1..9]);
        u64::from_le_bytes(eight)
    }

    /// The label of a set_label, br or brcond.
    pub fn label(&self) -> u8 {
        self.body[self.body.len() - 1]
    }

    fn has_64_bits(&self) -> bool {
        self.kind & 0x80 != 0
    }

    /// The op's width in bits.
    pub fn width(&self) -> u32 {
        if self.has_64_bits() {
            64
        } else {
            32
        }
    }

    /// The kind of the 32-bit form.
    pub fn narrow_kind(&self) -> u8 {
        self.kind & 0x7F
    }

    /// The position and length of a deposit, extract or sextract.
    pub fn field(&self) -> (u32, u32) {
        let constants = self.constants();
        (constants[0] as u32, constants[1] as u32)
    }

    /// The address of a load or store, its last input.
    pub fn address(&self, inputs: [u64; 4]) -> u64 {
        inputs[self.shape.inputs as usize - 1]
    }

    /// How many low bits a bswap16, bswap32 or bswap64 swaps.
    pub fn swapped(&self) -> u32 {
        match self.narrow_kind() {
            0x31 => 16,
            0x32 => 32,
            _ => 64,
        }
    }

    /// Pure ops are kinds 05 to 07, 10 to 29 and 2D to 36 in either width.
    pub fn is_pure(&self) -> bool {
        matches!(self.shape.form, Form::Movi | Form::Compute)
    }

    /// An extended basic block ends after br and exit_tb, and starts at
    /// set_label; a brcond does not end it on its fall-through path.
    pub fn parts_extended_blocks(&self) -> bool {
        matches!(self.shape.form, Form::SetLabel | Form::Br | Form::ExitTb)
    }
}

/// An accepted block, read.
pub struct Block {
    pub variables: usize,
    /// The variables of 64 bits, and those of each class.
    wide: Set,
    pub globals: Set,
    pub locals: Set,
    pub temporaries: Set,
    pub ops: usize,
    /// Where each op starts, below `RESULT`.
    starts: Vec<u16>,
    /// The position of each label's set_label.
    labels: [u16; LABELS],
}

impl Block {
    pub fn op<'a>(&self, bytes: &'a [u8], position: usize) -> Op<'a> {
        Op::at(bytes, self.starts[position] as usize)
    }

    /// The position of the set_label that a jump goes to.
    pub fn target(&self, jump: &Op) -> usize {
        self.labels[jump.label() as usize] as usize
    }

    /// The number of declared globals.
    pub fn lent(&self) -> usize {
        self.globals.count()
    }
}

/// The check's memory between records.
struct Reader {
    block: Block,
    /// Labels set and labels jumped to.
    set: Set,
    jumped: Set,
    /// Variables written in this extended basic block.
    written: Set,
}

impl Reader {
    fn new() -> Reader {
        let block = Block {
            variables: 0,
            wide: Set::NONE,
            globals: Set::NONE,
            locals: Set::NONE,
            temporaries: Set::NONE,
            ops: 0,
            starts: vec![],
            labels: [0; LABELS],
        };
        Reader {
            block,
            set: Set::NONE,
            jumped: Set::NONE,
            written: Set::NONE,
        }
    }

    /// One record: 2, 1, then 3 or 9, then 4, 5, 6, 7, 8.
    fn record(&mut self, bytes: &[u8], place: usize) -> Result<(), u8> {
        let shape = &SHAPES[bytes[place] as usize];
        if shape.form == Form::Unknown {
            return Err(2);
        }
        if bytes.len() - place <= shape.body as usize {
            return Err(1);
        }
        let op = Op::at(bytes, place);
        if shape.form == Form::Declaration {
            return self.declaration(op.body[0], op.body[1]);
        }
        if self.block.ops == OPS {
            return Err(9);
        }
        self.operands(&op)?;
        constants(&op)?;
        self.labels(&op)?;
        self.lifetimes(&op)?;
        self.block.starts.push(place as u16);
        self.block.ops += 1;
        Ok(())
    }

    /// Declarations stand before the first op, globals before the rest.
    fn declaration(&mut self, class: u8, width: u8) -> Result<(), u8> {
        let block = &mut self.block;
        if block.ops > 0 || class > 2 || width > 1 || block.variables == VARIABLES {
            return Err(3);
        }
        if class == 0 && !(block.locals | block.temporaries).is_empty() {
            return Err(3);
        }
        let variable = one(block.variables as u8);
        match class {
            0 => block.globals |= variable,
            1 => block.locals |= variable,
            _ => block.temporaries |= variable,
        }
        if width == 1 {
            block.wide |= variable;
        }
        block.variables += 1;
        Ok(())
    }

    /// 4, variable not declared; then 5, an operand has the wrong width.
    fn operands(&self, op: &Op) -> Result<(), u8> {
        let operands = &op.body[..op.operands()];
        if operands
            .iter()
            .any(|&variable| variable as usize >= self.block.variables)
        {
            return Err(4);
        }
        for (i, &variable) in operands.iter().enumerate() {
            if (op.shape.wide >> i & 1 != 0) != self.block.wide.has(variable) {
                return Err(5);
            }
        }
        Ok(())
    }

    /// 7, label set twice, or jump to a label already set.
    fn labels(&mut self, op: &Op) -> Result<(), u8> {
        if !matches!(op.shape.form, Form::SetLabel | Form::Br | Form::BrCond) {
            return Ok(());
        }
        let label = op.label();
        if self.set.has(label) {
            return Err(7);
        }
        if op.shape.form == Form::SetLabel {
            self.set |= one(label);
            self.block.labels[label as usize] = self.block.ops as u16;
        } else {
            self.jumped |= one(label);
        }
        Ok(())
    }

    /// 8, temporary read before a write in its extended basic block; reads
    /// come first.
    fn lifetimes(&mut self, op: &Op) -> Result<(), u8> {
        let missing = set(op.inputs()) & self.block.temporaries & !self.written;
        if !missing.is_empty() {
            return Err(8);
        }
        self.written |= set(op.outputs());
        if op.parts_extended_blocks() {
            self.written = Set::NONE;
        }
        Ok(())
    }

    /// After the last record 10 comes before 7.
    fn end(self, bytes: &[u8]) -> Result<Block, Refusal> {
        let place = bytes.len();
        let ops = self.block.ops;
        if ops == 0 || self.block.op(bytes, ops - 1).shape.form != Form::ExitTb {
            return Err(Refusal { number: 10, place });
        }
        if !(self.jumped & !self.set).is_empty() {
            return Err(Refusal { number: 7, place });
        }
        Ok(self.block)
    }
}

/// 6, cond above 9, bad flags, no such label, 32-bit movi of 2^32 or more, bad
/// field or position.
fn constants(op: &Op) -> Result<(), u8> {
    let constants = op.constants();
    let good = match op.shape.form {
        Form::SetLabel | Form::Br => label_fits(op),
        Form::BrCond => constants[0] <= 9 && label_fits(op),
        Form::Movi => op.has_64_bits() || op.value() <= u32::MAX as u64,
        Form::Compute => match op.narrow_kind() {
            0x28 | 0x29 => constants[0] <= 9,
            0x2D..=0x2F => field_fits(op),
            0x30 => constants[0] as u32 <= op.width(),
            0x31..=0x33 => swap_flags_fit(op, constants[0]),
            _ => true,
        },
        Form::Load => flags_fit(op, constants[0]),
        Form::Store => flags_fit(op, constants[0]) && constants[0] & SIGNED == 0,
        _ => true,
    };
    if good {
        Ok(())
    } else {
        Err(6)
    }
}

fn label_fits(op: &Op) -> bool {
    (op.label() as usize) < LABELS
}

/// Bits 5 to 7 are zero, and the size never exceeds the width.
fn flags_fit(op: &Op, flags: u8) -> bool {
    flags <= 31 && (op.has_64_bits() || flags & 3 != 3)
}

/// A field has a length of at least 1 and ends within the width.
fn field_fits(op: &Op) -> bool {
    let (position, length) = op.field();
    length >= 1 && position + length <= op.width()
}

/// A swap of less than the width carries exactly one of OZ and OS, and maybe
/// IZ; other swaps carry zero flags.
fn swap_flags_fit(op: &Op, flags: u8) -> bool {
    if op.swapped() < op.width() {
        matches!(flags & !IZ, OZ | OS)
    } else {
        flags == 0
    }
}

/// Records are read in order and the first bad one answers.
pub fn read(bytes: &[u8]) -> Result<Block, Refusal> {
    let mut reader = Reader::new();
    let mut place = 0;
    while place < bytes.len() {
        if let Err(number) = reader.record(bytes, place) {
            return Err(Refusal { number, place });
        }
        place += 1 + SHAPES[bytes[place] as usize].body as usize;
    }
    reader.end(bytes)
}

/// The check: a block is accepted if it gives no refusal.
pub fn check(bytes: &[u8]) -> Result<(), Refusal> {
    read(bytes).map(|_| ())
}

/// A value below two to the width, read as signed.
fn signed(value: u64, wide: bool) -> i64 {
    if wide {
        value as i64
    } else {
        value as u32 as i32 as i64
    }
}

/// Conditions 0 to 9.
fn holds(cond: u8, a: u64, b: u64, wide: bool) -> bool {
    match cond {
        0 => a == b,
        1 => a != b,
        2 => signed(a, wide) < signed(b, wide),
        3 => signed(a, wide) >= signed(b, wide),
        4 => signed(a, wide) <= signed(b, wide),
        5 => signed(a, wide) > signed(b, wide),
        6 => a < b,
        7 => a >= b,
        8 => a <= b,
        _ => a > b,
    }
}

/// divs and rems: none for a zero divisor, nor for the smallest by minus one.
fn divide(rest: bool, a: u64, b: u64, wide: bool) -> Option<u64> {
    let smallest = if wide { i64::MIN } else { i32::MIN as i64 };
    let (a, b) = (signed(a, wide), signed(b, wide));
    if b == 0 || (a == smallest && b == -1) {
        return None;
    }
    Some(if rest { a % b } else { a / b } as u64)
}

/// Shifts and rotates: none for a count at or above the width.
fn shift(kind: u8, a: u64, count: u64, wide: bool) -> Option<u64> {
    if count >= if wide { 64 } else { 32 } {
        return None;
    }
    let count = count as u32;
    Some(match kind {
        0x23 => a << count,
        0x24 => a >> count,
        0x25 => (signed(a, wide) >> count) as u64,
        0x26 if wide => a.rotate_left(count),
        0x26 => (a as u32).rotate_left(count) as u64,
        _ if wide => a.rotate_right(count),
        _ => (a as u32).rotate_right(count) as u64,
    })
}

/// So many low bits, at least 1.
fn ones(length: u32) -> u64 {
    u64::MAX >> (64 - length)
}

/// t1 with the low bits of t2 in the field.
fn deposit(op: &Op, t1: u64, t2: u64) -> u64 {
    let (position, length) = op.field();
    let field = ones(length) << position;
    t1 & !field | t2 << position & field
}

/// The field, extended to the left with zeros.
fn extract(op: &Op, t1: u64) -> u64 {
    let (position, length) = op.field();
    t1 >> position & ones(length)
}

/// The field, extended to the left with its sign bit, that at position +
/// length - 1.
fn sextract(op: &Op, t1: u64) -> u64 {
    let (position, length) = op.field();
    let top = t1 << (64 - position - length);
    (top as i64 >> (64 - length)) as u64
}

/// As many bits as the width from t2:t1, beginning at the position.
fn extract2(op: &Op, t1: u64, t2: u64) -> u64 {
    let both = (t2 as u128) << op.width() | t1 as u128;
    (both >> op.constants()[0]) as u64
}

/// The low bytes in the other order; none if IZ is set and the input is not
/// zero-extended.
fn swap(op: &Op, t1: u64) -> Option<u64> {
    let (flags, bits) = (op.constants()[0], op.swapped());
    if flags & IZ != 0 && t1 & !ones(bits) != 0 {
        return None;
    }
    let top = t1.swap_bytes();
    Some(if flags & OS != 0 {
        (top as i64 >> (64 - bits)) as u64
    } else {
        top >> (64 - bits)
    })
}

/// clz and ctz: t2 if t1 is zero.
fn count(op: &Op, t1: u64, t2: u64) -> u64 {
    if t1 == 0 {
        return t2;
    }
    if op.narrow_kind() == 0x34 {
        (t1.leading_zeros() - (64 - op.width())) as u64
    } else {
        t1.trailing_zeros() as u64
    }
}

/// The result of an op of kinds 05 to 07, 11 to 29 or 2D to 36, none if not
/// stated.
pub fn result(op: &Op, [a, b, v1, v2]: [u64; 4]) -> Option<u64> {
    let wide = op.has_64_bits();
    let all = match op.narrow_kind() {
        0x05 => return Some(signed(a, false) as u64),
        0x06 => return Some(a),
        0x07 | 0x11 => a,
        0x12 => a.wrapping_neg(),
        0x13 => !a,
        0x14 => a.wrapping_add(b),
        0x15 => a.wrapping_sub(b),
        0x16 => a.wrapping_mul(b),
        0x17 => a & b,
        0x18 => a | b,
        0x19 => a ^ b,
        0x1A => a & !b,
        0x1B => a | !b,
        0x1C => !(a ^ b),
        0x1D => !(a & b),
        0x1E => !(a | b),
        0x1F => divide(false, a, b, wide)?,
        0x20 => a.checked_div(b)?,
        0x21 => divide(true, a, b, wide)?,
        0x22 => a.checked_rem(b)?,
        kind @ 0x23..=0x27 => shift(kind, a, b, wide)?,
        0x28 => holds(op.constants()[0], a, b, wide) as u64,
        0x29 if holds(op.constants()[0], a, b, wide) => v1,
        0x29 => v2,
        0x2D => deposit(op, a, b),
        0x2E => extract(op, a),
        0x2F => sextract(op, a),
        0x30 => extract2(op, a, b),
        0x31..=0x33 => swap(op, a)?,
        0x34 | 0x35 => count(op, a, b),
        _ => a.count_ones() as u64,
    };
    Some(if wide { all } else { all as u32 as u64 })
}

/// The values of an op's inputs.
fn inputs(op: &Op, values: &[u64; VARIABLES]) -> [u64; 4] {
    let mut four = [0; 4];
    for (place, &variable) in four.iter_mut().zip(op.inputs()) {
        *place = values[variable as usize];
    }
    four
}

/// Where an access reaches in a memory of this length. It faults when bit 4
/// asks for a multiple of the size and the address is none, else when address
/// plus size exceeds the length.
pub fn reach(length: usize, address: u64, flags: u8) -> Result<Range<usize>, Reason> {
    let size = size(flags);
    if flags & ALIGNED != 0 && !address.is_multiple_of(size) {
        return Err(Reason::Alignment);
    }
    let end = address.checked_add(size).ok_or(Reason::Bounds)?;
    if end > length as u64 {
        return Err(Reason::Bounds);
    }
    Ok(address as usize..end as usize)
}

/// A load's value.
fn load(bytes: &[u8], flags: u8, wide: bool) -> u64 {
    let put = |value: u64, &byte: &u8| value << 8 | byte as u64;
    let value = if flags & BIG_ENDIAN != 0 {
        bytes.iter().fold(0, put)
    } else {
        bytes.iter().rev().fold(0, put)
    };
    let above = 64 - 8 * bytes.len() as u32;
    let value = if flags & SIGNED != 0 {
        ((value << above) as i64 >> above) as u64
    } else {
        value
    };
    if wide {
        value
    } else {
        value as u32 as u64
    }
}

/// A narrow store writes the low bytes.
fn store(bytes: &mut [u8], flags: u8, value: u64) {
    let last = bytes.len() - 1;
    for (i, byte) in bytes.iter_mut().enumerate() {
        let low = if flags & BIG_ENDIAN != 0 { last - i } else { i };
        *byte = (value >> (8 * low)) as u8;
    }
}

/// 11, globals or memory that do not fit the block.
fn fit(block: &Block, globals: &[u64], memory: &[u8]) -> Result<(), Refusal> {
    let narrow = |i: usize| !block.wide.has(i as u8);
    let number = globals.len() != block.lent();
    let large = |(i, &value): (usize, &u64)| narrow(i) && value > u32::MAX as u64;
    if number || globals.iter().enumerate().any(large) || memory.len() > MEMORY {
        return Err(Refusal {
            number: 11,
            place: 0,
        });
    }
    Ok(())
}

/// A run takes the block, the globals as 64-bit numbers, and the memory.
pub fn run(bytes: &[u8], globals: &mut [u64], memory: &mut [u8]) -> Result<Ending, Refusal> {
    watched(bytes, globals, memory, |_, _| ())
}

/// A run in which `see` is shown each op that is due, with its inputs' values.
pub fn watched(
    bytes: &[u8],
    globals: &mut [u64],
    memory: &mut [u8],
    see: impl FnMut(&Op, [u64; 4]),
) -> Result<Ending, Refusal> {
    let block = read(bytes)?;
    fit(&block, globals, memory)?;
    // Local temporaries start at zero.
    let mut values = [0; VARIABLES];
    values[..globals.len()].copy_from_slice(globals);
    let ending = execute(&block, bytes, &mut values, memory, see);
    globals.copy_from_slice(&values[..globals.len()]);
    Ok(ending)
}

/// The path taken; the last op is exit_tb, and jumps go forward only.
fn execute(
    block: &Block,
    bytes: &[u8],
    values: &mut [u64; VARIABLES],
    memory: &mut [u8],
    mut see: impl FnMut(&Op, [u64; 4]),
) -> Ending {
    let mut position = 0;
    let mut count = 0;
    loop {
        let op = block.op(bytes, position);
        let now = inputs(&op, values);
        see(&op, now);
        count += 1;
        position += 1;
        match op.shape.form {
            Form::ExitTb => return exit(now[0], count),
            Form::Br => position = block.target(&op),
            Form::BrCond if holds(op.constants()[0], now[0], now[1], op.has_64_bits()) => {
                position = block.target(&op);
            }
            Form::Movi => values[op.output()] = op.value(),
            Form::Compute => match result(&op, now) {
                Some(value) => values[op.output()] = value,
                // The op without a result does not count.
                None => return no_result(position - 1, count - 1),
            },
            Form::Load | Form::Store => {
                if let Err(reason) = access(&op, now, values, memory) {
                    return fault(&op, op.address(now), reason, count);
                }
            }
            // set_label, or a brcond whose condition does not hold.
            _ => {}
        }
    }
}

fn exit(value: u64, count: u64) -> Ending {
    Ending::Exit { value, count }
}

fn no_result(position: usize, count: u64) -> Ending {
    Ending::NoResult {
        position: position as u64,
        count,
    }
}

fn fault(op: &Op, address: u64, reason: Reason, count: u64) -> Ending {
    Ending::Fault {
        store: op.shape.form == Form::Store,
        address,
        flags: op.constants()[0],
        reason,
        count,
    }
}

/// A load or store; the reason of a fault, which changes nothing.
fn access(
    op: &Op,
    now: [u64; 4],
    values: &mut [u64; VARIABLES],
    memory: &mut [u8],
) -> Result<(), Reason> {
    let flags = op.constants()[0];
    let range = reach(memory.len(), op.address(now), flags)?;
    if op.shape.form == Form::Load {
        values[op.output()] = load(&memory[range], flags, op.has_64_bits());
    } else {
        store(&mut memory[range], flags, now[0]);
    }
    Ok(())
}

/// What the pass makes of each op: a movi of a value, kept or dropped.
pub struct Plan {
    pub folded: Vec<Option<u64>>,
    pub kept: Vec<bool>,
}

impl Plan {
    fn new(block: &Block) -> Plan {
        Plan {
            folded: vec![None; block.ops],
            kept: vec![false; block.ops],
        }
    }
}

/// Fold reads forward.
fn fold(block: &Block, bytes: &[u8], plan: &mut Plan) {
    // Nothing is known at the start.
    let mut known = Set::NONE;
    let mut values = [0; VARIABLES];
    for position in 0..block.ops {
        let op = block.op(bytes, position);
        let value = match op.shape.form {
            Form::Movi => Some(op.value()),
            Form::Compute if (set(op.inputs()) & !known).is_empty() => {
                plan.folded[position] = result(&op, inputs(&op, &values));
                plan.folded[position]
            }
            _ => None,
        };
        // An output neither of a movi nor folded becomes unknown.
        known &= !set(op.outputs());
        if let Some(value) = value {
            known |= one(op.body[0]);
            values[op.output()] = value;
        }
        // brcond keeps known values for the next op.
        if op.parts_extended_blocks() {
            known = Set::NONE;
        }
    }
}

/// What is live just before a kept op; a folded op has no inputs.
fn live_before(block: &Block, op: &Op, folded: bool, after: Set) -> Set {
    let inputs = if folded { Set::NONE } else { set(op.inputs()) };
    let output = set(op.outputs());
    match op.shape.form {
        Form::ExitTb => block.globals | inputs,
        Form::Br | Form::SetLabel => block.globals | block.locals,
        Form::BrCond => block.globals | block.locals | inputs | after & block.temporaries,
        Form::Load | Form::Store => after & !output | block.globals | inputs,
        _ => after & !output | inputs,
    }
}

/// Prune reads the folded ops backward.
fn prune(block: &Block, bytes: &[u8], plan: &mut Plan) {
    let mut live = Set::NONE;
    for position in (0..block.ops).rev() {
        let op = block.op(bytes, position);
        plan.kept[position] = !op.is_pure() || live.has(op.body[0]);
        if plan.kept[position] {
            live = live_before(block, &op, plan.folded[position].is_some(), live);
        }
    }
}

/// Fold, then prune.
pub fn plan(block: &Block, bytes: &[u8]) -> Plan {
    let mut plan = Plan::new(block);
    fold(block, bytes, &mut plan);
    prune(block, bytes, &mut plan);
    plan
}

/// The length of an op in the result.
fn length(op: &Op, folded: Option<u64>) -> usize {
    if folded.is_some() {
        MOVI
    } else {
        1 + op.body.len()
    }
}

/// An op of the result: a movi of the output's width, or the op as it stands.
fn write(out: &mut [u8], op: &Op, folded: Option<u64>) {
    match folded {
        Some(value) => {
            out[0] = if op.shape.wide & 1 != 0 { 0x90 } else { 0x10 };
            out[1] = op.body[0];
            out[2..].copy_from_slice(&value.to_le_bytes());
        }
        None => {
            out[0] = op.kind;
            out[1..].copy_from_slice(op.body);
        }
    }
}

/// The pass: the result is the declarations and kept ops, the answer its length.
pub fn pass(bytes: &[u8], out: &mut [u8]) -> Result<usize, Refusal> {
    let block = read(bytes)?;
    let plan = plan(&block, bytes);
    let kept = |position: &usize| plan.kept[*position];
    let declared = block.variables * DECLARATION;
    let mut whole = declared;
    for position in (0..block.ops).filter(kept) {
        whole += length(&block.op(bytes, position), plan.folded[position]);
    }
    if out.len() < whole {
        return Err(Refusal {
            number: 12,
            place: 0,
        });
    }
    out[..declared].copy_from_slice(&bytes[..declared]);
    let mut place = declared;
    for position in (0..block.ops).filter(kept) {
        let op = block.op(bytes, position);
        let next = place + length(&op, plan.folded[position]);
        write(&mut out[place..next], &op, plan.folded[position]);
        place = next;
    }
    Ok(whole)
}

/// The first op that fold, reading from the first op, would replace.
pub fn foldable(bytes: &[u8]) -> Result<Option<usize>, Refusal> {
    let block = read(bytes)?;
    let mut plan = Plan::new(&block);
    fold(&block, bytes, &mut plan);
    Ok(plan.folded.iter().position(|value| value.is_some()))
}

/// A pure op whose output is not live after it, read with every op kept.
pub fn dead(bytes: &[u8]) -> Result<Option<usize>, Refusal> {
    let block = read(bytes)?;
    let mut found = None;
    let mut live = Set::NONE;
    for position in (0..block.ops).rev() {
        let op = block.op(bytes, position);
        if op.is_pure() && !live.has(op.body[0]) {
            found = Some(position);
        }
        live = live_before(&block, &op, false, live);
    }
    Ok(found)
}
