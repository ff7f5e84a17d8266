//! Plain, safe Rust that checks, optimises and runs blocks, written for
//! speed. What the kind fixes stands in one static table, all arrays are on
//! the stack, and few ops or variables take small ones. One forward scan
//! checks and folds, one backward scan prunes: with few variables a set of them
//! is one `u64`, with many each has a stamp.
//!
//! A branch on the kind is often foreseen wrongly, so the scans treat nearly
//! all ops alike, by what the table says. The forward scan only asks whether
//! all is well, in one test; which rule is broken is found apart.

/// At most so many variables, ops, labels and bytes of memory.
const VARIABLES: usize = 200;
const OPS: usize = 1024;
const LABELS: usize = 128;
const MEMORY: usize = 65_536;
/// Few variables have a bit each in a `u64`; many are told apart by a byte.
const FEW: usize = 64;
const MANY: usize = 256;

/// What an op does to the set of live variables.
#[derive(Clone, Copy, PartialEq, Eq)]
enum Effect {
    Pure,
    Folded,
    Load,
    Store,
    Exit,
    Jump,
    Branch,
}

/// What speaks against a variable, a bit for each; both widths if it is not
/// declared.
const NOT_WIDE: u8 = 1;
const NOT_NARROW: u8 = 2;
const NOT_READY: u8 = 4;
const NOT_KNOWN: u8 = 8;
const UNDECLARED: u8 = NOT_WIDE | NOT_NARROW;
/// A global or local temporary of 32 bits; one more has 64.
const DECLARED: u8 = NOT_KNOWN | NOT_WIDE;

/// What speaks against a byte as a constant: it is no condition, no flags of an
/// access, its size is eight bytes, it is signed, it is no position of an
/// extract2 of that width, no flags of a swap of less than the width or of the
/// width.
const CONDITION: u8 = 1;
const ACCESS: u8 = 2;
const EIGHT: u8 = 4;
const SIGNED: u8 = 8;
const POSITION: Two = [16, 32];
const PART: u8 = 64;
const WHOLE: u8 = 128;
const LOAD: Two = [ACCESS | EIGHT, ACCESS];
const STORE: Two = [LOAD[0] | SIGNED, LOAD[1] | SIGNED];
/// One of these speaks against any byte.
const NEVER: u8 = PART | WHOLE;

static CONSTANTS: [u8; 256] = {
    let mut table = [0; 256];
    let mut byte = 0;
    while byte < 256 {
        table[byte] = (byte > 9) as u8 * CONDITION
            | (byte > 31) as u8 * ACCESS
            | (byte & 3 == 3) as u8 * EIGHT
            | (byte & 4 != 0) as u8 * SIGNED
            | (byte > 32) as u8 * POSITION[0]
            | (byte > 64) as u8 * POSITION[1]
            | (byte < 2 || byte > 5) as u8 * PART
            | (byte > 0) as u8 * WHOLE;
        byte += 1;
    }
    table
};

/// What the kind fixes. Operands follow the kind.
#[derive(Clone, Copy)]
#[repr(align(16))]
struct Row {
    length: u8,
    operands: u8,
    effect: Effect,
    /// Where those read are, the same place twice if it is one; a movcond has
    /// two more.
    inputs: Two,
    /// What must not speak against the output, and against these two.
    asked: [u8; 3],
    /// Where a constant is, and what must not speak against it.
    constant: Two,
    /// Is it a movcond, deposit, extract, sextract, set_label, br, brcond or
    /// exit_tb?
    more: bool,
}

type Two = [u8; 2];

/// A row from the length and number of operands and what else it has.
const fn row(size: Two, effect: Effect, inputs: Two, asked: [u8; 3], constant: Two) -> Row {
    let [length, operands] = size;
    let parts = matches!(effect, Effect::Exit | Effect::Jump | Effect::Branch);
    // A field is two constants.
    let more = operands == 5 || length == operands + 3 || parts;
    Row {
        length,
        operands,
        effect,
        inputs,
        asked,
        constant,
        more,
    }
}

const fn kind(kind: u8) -> Row {
    use Effect::*;
    const NARROW: u8 = NOT_NARROW | NOT_READY;
    const WIDE: u8 = NOT_WIDE | NOT_READY;
    const NONE: Two = [1, 0];
    let wide = (kind >> 7) as usize;
    let (w, r) = ([NOT_NARROW, NOT_WIDE][wide], [NARROW, WIDE][wide]);
    match kind {
        0x01 => row([3, 0], Jump, [1, 1], [0; 3], [1, NEVER]),
        0x02 | 0x03 => row([2, 0], Jump, [1, 1], [0; 3], NONE),
        0x04 => row([2, 1], Exit, [1, 1], [0, WIDE, WIDE], NONE),
        0x05 | 0x06 => row([3, 2], Pure, [2, 2], [NOT_WIDE, NARROW, NARROW], NONE),
        0x07 => row([3, 2], Pure, [2, 2], [NOT_NARROW, WIDE, WIDE], NONE),
        0x10 | 0x90 => row([10, 1], Pure, [1, 1], [w, 0, 0], NONE),
        0x11..=0x13 | 0x91..=0x93 => row([3, 2], Pure, [2, 2], [w, r, r], NONE),
        0x14..=0x27 | 0x94..=0xA7 => row([4, 3], Pure, [2, 3], [w, r, r], NONE),
        0x28 | 0xA8 => row([5, 3], Pure, [2, 3], [w, r, r], [4, CONDITION]),
        0x29 | 0xA9 => row([7, 5], Pure, [2, 3], [w, r, r], [6, CONDITION]),
        0x2A | 0xAA => row([5, 2], Branch, [1, 2], [0, r, r], [3, CONDITION]),
        // Addresses are 64-bit.
        0x2B | 0xAB => row([4, 2], Load, [2, 2], [w, WIDE, WIDE], [3, LOAD[wide]]),
        0x2C | 0xAC => row([4, 2], Store, [1, 2], [0, r, WIDE], [3, STORE[wide]]),
        0x2D | 0xAD => row([6, 3], Pure, [2, 3], [w, r, r], [4, 0]),
        0x2E | 0x2F | 0xAE | 0xAF => row([5, 2], Pure, [2, 2], [w, r, r], [3, 0]),
        0x30 | 0xB0 => row([5, 3], Pure, [2, 3], [w, r, r], [4, POSITION[wide]]),
        0x31 | 0xB1 | 0xB2 => row([4, 2], Pure, [2, 2], [w, r, r], [3, PART]),
        0x32 | 0xB3 => row([4, 2], Pure, [2, 2], [w, r, r], [3, WHOLE]),
        0x34 | 0x35 | 0xB4 | 0xB5 => row([4, 3], Pure, [2, 3], [w, r, r], NONE),
        0x36 | 0xB6 => row([3, 2], Pure, [2, 2], [w, r, r], NONE),
        _ => row([0, 0], Jump, [1, 1], [0; 3], NONE),
    }
}

static KINDS: [Row; 256] = {
    let mut table = [kind(0); 256];
    let mut number = 0;
    while number < 256 {
        table[number] = kind(number as u8);
        number += 1;
    }
    table
};

/// The set of one of few variables.
fn one(number: u8) -> u64 {
    1 << (number & 63)
}

/// The first so many of few.
fn first(count: usize) -> u64 {
    !u64::MAX.checked_shl(count as u32).unwrap_or(0)
}

/// The set of one label.
fn label_bit(label: u8) -> u128 {
    1 << (label & 127)
}

fn refused(number: u64, place: usize) -> u64 {
    number + 256 * place as u64
}

/// Between records.
struct Scan<'a> {
    block: &'a [u8],
    /// What speaks against each variable now, and when an extended basic block
    /// starts.
    against: [u8; MANY],
    starting: [u8; MANY],
    variables: usize,
    globals: usize,
    /// Labels set, labels jumped to, and where they are set.
    set: u128,
    jumped: u128,
    places: [u16; LABELS],
}

impl<'a> Scan<'a> {
    #[inline(always)]
    fn new(block: &'a [u8]) -> Scan<'a> {
        Scan {
            block,
            against: [UNDECLARED; MANY],
            starting: [UNDECLARED; MANY],
            variables: 0,
            globals: 0,
            set: 0,
            jumped: 0,
            places: [0; LABELS],
        }
    }

    /// Reads the good declarations; a bad one is left to the scan of the ops.
    #[inline(always)]
    fn declarations(&mut self) {
        let (records, _) = self.block.as_chunks::<3>();
        let records = &records[..records.len().min(VARIABLES)];
        let mut count = 0;
        for (&[kind, class, width], starting) in records.iter().zip(&mut self.starting) {
            if kind != 1 || class != 0 || width > 1 {
                break;
            }
            *starting = DECLARED + width;
            count += 1;
        }
        self.globals = count;
        let others = self.starting[count..].iter_mut();
        for (&[kind, class, width], starting) in records[count..].iter().zip(others) {
            if kind != 1 || class == 0 || class > 2 || width > 1 {
                break;
            }
            *starting = DECLARED + width + (class & 2) * (NOT_READY / 2);
            count += 1;
        }
        self.variables = count;
    }

    /// Starts an extended basic block; `N` is at least the number of variables.
    #[inline(always)]
    fn start<const N: usize>(&mut self) {
        self.against[..N].copy_from_slice(&self.starting[..N]);
    }

    /// The bytes after the declarations.
    fn rest(&self) -> &'a [u8] {
        &self.block[3 * self.variables..]
    }

    /// All ops in order; the first bad one answers.
    #[inline(always)]
    fn all<const ROOM: usize, const N: usize>(
        &mut self,
        fold: &mut Fold<ROOM, N>,
    ) -> Result<(), u64> {
        self.start::<N>();
        let block = self.block;
        let mut rest = self.rest();
        let (mut ops, mut last) = (0, 0);
        while let Some(&kind) = rest.first() {
            let row = &KINDS[kind as usize];
            let place = block.len() - rest.len();
            let Some((record, after)) = rest.split_at_checked(row.length as usize) else {
                return Err(refused(1, place));
            };
            let good = match record.first_chunk() {
                Some(movi) if ROOM > 0 && kind & 0x7F == 0x10 => self.movi(place, row, movi, fold),
                _ => self.op(place, row, record, fold),
            };
            if !good || ops == OPS {
                return Err(refused(self.broken(row, record, ops), place));
            }
            ops += 1;
            last = kind;
            rest = after;
        }
        // After the last record 10 comes before 7.
        match (last, self.jumped & !self.set) {
            (4, 0) => Ok(()),
            (4, _) => Err(refused(7, block.len())),
            _ => Err(refused(10, block.len())),
        }
    }

    /// Is all well with this movi?
    #[inline(always)]
    fn movi<const ROOM: usize, const N: usize>(
        &mut self,
        place: usize,
        row: &Row,
        record: &[u8; 10],
        fold: &mut Fold<ROOM, N>,
    ) -> bool {
        let value = movi_value(record);
        let above = if record[0] >= 0x80 { 0 } else { value >> 32 };
        let against = &mut self.against[record[1] as usize];
        if above | (*against & row.asked[0]) as u64 != 0 {
            return false;
        }
        *against &= !(NOT_READY | NOT_KNOWN);
        fold.values[record[1] as usize & (N - 1)] = value;
        fold.push(place, record[1], Effect::Pure, Fold::<ROOM, N>::NOTHING);
        true
    }

    /// Is all well with this op?
    #[inline(always)]
    fn op<const ROOM: usize, const N: usize>(
        &mut self,
        place: usize,
        row: &Row,
        record: &[u8],
        fold: &mut Fold<ROOM, N>,
    ) -> bool {
        if record.len() < 2 {
            return false;
        }
        let [a, b] = row.inputs.map(|at| record[at as usize]);
        let (output, constant) = (record[1], record[row.constant[0] as usize]);
        let (against_a, against_b) = (self.against[a as usize], self.against[b as usize]);
        let wrong = self.against[output as usize] & row.asked[0]
            | against_a & row.asked[1]
            | against_b & row.asked[2]
            | CONSTANTS[constant as usize] & row.constant[1];
        if wrong != 0 || ROOM == 0 && record[0] == 0x10 && record[6..10] != [0; 4] {
            return false;
        }
        let mut seen = against_a | against_b;
        let mut reads = Fold::<ROOM, N>::two(a, b);
        if row.more {
            if row.effect != Effect::Pure {
                let nothing = Fold::<ROOM, N>::NOTHING;
                let reads = if row.operands > 0 { reads } else { nothing };
                fold.push(place, output, row.effect, reads);
                return self.parts::<N>(place, record);
            }
            if row.operands == 5 {
                let (c, d) = (record[4], record[5]);
                seen |= self.against[c as usize] | self.against[d as usize];
                reads = Fold::<ROOM, N>::two_more(reads, c, d);
                if seen & row.asked[1] != 0 {
                    return false;
                }
            } else if !field_fits(row, record) {
                return false;
            }
        }
        self.against[output as usize] &= !NOT_READY;
        if ROOM > 0 {
            let known = seen & NOT_KNOWN == 0 && fold.folds(place, row, record);
            if !known {
                fold.push(place, output, row.effect, reads);
            }
            self.knows(row, output, known);
        }
        true
    }

    /// Marks whether the output is known now; a store has none.
    #[inline(always)]
    fn knows(&mut self, row: &Row, output: u8, known: bool) {
        let against = &mut self.against[output as usize];
        let unknown = if known { 0 } else { NOT_KNOWN };
        let kept = if row.asked[0] == 0 { *against } else { unknown };
        *against = *against & !NOT_KNOWN | kept & NOT_KNOWN;
    }

    /// A good exit_tb, set_label, br or brcond, but for its label.
    #[inline(always)]
    fn parts<const N: usize>(&mut self, place: usize, record: &[u8]) -> bool {
        // All but brcond, which is longer, end an extended basic block.
        if record.len() == 2 {
            self.start::<N>();
        }
        if record[0] == 4 {
            return true;
        }
        let label = record[record.len() - 1];
        if label as usize >= LABELS || self.set & label_bit(label) != 0 {
            return false;
        }
        if record[0] == 2 {
            self.set |= label_bit(label);
            self.places[label as usize] = place as u16;
        } else {
            self.jumped |= label_bit(label);
        }
        true
    }

    /// The rule that a bad record breaks first.
    #[cold]
    #[inline(never)]
    fn broken(&self, row: &Row, record: &[u8], ops: usize) -> u64 {
        let Some(&kind) = record.first() else {
            return 2;
        };
        if kind == 1 {
            return 3;
        }
        if ops == OPS {
            return 9;
        }
        let operands = &record[1..1 + row.operands as usize];
        let undeclared = |&v: &u8| self.against[v as usize] & UNDECLARED == UNDECLARED;
        if operands.iter().any(undeclared) {
            return 4;
        }
        let wrong = |(at, &v): (u8, &u8)| {
            let asked = row.asked[if at == 1 { 0 } else { 2 }];
            let more = if at == row.inputs[0] { row.asked[1] } else { 0 };
            self.against[v as usize] & (asked | more) & UNDECLARED != 0
        };
        if (1..).zip(operands).any(wrong) {
            return 5;
        }
        let label = record[record.len() - 1];
        let jumps = matches!(row.effect, Effect::Jump | Effect::Branch);
        let limits = CONSTANTS[record[row.constant[0] as usize] as usize] & row.constant[1];
        let field = matches!(kind & 0x7F, 0x2D..=0x2F) && !field_fits(row, record);
        let large = kind == 0x10 && record[6..10] != [0; 4];
        if limits != 0 || field || jumps && label as usize >= LABELS || large {
            return 6;
        }
        if jumps && self.set & label_bit(label) != 0 {
            return 7;
        }
        8
    }
}

/// Has the field a length of at least 1, and does it end within the width?
#[inline(always)]
fn field_fits(row: &Row, record: &[u8]) -> bool {
    let at = row.constant[0] as usize;
    let width = if record[0] >= 0x80 { 64 } else { 32 };
    (record[at + 1].wrapping_sub(1) as i32) < width - record[at] as i32
}

fn movi_value(record: &[u8]) -> u64 {
    record[2..]
        .first_chunk()
        .map_or(0, |value| u64::from_le_bytes(*value))
}

/// A value below two to the width, read as signed.
fn signed(value: u64, wide: bool) -> i64 {
    if wide {
        value as i64
    } else {
        value as i32 as i64
    }
}

/// The low bits of the width.
fn cut(value: u64, wide: bool) -> u64 {
    value & if wide { u64::MAX } else { 0xFFFF_FFFF }
}

/// For each condition the answers by equal, less (2) and unsigned less (4).
const ANSWERS: [u8; 16] = [
    0xAA, 0x55, 0xCC, 0x33, 0xEE, 0x11, 0xF0, 0x0F, 0xFA, 0x05, 0, 0, 0, 0, 0, 0,
];

#[inline(always)]
fn holds(condition: u8, a: u64, b: u64, wide: bool) -> bool {
    let less = signed(a, wide) < signed(b, wide);
    let case = (a == b) as u8 | (less as u8) << 1 | ((a < b) as u8) << 2;
    ANSWERS[condition as usize & 15] >> case & 1 != 0
}

/// divs and rems; none for a zero divisor, nor for the smallest by minus one.
#[inline(always)]
fn divide(rest: bool, a: u64, b: u64, wide: bool) -> Option<u64> {
    let (x, y) = (signed(a, wide), signed(b, wide));
    let smallest = if wide { i64::MIN } else { i32::MIN as i64 };
    if y == 0 || (x == smallest && y == -1) {
        return None;
    }
    Some(if rest { x % y } else { x / y } as u64)
}

/// A shift's count, if it is below the width.
#[inline(always)]
fn counted(count: u64, wide: bool) -> Option<u32> {
    (count < if wide { 64 } else { 32 }).then_some(count as u32)
}

/// Two copies of a 32-bit value rotate as one of 64 bits.
fn twice(a: u64, wide: bool) -> u64 {
    a | if wide { 0 } else { a << 32 }
}

/// So many low bits, at least 1.
fn ones(length: u8) -> u64 {
    u64::MAX >> (64 - length)
}

/// deposit: t1 with the low bits of t2 in the field.
#[inline(always)]
fn deposit(t1: u64, t2: u64, position: u8, length: u8) -> u64 {
    let field = ones(length) << position;
    t1 & !field | t2 << position & field
}

/// sextract: the field goes to the top and back.
#[inline(always)]
fn sextract(t1: u64, position: u8, length: u8) -> u64 {
    let top = t1 << (64 - position - length);
    (top as i64 >> (64 - length)) as u64
}

/// extract2: the width's bits of t2:t1 from the position on.
#[inline(always)]
fn extract2(t1: u64, t2: u64, position: u8, wide: bool) -> u64 {
    if wide {
        (((t2 as u128) << 64 | t1 as u128) >> position) as u64
    } else {
        (t2 << 32 | t1) >> position
    }
}

/// bswap16 to bswap64; none if IZ is set and the input is not zero-extended.
#[inline(always)]
fn swapped(record: &[u8], t1: u64) -> Option<u64> {
    let (unused, flags) = (64 - (8 << ((record[0] & 0x7F) - 0x30)), record[3]);
    if flags & 1 != 0 && t1 & !(u64::MAX >> unused) != 0 {
        return None;
    }
    let top = t1.swap_bytes();
    Some(if flags & 4 != 0 {
        (top as i64 >> unused) as u64
    } else {
        top >> unused
    })
}

fn value<const N: usize>(values: &[u64; N], variable: u8) -> u64 {
    values[variable as usize & (N - 1)]
}

/// The result of a pure op, if one is stated.
#[inline(always)]
fn result<const N: usize>(record: &[u8], values: &[u64; N]) -> Option<u64> {
    let wide = record[0] >= 0x80;
    let a = || value(values, record[2]);
    let b = || value(values, record[3]);
    let result = match record[0] & 0x7F {
        0x10 => return Some(movi_value(record)),
        0x05 => return Some(signed(a(), false) as u64),
        0x06 => return Some(a()),
        0x07 | 0x11 => a(),
        0x12 => a().wrapping_neg(),
        0x13 => !a(),
        0x14 => a().wrapping_add(b()),
        0x15 => a().wrapping_sub(b()),
        0x16 => a().wrapping_mul(b()),
        0x17 => a() & b(),
        0x18 => a() | b(),
        0x19 => a() ^ b(),
        0x1A => a() & !b(),
        0x1B => a() | !b(),
        0x1C => !(a() ^ b()),
        0x1D => !(a() & b()),
        0x1E => !(a() | b()),
        0x1F => divide(false, a(), b(), wide)?,
        0x20 => a().checked_div(b())?,
        0x21 => divide(true, a(), b(), wide)?,
        0x22 => a().checked_rem(b())?,
        0x23 => a() << counted(b(), wide)?,
        0x24 => a() >> counted(b(), wide)?,
        0x25 => (signed(a(), wide) >> counted(b(), wide)?) as u64,
        0x26 => twice(a(), wide).rotate_left(counted(b(), wide)?),
        0x27 => twice(a(), wide).rotate_right(counted(b(), wide)?),
        0x28 => holds(record[4], a(), b(), wide) as u64,
        0x29 => {
            let chosen = holds(record[6], a(), b(), wide);
            value(values, if chosen { record[4] } else { record[5] })
        }
        _ => field_swap_or_count(record, values)?,
    };
    Some(cut(result, wide))
}

/// The result of a bit field, swap or count. Apart, so that the others stay as
/// fast.
#[inline(never)]
fn field_swap_or_count<const N: usize>(record: &[u8], values: &[u64; N]) -> Option<u64> {
    let wide = record[0] >= 0x80;
    let a = || value(values, record[2]);
    let b = || value(values, record[3]);
    Some(match record[0] & 0x7F {
        0x2D => deposit(a(), b(), record[4], record[5]),
        0x2E => a() >> record[3] & ones(record[4]),
        0x2F => sextract(a(), record[3], record[4]),
        0x30 => extract2(a(), b(), record[4], wide),
        0x31..=0x33 => swapped(record, a())?,
        0x34 => match a() {
            0 => b(),
            a => a.leading_zeros() as u64 - if wide { 0 } else { 32 },
        },
        0x35 => match a() {
            0 => b(),
            a => a.trailing_zeros() as u64,
        },
        _ => a().count_ones() as u64,
    })
}

/// Bit 4 asks for a multiple of the size, and the address is none.
#[inline(always)]
fn unaligned(address: u64, flags: u8) -> bool {
    flags & 16 != 0 && address & ((1 << (flags & 3)) - 1) != 0
}

/// The report of a fault; alignment comes before bounds.
#[cold]
fn faulted(address: u64, flags: u8, store: bool, count: u64) -> [u64; 4] {
    let reason = unaligned(address, flags) as u64;
    let access = flags as u64 + 256 * store as u64 + 65_536 * reason;
    [2, address, access, count]
}

/// The bits above the bytes of an access.
fn unused(flags: u8) -> u32 {
    64 - (8 << (flags & 3))
}

/// What a load gives, if it does not fault.
#[inline(always)]
fn load(memory: &[u8], address: u64, flags: u8, wide: bool) -> Option<u64> {
    if unaligned(address, flags) {
        return None;
    }
    let rest = memory.get(address as usize..)?;
    let mut value = match flags & 3 {
        0 => *rest.first()? as u64,
        1 => u16::from_le_bytes(*rest.first_chunk()?) as u64,
        2 => u32::from_le_bytes(*rest.first_chunk()?) as u64,
        _ => u64::from_le_bytes(*rest.first_chunk()?),
    };
    let unused = unused(flags);
    if flags & 8 != 0 {
        value = value.swap_bytes() >> unused;
    }
    if flags & 4 != 0 {
        value = ((value << unused) as i64 >> unused) as u64;
    }
    Some(cut(value, wide))
}

/// Stores the low bytes, if that does not fault.
#[inline(always)]
fn store(memory: &mut [u8], address: u64, flags: u8, mut value: u64) -> Option<()> {
    if unaligned(address, flags) {
        return None;
    }
    let rest = memory.get_mut(address as usize..)?;
    if flags & 8 != 0 {
        value = (value << unused(flags)).swap_bytes();
    }
    match flags & 3 {
        0 => *rest.first_mut()? = value as u8,
        1 => *rest.first_chunk_mut()? = (value as u16).to_le_bytes(),
        2 => *rest.first_chunk_mut()? = (value as u32).to_le_bytes(),
        _ => *rest.first_chunk_mut()? = value.to_le_bytes(),
    }
    Some(())
}

impl Scan<'_> {
    /// Checks the whole block.
    #[inline(always)]
    fn check(&mut self) -> Result<(), u64> {
        self.declarations();
        if self.variables <= FEW {
            self.all(&mut Fold::<0, FEW>::new())
        } else {
            self.all(&mut Fold::<0, MANY>::new())
        }
    }
}

/// Checks a block: 0 if it is accepted, else number + 256 * place.
pub fn check(block: &[u8]) -> u64 {
    let checked = Scan::new(block).check();
    checked.map_or_else(|refusal| refusal, |()| 0)
}

/// Runs a block on the globals and memory; 0 and the report, or a refusal.
pub fn run(block: &[u8], globals: &mut [u64], memory: &mut [u8], report: &mut [u64; 4]) -> u64 {
    let mut scan = Scan::new(block);
    if let Err(refusal) = scan.check() {
        return refusal;
    }
    let mut high = 0;
    for (&value, &against) in globals.iter().zip(&scan.starting) {
        high |= (value >> 32) & ((against & NOT_WIDE) as u64).wrapping_neg();
    }
    if globals.len() != scan.globals || high != 0 || memory.len() > MEMORY {
        return refused(11, 0);
    }
    *report = if scan.variables <= FEW {
        run_on::<FEW>(&scan, globals, memory)
    } else {
        run_on::<MANY>(&scan, globals, memory)
    };
    0
}

/// Runs an accepted block on globals that fit; the report.
#[inline(always)]
fn run_on<const N: usize>(scan: &Scan, globals: &mut [u64], memory: &mut [u8]) -> [u64; 4] {
    let mut values = [0; N];
    values[..globals.len()].copy_from_slice(globals);
    let report = execute(scan, &mut values, memory);
    globals.copy_from_slice(&values[..globals.len()]);
    report
}

/// Runs an accepted block from its first op; the report.
fn execute<const N: usize>(scan: &Scan, values: &mut [u64; N], memory: &mut [u8]) -> [u64; 4] {
    let (block, places, start) = (scan.block, &scan.places, 3 * scan.variables);
    let mut place = start;
    let mut count = 0;
    loop {
        let record = &block[place..];
        let wide = record[0] >= 0x80;
        count += 1;
        match record[0] {
            0x02 => place += 2,
            0x03 => place = places[record[1] as usize & (LABELS - 1)] as usize,
            0x04 => return [1, value(values, record[1]), 0, count],
            0x2A | 0xAA => {
                let (a, b) = (value(values, record[1]), value(values, record[2]));
                place += 5;
                if holds(record[3], a, b, wide) {
                    place = places[record[4] as usize & (LABELS - 1)] as usize;
                }
            }
            0x2B | 0xAB => {
                let address = value(values, record[2]);
                let Some(loaded) = load(memory, address, record[3], wide) else {
                    return faulted(address, record[3], false, count);
                };
                values[record[1] as usize & (N - 1)] = loaded;
                place += 4;
            }
            0x2C | 0xAC => {
                let (new, address) = (value(values, record[1]), value(values, record[2]));
                if store(memory, address, record[3], new).is_none() {
                    return faulted(address, record[3], true, count);
                }
                place += 4;
            }
            kind => {
                let Some(result) = result(record, values) else {
                    return [3, position(&block[start..place]), 0, count - 1];
                };
                values[record[1] as usize & (N - 1)] = result;
                place += KINDS[kind as usize].length as usize;
            }
        }
    }
}

/// How many ops these bytes hold.
#[cold]
fn position(mut ops: &[u8]) -> u64 {
    let mut count = 0;
    while let Some(&kind) = ops.first() {
        ops = &ops[KINDS[kind as usize].length as usize..];
        count += 1;
    }
    count
}

/// What is live, read backward.
trait Live {
    /// Whether the op with this effect, first operand and slot is kept, 0 or 1;
    /// then what is live before it.
    fn keeps(&mut self, effect: usize, first: u8, slot: u64) -> u64;
}

/// By effect: does the op stay, read, and write its first operand?
const STAYS: [u64; 8] = [0, 0, 1, 1, 1, 1, 1, 1];
const READS: [u64; 8] = [!0, 0, !0, !0, !0, !0, !0, 0];
const WRITES: [u64; 8] = [!0, !0, !0, 0, 0, 0, 0, 0];

/// Few variables, a bit for each.
struct Bits {
    live: u64,
    /// By effect: what the op makes live besides what it reads.
    adds: [u64; 8],
}

impl Bits {
    fn new(scan: &Scan) -> Bits {
        let globals = first(scan.globals);
        let mut lasting = globals;
        for variable in scan.globals..scan.variables.min(FEW) {
            let lasts = scan.starting[variable] & NOT_READY == 0;
            lasting |= (lasts as u64) << variable;
        }
        Bits {
            live: 0,
            adds: [0, 0, globals, globals, globals, lasting, lasting, 0],
        }
    }
}

impl Live for Bits {
    #[inline(always)]
    fn keeps(&mut self, effect: usize, first: u8, slot: u64) -> u64 {
        const AFTER: [u64; 8] = [!0, !0, !0, !0, 0, 0, !0, 0];
        let keep = STAYS[effect] | self.live >> (first & 63) & 1;
        let after = self.live & AFTER[effect] & !(one(first) & WRITES[effect]);
        self.live = after | self.adds[effect] | slot & READS[effect] & keep.wrapping_neg();
        keep
    }
}

/// Many variables: the last thing that an op did to each, and to all globals,
/// all local temporaries and all temporaries. A later stamp is higher; the low
/// bit of the highest tells whether the variable is live.
struct Stamps {
    stamps: [u16; MANY],
    /// For each variable the place of its class in `floors`, in bits.
    classes: [u8; MANY],
    floors: u64,
    now: u64,
}

/// One in the place of each class; what a stamp grows by with each op; the low
/// bits of a read, which comes after a class made live (3) or dead (2), which
/// come after the op's own write (0).
const EACH: u64 = 0x1_0001_0001;
const STEP: u64 = 8;
const READ: u64 = 5;

impl Stamps {
    fn new(scan: &Scan) -> Stamps {
        let mut classes = [0; MANY];
        let others = scan.globals..scan.variables;
        let starting = &scan.starting[others.clone()];
        for (class, starting) in classes[others].iter_mut().zip(starting) {
            *class = 16 + (starting & NOT_READY) * (16 / NOT_READY);
        }
        Stamps {
            stamps: [0; MANY],
            classes,
            floors: 0,
            now: 0,
        }
    }

    /// Makes a variable live now, if the mask is not 0. The place that is
    /// written does not wait for the mask.
    #[inline(always)]
    fn read(&mut self, variable: u64, mask: u64) {
        let stamp = &mut self.stamps[(variable & 0xFF) as usize];
        *stamp = (*stamp).max(((self.now + READ) & mask) as u16);
    }
}

impl Live for Stamps {
    #[inline(always)]
    fn keeps(&mut self, effect: usize, first: u8, slot: u64) -> u64 {
        // By effect: the classes that it leaves alone, and those it makes live;
        // the others become dead.
        const ALL: u64 = 0xFFFF_FFFF_FFFF;
        const LOCALS: u64 = 0xFFFF_FFFF;
        const GLOBALS: u64 = 0xFFFF;
        const LEAVES: [u64; 8] = [
            ALL,
            ALL,
            ALL - GLOBALS,
            ALL - GLOBALS,
            0,
            0,
            ALL - LOCALS,
            0,
        ];
        const LIVE: [u64; 8] = [0, 0, 3, 3, EACH * 2 + 1, EACH * 2 + 0x1_0001, 0x3_0003, 0];
        self.now += STEP;
        let floor = (self.floors >> self.classes[first as usize]) as u16;
        let stamp = &mut self.stamps[first as usize];
        let keep = STAYS[effect] | ((*stamp).max(floor) & 1) as u64;
        *stamp = (*stamp & !WRITES[effect] as u16).max((self.now & WRITES[effect]) as u16);
        let (leaves, new) = (LEAVES[effect], self.now * EACH + LIVE[effect]);
        self.floors = self.floors & leaves | new & !leaves;
        let mask = READS[effect] & keep.wrapping_neg();
        self.read(slot, mask);
        self.read(slot >> 8, mask);
        if slot & mask & 1 << 16 != 0 {
            self.read(slot >> 24, mask);
            self.read(slot >> 32, mask);
        }
        keep
    }
}

/// Where an op starts, its first operand, its effect.
type Mark = (u16, u8, Effect);

/// What fold keeps for prune and the writing, with room for so many ops; a
/// scan that only checks has none. `N` is `FEW` or `MANY`.
struct Fold<const ROOM: usize, const N: usize> {
    /// The known values.
    values: [u64; N],
    count: usize,
    marks: [Mark; ROOM],
    /// What the op reads or, if it is folded, its value.
    slots: [u64; ROOM],
}

/// What prune keeps, 64 ops to a word: the ops, those folded, and the length of
/// the result.
struct Plan<const WORDS: usize> {
    kept: [u64; WORDS],
    folded: [u64; WORDS],
    length: usize,
}

/// A variable that is never declared.
const NONE: u64 = 0xFF;

impl<const ROOM: usize, const N: usize> Fold<ROOM, N> {
    /// The slot of an op that reads nothing.
    const NOTHING: u64 = if N == FEW { 0 } else { NONE | NONE << 8 };

    fn new() -> Fold<ROOM, N> {
        Fold {
            values: [0; N],
            count: 0,
            marks: [(0, 0, Effect::Pure); ROOM],
            slots: [0; ROOM],
        }
    }

    /// The slot of an op that reads these: a set of few, or the numbers.
    #[inline(always)]
    fn two(a: u8, b: u8) -> u64 {
        if N == FEW {
            one(a) | one(b)
        } else {
            a as u64 | (b as u64) << 8
        }
    }

    /// The same with two more, above a bit that tells of them.
    #[inline(always)]
    fn two_more(reads: u64, c: u8, d: u8) -> u64 {
        if N == FEW {
            reads | one(c) | one(d)
        } else {
            reads | 1 << 16 | (c as u64) << 24 | (d as u64) << 32
        }
    }

    #[inline(always)]
    fn push(&mut self, place: usize, first: u8, effect: Effect, slot: u64) {
        if ROOM > 0 {
            let position = self.count & (ROOM - 1);
            self.marks[position] = (place as u16, first, effect);
            self.slots[position] = slot;
            self.count += 1;
        }
    }

    /// Folds an op whose inputs are known, if it can be. Not inlined, so that
    /// the scan stays small.
    #[inline(never)]
    fn folds(&mut self, place: usize, row: &Row, record: &[u8]) -> bool {
        if row.effect != Effect::Pure {
            return false;
        }
        let Some(result) = result(record, &self.values) else {
            return false;
        };
        self.values[record[1] as usize & (N - 1)] = result;
        self.push(place, record[1], Effect::Folded, result);
        true
    }

    /// Reads the folded ops backward.
    #[inline(never)]
    fn prune<const WORDS: usize>(&self, mut live: impl Live, scan: &Scan) -> Plan<WORDS> {
        let mut plan = Plan {
            kept: [0; WORDS],
            folded: [0; WORDS],
            length: 3 * scan.variables,
        };
        let mut next = scan.block.len();
        let marks = self.marks[..self.count].chunks(64);
        let slots = self.slots[..self.count].chunks(64);
        for ((marks, slots), word) in marks.zip(slots).zip(0..WORDS).rev() {
            let (mut kept, mut folded) = (0, 0);
            for (&(start, first, effect), &slot) in marks.iter().zip(slots).rev() {
                let effect = effect as usize & 7;
                let keep = live.keeps(effect, first, slot);
                let fold = (effect == Effect::Folded as usize) as u64;
                kept = kept << 1 | keep;
                folded = folded << 1 | fold;
                let bytes = if fold != 0 { 10 } else { next - start as usize };
                plan.length += bytes & (keep as usize).wrapping_neg();
                next = start as usize;
            }
            (plan.kept[word], plan.folded[word]) = (kept, folded);
        }
        plan
    }

    /// Writes the result, if the buffer has room for it.
    fn finish<const WORDS: usize>(&self, plan: &Plan<WORDS>, block: &[u8], out: &mut [u8]) -> u64 {
        if out.len() < plan.length {
            return refused(12, 0);
        }
        self.write(plan, block, out);
        256 * plan.length as u64
    }

    /// Writes the declarations and what is kept, neighbours together.
    #[inline(never)]
    fn write<const WORDS: usize>(&self, plan: &Plan<WORDS>, block: &[u8], out: &mut [u8]) {
        let start = |position: usize| match self.marks[..self.count].get(position) {
            Some(mark) => mark.0 as usize,
            None => block.len(),
        };
        let mut to = start(0);
        out[..to].copy_from_slice(&block[..to]);
        let words = plan.kept.iter().zip(&plan.folded).enumerate();
        for (word, (&kept, &folded)) in words.take(self.count.div_ceil(64)) {
            let mut left = kept;
            while left != 0 {
                let at = left.trailing_zeros();
                let position = 64 * word + at as usize;
                let from = start(position);
                let run = ((kept & !folded) >> at).trailing_ones();
                if run == 0 {
                    let wide = KINDS[block[from] as usize].asked[0] == NOT_WIDE;
                    let movi = &mut out[to..to + 10];
                    movi[0] = if wide { 0x90 } else { 0x10 };
                    movi[1] = block[from + 1];
                    movi[2..].copy_from_slice(&self.slots[position].to_le_bytes());
                    to += 10;
                } else {
                    let end = start(position + run as usize);
                    out[to..to + end - from].copy_from_slice(&block[from..end]);
                    to += end - from;
                }
                left &= !first((at + run.max(1)) as usize);
            }
        }
    }
}

/// Folds and prunes into the buffer: 256 * the result's length, or a refusal.
pub fn pass(block: &[u8], out: &mut [u8]) -> u64 {
    let mut scan = Scan::new(block);
    scan.declarations();
    let scan = &mut scan;
    // An op has at least two bytes; few ops need less room, which is sooner cleared.
    match scan.rest().len() {
        0..=128 if scan.variables <= FEW => pass_few::<64, 1>(scan, out),
        0..=256 if scan.variables <= FEW => pass_few::<128, 2>(scan, out),
        0..=512 if scan.variables <= FEW => pass_few::<256, 4>(scan, out),
        0..=1024 if scan.variables <= FEW => pass_few::<512, 8>(scan, out),
        _ if scan.variables <= FEW => pass_few::<OPS, { OPS / 64 }>(scan, out),
        0..=512 => pass_many::<256, 4>(scan, out),
        _ => pass_many::<OPS, { OPS / 64 }>(scan, out),
    }
}

/// With few variables.
#[inline(never)]
fn pass_few<const ROOM: usize, const WORDS: usize>(scan: &mut Scan, out: &mut [u8]) -> u64 {
    let mut fold = Fold::<ROOM, FEW>::new();
    if let Err(refusal) = scan.all(&mut fold) {
        return refusal;
    }
    let plan: Plan<WORDS> = fold.prune(Bits::new(scan), scan);
    fold.finish(&plan, scan.block, out)
}

/// With many.
#[inline(never)]
fn pass_many<const ROOM: usize, const WORDS: usize>(scan: &mut Scan, out: &mut [u8]) -> u64 {
    let mut fold = Fold::<ROOM, MANY>::new();
    if let Err(refusal) = scan.all(&mut fold) {
        return refusal;
    }
    let plan: Plan<WORDS> = fold.prune(Stamps::new(scan), scan);
    fold.finish(&plan, scan.block, out)
}
