//! What loads and stores came to in the blocks that were compared, with bit 4
//! of their flags and without.

use crate::second::{reach, size, Op, Reason, Refusal, ALIGNED, SIGNED};

/// The name of the group.
pub const GROUP: &str = "aligned accesses";

/// How often each has to occur: without the blocks whose flags are made on both
/// sides of their limits some of the refusals do not.
pub const OFTEN: u64 = 5;

/// qemu_ld and qemu_st, of 32 and of 64 bits.
const KINDS: [u8; 4] = [0x2B, 0x2C, 0xAB, 0xAC];
/// How many sizes an access may have.
const SIZES: usize = 4;
/// Flags below this have none of bits 5 to 7.
pub const FLAGS: u8 = 32;

/// Whether the kind may have these flags, which are below `FLAGS`.
pub fn may_have(kind: u8, flags: u8) -> bool {
    let fits = kind >= 0x80 || size(flags) < 8;
    fits && (kind & 1 == 1 || flags & SIGNED == 0)
}

/// An access that is due in a run, and what becomes of it.
struct Access {
    flags: u8,
    address: u64,
    /// The memory's length.
    length: usize,
    fault: Option<Reason>,
}

impl Access {
    fn new(op: &Op, now: [u64; 4], length: usize) -> Access {
        let (flags, address) = (op.constants()[0], op.address(now));
        Access {
            flags,
            address,
            length,
            fault: reach(length, address, flags).err(),
        }
    }

    /// Bit 4 is set, and this becomes of it.
    fn bit_4(&self, fault: Option<Reason>) -> bool {
        self.flags & ALIGNED != 0 && self.fault == fault
    }

    /// The same without bit 4.
    fn plain(&self, fault: Option<Reason>) -> bool {
        self.flags & ALIGNED == 0 && self.fault == fault
    }

    /// How far the address is above a multiple of so many times the size.
    fn above(&self, sizes: u64) -> u64 {
        self.address % (sizes * size(self.flags))
    }

    /// Where the access ends, as a whole number.
    fn end(&self) -> u128 {
        self.address as u128 + size(self.flags) as u128
    }

    /// Whether it ends so many bytes after the memory.
    fn past(&self, bytes: u128) -> bool {
        self.end() == self.length as u128 + bytes
    }

    fn outside(&self) -> bool {
        self.end() > self.length as u128
    }

    /// Whether it ends after the last of all addresses.
    fn wraps(&self) -> bool {
        self.end() > 1 << 64
    }
}

const BOUNDS: Option<Reason> = Some(Reason::Bounds);
const ALIGNMENT: Option<Reason> = Some(Reason::Alignment);

/// Something that has to occur in a run at every size from this one on.
type Thing = (&'static str, u64, fn(&Access) -> bool);

const THINGS: [Thing; 14] = [
    ("bit 4, ends at the memory's end", 1, |a| {
        a.bit_4(None) && a.past(0)
    }),
    ("bit 4, served, no multiple of twice the size", 1, |a| {
        a.bit_4(None) && a.above(2) != 0
    }),
    ("bit 4, bounds, ends one byte after the memory", 1, |a| {
        a.bit_4(BOUNDS) && a.past(1)
    }),
    ("bit 4, bounds, ends at 2^64", 1, |a| {
        a.bit_4(BOUNDS) && a.end() == 1 << 64
    }),
    ("bit 4, bounds, empty memory", 1, |a| {
        a.bit_4(BOUNDS) && a.length == 0
    }),
    ("bit 4, alignment, inside", 2, |a| {
        a.bit_4(ALIGNMENT) && !a.outside()
    }),
    ("bit 4, alignment, a multiple of half the size", 2, |a| {
        a.bit_4(ALIGNMENT) && 2 * a.above(1) == size(a.flags)
    }),
    ("bit 4, alignment, outside too", 2, |a| {
        a.bit_4(ALIGNMENT) && a.outside()
    }),
    ("bit 4, alignment, starts inside and ends outside", 2, |a| {
        a.bit_4(ALIGNMENT) && a.outside() && a.address < a.length as u64
    }),
    ("bit 4, alignment, ends after 2^64", 2, |a| {
        a.bit_4(ALIGNMENT) && a.wraps()
    }),
    ("bit 4, alignment, empty memory", 2, |a| {
        a.bit_4(ALIGNMENT) && a.length == 0
    }),
    ("no bit 4, served, unaligned", 2, |a| {
        a.plain(None) && a.above(1) != 0
    }),
    ("no bit 4, bounds, unaligned", 2, |a| {
        a.plain(BOUNDS) && a.above(1) != 0
    }),
    ("no bit 4, bounds, ends after 2^64", 2, |a| {
        a.plain(BOUNDS) && a.wraps()
    }),
];

/// How often each occurred; a kind counts by its place among `KINDS`.
pub struct Counts {
    /// By thing, kind and size.
    things: [[[u64; SIZES]; KINDS.len()]; THINGS.len()],
    /// By kind and flags.
    served: [[u64; FLAGS as usize]; KINDS.len()],
    refused: [[u64; 256]; KINDS.len()],
}

impl Counts {
    pub fn new() -> Counts {
        Counts {
            things: [[[0; SIZES]; KINDS.len()]; THINGS.len()],
            served: [[0; FLAGS as usize]; KINDS.len()],
            refused: [[0; 256]; KINDS.len()],
        }
    }

    /// An op that is due in a run, with its inputs' values and the memory's
    /// length.
    pub fn due(&mut self, op: &Op, now: [u64; 4], length: usize) {
        let Some(kind) = place(op.kind) else {
            return;
        };
        let access = Access::new(op, now, length);
        self.served[kind][access.flags as usize] += access.fault.is_none() as u64;
        for (counts, (_, _, so)) in self.things.iter_mut().zip(THINGS) {
            counts[kind][(access.flags & 3) as usize] += so(&access) as u64;
        }
    }

    /// The record that a refused block is refused for.
    pub fn refused(&mut self, refusal: Refusal, bytes: &[u8]) {
        let kind = bytes.get(refusal.place).and_then(|&kind| place(kind));
        if let (6, Some(kind)) = (refusal.number, kind) {
            let flags = Op::at(bytes, refusal.place).constants()[0];
            self.refused[kind][flags as usize] += 1;
        }
    }

    /// Everything that has to occur, with how often it did.
    pub fn named(&self) -> Vec<(String, u64)> {
        let mut all = vec![];
        for (i, kind) in KINDS.into_iter().enumerate() {
            all.extend(self.named_things(i, kind));
            for flags in 0..FLAGS {
                let (what, counts) = if may_have(kind, flags) {
                    ("served", &self.served[i][..])
                } else {
                    ("refused", &self.refused[i][..])
                };
                let name = format!("{kind:02X} flags {flags:02X} {what}");
                all.push((name, counts[flags as usize]));
            }
            all.extend(self.named_high(i, kind));
        }
        all
    }

    fn named_things(&self, i: usize, kind: u8) -> Vec<(String, u64)> {
        let mut all = vec![];
        for (counts, (thing, least, _)) in self.things.iter().zip(THINGS) {
            let needed = |flags: &u8| size(*flags) >= least && may_have(kind, *flags);
            for flags in (0..SIZES as u8).filter(needed) {
                let name = format!("{kind:02X} size {}: {thing}", size(flags));
                all.push((name, counts[i][flags as usize]));
            }
        }
        all
    }

    /// Flags of which only one of bits 5 to 7 is wrong.
    fn named_high(&self, i: usize, kind: u8) -> Vec<(String, u64)> {
        let mut all = vec![];
        for high in [0x20, 0x40, 0x80] {
            for first in [high, high | ALIGNED] {
                let lows = (0..16).filter(|&low| may_have(kind, low));
                let count = lows.map(|low| self.refused[i][(first | low) as usize]);
                let name = format!("{kind:02X} flags {first:02X} to {:02X} refused", first | 15);
                all.push((name, count.sum()));
            }
        }
        all
    }
}

/// The place of a load or store among `KINDS`.
fn place(kind: u8) -> Option<usize> {
    KINDS.iter().position(|&access| access == kind)
}
