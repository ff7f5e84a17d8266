//! What bit fields, swaps and counts came to in the blocks that were compared.

use crate::second::{result, set, Block, Form, Op, Plan, Refusal, Set, IZ, OS, OZ, VARIABLES};
use std::collections::BTreeMap;

/// The name of the group.
pub const GROUP: &str = "bit fields, swaps and counts";

/// How often each has to occur: without the blocks whose constants are made on
/// both sides of their limits some of the refusals do not.
pub const OFTEN: u64 = 10;

const FIELDS: &[u8] = &[0x2D, 0x2E, 0x2F, 0xAD, 0xAE, 0xAF];
const DEPOSITS: &[u8] = &[0x2D, 0xAD];
const SEXTRACTS: &[u8] = &[0x2F, 0xAF];
const EXTRACT2S: &[u8] = &[0x30, 0xB0];
const SWAPS: &[u8] = &[0x31, 0x32, 0xB1, 0xB2, 0xB3];
/// The swaps of less than the width, which carry OZ or OS; and the others.
const PARTS: &[u8] = &[0x31, 0xB1, 0xB2];
const WHOLES: &[u8] = &[0x32, 0xB3];
const COUNTS: &[u8] = &[0x34, 0x35, 0xB4, 0xB5];
/// Those with two inputs.
const PAIRS: &[u8] = &[0x2D, 0x30, 0x34, 0x35, 0xAD, 0xB0, 0xB4, 0xB5];

/// Things that have to occur, each with the kinds of which it has to.
const THINGS: [(&str, &[u8]); 38] = [
    ("run, length 1", FIELDS),
    ("run, whole width", FIELDS),
    ("run, ends at the width", FIELDS),
    ("run, ends below the width", FIELDS),
    ("run, more in t2 than in the field", DEPOSITS),
    ("run, sign bit set", SEXTRACTS),
    ("run, sign bit clear", SEXTRACTS),
    ("run, position 0", EXTRACT2S),
    ("run, position between", EXTRACT2S),
    ("run, position the width", EXTRACT2S),
    ("run, IZ and zero-extended", PARTS),
    ("run, IZ and no result", PARTS),
    ("run, no IZ and not zero-extended", PARTS),
    ("run, OZ and sign bit set", PARTS),
    ("run, OS and sign bit set", PARTS),
    ("run, OS and sign bit clear", PARTS),
    ("run, of zero", COUNTS),
    ("run, of another", COUNTS),
    ("folded, IZ", PARTS),
    ("not folded, IZ and known", PARTS),
    ("folded, of zero", COUNTS),
    ("folded, of another", COUNTS),
    ("not folded, t1 known", PAIRS),
    ("not folded, t2 known", PAIRS),
    ("not folded, t1 known and not zero", COUNTS),
    ("not folded, position 0 and t1 known", EXTRACT2S),
    ("not folded, whole width and t2 known", DEPOSITS),
    ("refused, length 0", FIELDS),
    ("refused, one bit above the width", FIELDS),
    ("refused, within the width in a byte", FIELDS),
    ("refused, position one above the width", EXTRACT2S),
    ("refused, neither OZ nor OS", PARTS),
    ("refused, both OZ and OS", PARTS),
    ("refused, IZ", WHOLES),
    ("refused, OZ", WHOLES),
    ("refused, OS", WHOLES),
    ("refused, a high flag", SWAPS),
    ("refused, no such kind", &[0x33]),
];

/// How often each occurred, by kind.
#[derive(Default)]
pub struct Counts(BTreeMap<(&'static str, u8), u64>);

impl Counts {
    /// Each thing of each of its kinds, with how often it occurred.
    pub fn named(&self) -> Vec<(String, u64)> {
        let mut all = vec![];
        for (thing, kinds) in THINGS {
            for &kind in kinds {
                let count = self.0.get(&(thing, kind)).copied().unwrap_or(0);
                all.push((format!("{kind:02X} {thing}"), count));
            }
        }
        all
    }

    /// Counts those of these things that are so.
    fn add(&mut self, kind: u8, things: &[(&'static str, bool)]) {
        for &(thing, so) in things {
            if so {
                *self.0.entry((thing, kind)).or_default() += 1;
            }
        }
    }

    /// An op that is due in a run, with its inputs' values.
    pub fn due(&mut self, op: &Op, now: [u64; 4]) {
        match op.narrow_kind() {
            0x2D..=0x2F => self.due_field(op, now),
            0x30 if now[0] != now[1] => self.due_extract2(op),
            0x31..=0x33 => self.due_swap(op, now),
            0x34 | 0x35 => {
                let zero = now[0] == 0;
                let other = now[1] != op.width() as u64;
                self.add(
                    op.kind,
                    &[("run, of zero", zero && other), ("run, of another", !zero)],
                );
            }
            _ => {}
        }
    }

    fn due_field(&mut self, op: &Op, [t1, t2, ..]: [u64; 4]) {
        let ((position, length), width) = (op.field(), op.width());
        let end = position + length;
        let whole = length == width;
        let sign = t1 >> (end - 1) & 1 != 0;
        self.add(
            op.kind,
            &[
                ("run, length 1", length == 1),
                ("run, whole width", whole),
                ("run, ends at the width", !whole && end == width),
                ("run, ends below the width", end < width),
                (
                    "run, more in t2 than in the field",
                    !whole && t2 >> length != 0,
                ),
                ("run, sign bit set", sign),
                ("run, sign bit clear", !sign),
            ],
        );
    }

    fn due_extract2(&mut self, op: &Op) {
        let (position, width) = (op.constants()[0] as u32, op.width());
        self.add(
            op.kind,
            &[
                ("run, position 0", position == 0),
                ("run, position between", 0 < position && position < width),
                ("run, position the width", position == width),
            ],
        );
    }

    fn due_swap(&mut self, op: &Op, now: [u64; 4]) {
        let (flags, bits) = (op.constants()[0], op.swapped());
        let stated = result(op, now).is_some();
        let extended = bits == 64 || now[0] >> bits == 0;
        // The low byte becomes the highest one.
        let sign = now[0] & 0x80 != 0;
        let has = |flag: u8| flags & flag != 0;
        self.add(
            op.kind,
            &[
                ("run, IZ and zero-extended", has(IZ) && stated),
                ("run, IZ and no result", has(IZ) && !stated),
                ("run, no IZ and not zero-extended", !has(IZ) && !extended),
                ("run, OZ and sign bit set", has(OZ) && stated && sign),
                ("run, OS and sign bit set", has(OS) && stated && sign),
                ("run, OS and sign bit clear", has(OS) && stated && !sign),
            ],
        );
    }

    /// What fold does in an accepted block.
    pub fn note(&mut self, block: &Block, bytes: &[u8], plan: &Plan) {
        let mut known = Set::NONE;
        let mut values = [0; VARIABLES];
        for position in 0..block.ops {
            let op = block.op(bytes, position);
            let folded = plan.folded[position];
            if op.narrow_kind() >= 0x2D {
                self.note_op(&op, folded.is_some(), known, &values);
            }
            known &= !set(op.outputs());
            let movi = op.shape.form == Form::Movi;
            if let Some(value) = if movi { Some(op.value()) } else { folded } {
                known |= set(op.outputs());
                values[op.body[0] as usize] = value;
            }
            if op.parts_extended_blocks() {
                known = Set::NONE;
            }
        }
    }

    /// An op that fold meets with these values known.
    fn note_op(&mut self, op: &Op, folded: bool, known: Set, values: &[u64; VARIABLES]) {
        let knows = |i: usize| op.inputs().get(i).is_some_and(|&v| known.has(v));
        let (t1, t2) = (knows(0), knows(1));
        let zero = t1 && values[op.inputs()[0] as usize] == 0;
        let iz = PARTS.contains(&op.kind) && op.constants()[0] & IZ != 0;
        let first = EXTRACT2S.contains(&op.kind) && op.constants()[0] == 0;
        let whole = DEPOSITS.contains(&op.kind) && op.field() == (0, op.width());
        self.add(
            op.kind,
            &[
                ("folded, IZ", folded && iz),
                ("not folded, IZ and known", !folded && iz && t1),
                ("folded, of zero", folded && zero),
                ("folded, of another", folded && !zero),
                ("not folded, t1 known", t1 && !t2),
                ("not folded, t2 known", t2 && !t1),
                ("not folded, t1 known and not zero", t1 && !zero && !t2),
                ("not folded, position 0 and t1 known", first && t1 && !t2),
                ("not folded, whole width and t2 known", whole && t2 && !t1),
            ],
        );
    }

    /// The record that a refused block is refused for.
    pub fn refused(&mut self, refusal: Refusal, bytes: &[u8]) {
        let Some(&kind) = bytes.get(refusal.place) else {
            return;
        };
        match (refusal.number, kind & 0x7F) {
            (2, _) => self.add(kind, &[("refused, no such kind", true)]),
            (6, 0x2D..=0x2F) => self.refused_field(&Op::at(bytes, refusal.place)),
            (6, 0x30) => {
                let op = Op::at(bytes, refusal.place);
                let above = op.constants()[0] as u32 == op.width() + 1;
                self.add(kind, &[("refused, position one above the width", above)]);
            }
            (6, 0x31..=0x33) => self.refused_swap(&Op::at(bytes, refusal.place)),
            _ => {}
        }
    }

    fn refused_field(&mut self, op: &Op) {
        let (position, length) = op.field();
        let end = position + length;
        let above = length > 0 && end == op.width() + 1;
        let in_a_byte = length > 0 && end > 255 && end % 256 <= op.width();
        self.add(
            op.kind,
            &[
                ("refused, length 0", length == 0),
                ("refused, one bit above the width", above),
                ("refused, within the width in a byte", in_a_byte),
            ],
        );
    }

    fn refused_swap(&mut self, op: &Op) {
        let flags = op.constants()[0];
        let fine = if PARTS.contains(&op.kind) {
            [OZ, OS].contains(&(flags & (OZ | OS)))
        } else {
            flags & 7 == 0
        };
        self.add(
            op.kind,
            &[
                ("refused, neither OZ nor OS", flags & !IZ == 0),
                ("refused, both OZ and OS", flags & !IZ == OZ | OS),
                ("refused, IZ", flags == IZ),
                ("refused, OZ", flags == OZ),
                ("refused, OS", flags == OS),
                ("refused, a high flag", fine && flags >= 8),
            ],
        );
    }
}
