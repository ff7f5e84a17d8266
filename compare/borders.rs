//! What lies on both sides of a border, a set_label, br or exit_tb, in the
//! blocks that were compared. The ops between two borders are a stretch; what
//! they write and make known is lost at its end.

use crate::blocks::records;
use crate::second::{one, set, Block, Form, Op, Plan, Set};
use std::collections::BTreeMap;

/// The name of the group.
pub const GROUP: &str = "borders";

/// How often each has to occur: without the blocks made for it some do not.
pub const OFTEN: u64 = 25;

/// A read of a variable that was last written in an earlier stretch.
const READS: [&str; 2] = ["8", "not folded"];
const REFUSED: usize = 0;
const NOT_FOLDED: usize = 1;

/// What has to occur of each of these.
const LOST: [&str; 21] = [
    "written by the only op of its stretch",
    "by the first op",
    "by the last op",
    "by an op between",
    "by a movi",
    "by another pure op",
    "variable below 64",
    "variable from 64 on",
    "variable from 128 on",
    "before a set_label",
    "before a br",
    "before an exit_tb",
    "stretch of less than 64 ops",
    "stretch of 64 ops or more",
    "stretch of 256 ops or more",
    "several borders one after another",
    "a stretch between",
    "a border at the start",
    "written in two stretches",
    "then the first operand of a store",
    "then the first operand of a brcond",
];

/// What has to occur besides.
const OTHERS: [&str; 10] = [
    "8, by a load",
    "read, a temporary written again after the border",
    "read, a temporary from 64 on written again after the border",
    "read, a temporary from 128 on written again after the border",
    "read, a global that was the first operand of a store",
    "read, a global that was the first operand of a brcond",
    "read, a local temporary that was the first operand of a store",
    "read, a local temporary that was the first operand of a brcond",
    "8, only the variable 64 above or below is written",
    "8, only the variable 128 above or below is written",
];

/// How often each occurred.
#[derive(Default)]
pub struct Counts(BTreeMap<String, u64>);

/// The last write of a variable.
#[derive(Clone, Copy)]
struct Write {
    stretch: usize,
    /// Its position in the stretch.
    position: usize,
    form: Form,
    /// Does fold know the value?
    known: bool,
    /// Was the variable written in an earlier stretch too?
    again: bool,
    /// Was it the first operand of a store, or of a brcond, after that?
    stored: bool,
    branched: bool,
}

/// The ops so far.
struct Walk {
    writes: Vec<Option<Write>>,
    /// The length of each stretch that has ended, and what ended it.
    stretches: Vec<(usize, Form)>,
    /// The length of this stretch so far.
    length: usize,
    /// First operands of stores and of brconds in earlier stretches, and in
    /// this one.
    stored: [Set; 2],
    branched: [Set; 2],
}

impl Walk {
    fn new() -> Walk {
        Walk {
            writes: vec![None; 256],
            stretches: vec![],
            length: 0,
            stored: [Set::NONE; 2],
            branched: [Set::NONE; 2],
        }
    }

    /// The write of this variable, if it was in an earlier stretch.
    fn lost(&self, variable: u8) -> Option<Write> {
        let write = self.writes[variable as usize]?;
        (write.stretch < self.stretches.len()).then_some(write)
    }

    /// Whether this variable is written in this stretch.
    fn written(&self, variable: u8) -> bool {
        let write = self.writes[variable as usize];
        write.is_some_and(|write| write.stretch == self.stretches.len())
    }

    /// One more op; whether fold knows what it writes.
    fn step(&mut self, op: &Op, known: bool) {
        if op.parts_extended_blocks() {
            self.stretches.push((self.length, op.shape.form));
            self.length = 0;
            self.stored[0] |= self.stored[1];
            self.branched[0] |= self.branched[1];
            (self.stored[1], self.branched[1]) = (Set::NONE, Set::NONE);
            return;
        }
        match op.shape.form {
            Form::Store => {
                self.stored[1] |= one(op.body[0]);
                self.mark(op.body[0], |write| write.stored = true);
            }
            Form::BrCond => {
                self.branched[1] |= one(op.body[0]);
                self.mark(op.body[0], |write| write.branched = true);
            }
            form => self.write(op.body[0], form, known),
        }
        self.length += 1;
    }

    /// Marks the write of a variable in this stretch.
    fn mark(&mut self, variable: u8, how: impl Fn(&mut Write)) {
        let stretch = self.stretches.len();
        if let Some(write) = &mut self.writes[variable as usize] {
            if write.stretch == stretch {
                how(write);
            }
        }
    }

    fn write(&mut self, variable: u8, form: Form, known: bool) {
        let stretch = self.stretches.len();
        let before = self.writes[variable as usize];
        let again = before.is_some_and(|write| write.again || write.stretch < stretch);
        self.writes[variable as usize] = Some(Write {
            stretch,
            position: self.length,
            form,
            known,
            again,
            stored: false,
            branched: false,
        });
    }

    /// Which of `LOST` hold of this write.
    fn holds(&self, variable: u8, write: Write) -> [bool; LOST.len()] {
        let (length, end) = self.stretches[write.stretch];
        let only = length == 1;
        let (first, last) = (write.position == 0, write.position + 1 == length);
        let since = &self.stretches[write.stretch + 1..];
        let empty = |(length, _): &(usize, Form)| *length == 0;
        [
            only,
            first && !only,
            last && !only,
            !first && !last,
            write.form == Form::Movi,
            write.form == Form::Compute,
            variable < 64,
            variable >= 64,
            variable >= 128,
            end == Form::SetLabel,
            end == Form::Br,
            end == Form::ExitTb,
            length < 64,
            length >= 64,
            length >= 256,
            !since.is_empty() && since.iter().all(empty),
            !since.iter().all(empty),
            self.stretches[0].0 == 0,
            write.again,
            write.stored,
            write.branched,
        ]
    }
}

impl Counts {
    /// Everything that has to occur, with how often it did.
    pub fn named(&self) -> Vec<(String, u64)> {
        let mut all: Vec<String> = OTHERS.iter().map(|name| name.to_string()).collect();
        for read in READS {
            all.extend(LOST.iter().map(|name| format!("{read}, {name}")));
        }
        let count = |name: String| {
            let count = self.0.get(&name).copied().unwrap_or(0);
            (name, count)
        };
        all.into_iter().map(count).collect()
    }

    fn add(&mut self, so: bool, name: &str) {
        if so {
            *self.0.entry(name.into()).or_default() += 1;
        }
    }

    fn add_lost(&mut self, read: usize, walk: &Walk, variable: u8, write: Write) {
        for (name, so) in LOST.iter().zip(walk.holds(variable, write)) {
            if so {
                *self
                    .0
                    .entry(format!("{}, {name}", READS[read]))
                    .or_default() += 1;
            }
        }
    }

    /// The read that refusal 8 is about.
    pub fn refused(&mut self, bytes: &[u8], place: usize) {
        let mut walk = Walk::new();
        let mut classes = vec![];
        for start in records(&bytes[..place]) {
            let op = Op::at(bytes, start);
            if op.shape.form == Form::Declaration {
                classes.push(op.body[0]);
            } else {
                walk.step(&op, false);
            }
        }
        let op = Op::at(bytes, place);
        let missing = |v: &&u8| classes[**v as usize] == 2 && !walk.written(**v);
        if let Some(&variable) = op.inputs().iter().find(missing) {
            self.add(walk.written(variable ^ 64), OTHERS[8]);
            self.add(walk.written(variable ^ 128), OTHERS[9]);
            if let Some(write) = walk.lost(variable) {
                self.add_lost(REFUSED, &walk, variable, write);
                self.add(write.form == Form::Load, OTHERS[0]);
            }
        }
    }

    /// What an accepted block brings.
    pub fn note(&mut self, block: &Block, bytes: &[u8], plan: &Plan) {
        let mut walk = Walk::new();
        for position in 0..block.ops {
            let op = block.op(bytes, position);
            let folded = plan.folded[position].is_some();
            self.note_reads(block, &walk, &op);
            if op.shape.form == Form::Compute && !folded {
                self.note_fold(&walk, &op);
            }
            walk.step(&op, folded || op.shape.form == Form::Movi);
        }
    }

    /// An op that would be folded if what was known in earlier stretches were
    /// known here.
    fn note_fold(&mut self, walk: &Walk, op: &Op) {
        let known = |v: u8| walk.writes[v as usize].is_some_and(|write| write.known);
        if !op.inputs().iter().all(|&variable| known(variable)) {
            return;
        }
        let lost = |&variable: &u8| Some((variable, walk.lost(variable)?));
        if let Some((variable, write)) = op.inputs().iter().find_map(lost) {
            self.add_lost(NOT_FOLDED, walk, variable, write);
        }
    }

    fn note_reads(&mut self, block: &Block, walk: &Walk, op: &Op) {
        let reads = set(op.inputs());
        let again = |v: &&u8| walk.writes[**v as usize].is_some_and(|write| write.again);
        let temporary = |v: &&u8| block.temporaries.has(**v);
        for &variable in op.inputs().iter().filter(temporary).filter(again) {
            self.add(true, OTHERS[1]);
            self.add(variable >= 64, OTHERS[2]);
            self.add(variable >= 128, OTHERS[3]);
        }
        for (class, first) in [(block.globals, 4), (block.locals, 6)] {
            let stored = reads & class & walk.stored[0];
            let branched = reads & class & walk.branched[0];
            self.add(!stored.is_empty(), OTHERS[first]);
            self.add(!branched.is_empty(), OTHERS[first + 1]);
        }
    }
}
