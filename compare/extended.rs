//! What crosses a brcond, or the end of an extended basic block, in the blocks
//! that were compared.

use crate::blocks::records;
use crate::second::{one, set, Block, Form, Op, Plan, Set, LABELS};

/// The name of the group.
pub const GROUP: &str = "extended basic blocks";

/// How often each has to occur: without the blocks of newer front ends half of
/// them do not, since only damage brings them.
pub const OFTEN: u64 = 80;

/// Things that have to occur.
pub const THINGS: [&str; 10] = [
    "temporary read after a brcond",
    "op folded by a global's value known before a brcond",
    "op folded by a local temporary's value known before a brcond",
    "op folded by a temporary's value known before a brcond",
    "op kept before a brcond for its temporary read only after it",
    "op dropped before a brcond, its temporary dead after it",
    "op not folded past a label by a value known before the brcond to it",
    "8, temporary written before the set_label that a brcond jumps to",
    "8, temporary written before a br",
    "8, temporary written before an exit_tb",
];
const READ: usize = 0;
const FOLDED: usize = 1;
const KEPT: usize = 4;
const DROPPED: usize = 5;
const NOT_FOLDED: usize = 6;
const LOST: usize = 7;

/// How often each occurred.
pub type Counts = [u64; THINGS.len()];

/// Counts what an accepted block brings.
pub fn note(counts: &mut Counts, block: &Block, bytes: &[u8], plan: &Plan) {
    reads(counts, block, bytes, plan);
    labels(counts, block, bytes, plan);
    writes(counts, block, bytes, plan);
}

/// Reads of what was last written before a brcond of the same extended basic
/// block; a folded op knows all that it reads.
fn reads(counts: &mut Counts, block: &Block, bytes: &[u8], plan: &Plan) {
    let classes = [block.globals, block.locals, block.temporaries];
    let (mut written, mut before) = (Set::NONE, Set::NONE);
    for position in 0..block.ops {
        let op = block.op(bytes, position);
        let read = before & set(op.inputs());
        counts[READ] += !(read & block.temporaries).is_empty() as u64;
        for (class, variables) in classes.into_iter().enumerate() {
            let folded = plan.folded[position].is_some() && !(read & variables).is_empty();
            counts[FOLDED + class] += folded as u64;
        }
        before &= !set(op.outputs());
        written |= set(op.outputs());
        if op.shape.form == Form::BrCond {
            before = written;
        } else if op.parts_extended_blocks() {
            (written, before) = (Set::NONE, Set::NONE);
        }
    }
}

/// Ops that would be folded if values known at a brcond and at its label were
/// known after the label.
fn labels(counts: &mut Counts, block: &Block, bytes: &[u8], plan: &Plan) {
    let mut at_branch = [Set::NONE; LABELS];
    let (mut known, mut past) = (Set::NONE, Set::NONE);
    for position in 0..block.ops {
        let op = block.op(bytes, position);
        let folded = plan.folded[position].is_some();
        let (inputs, output) = (set(op.inputs()), set(op.outputs()));
        let computes = op.shape.form == Form::Compute && !folded;
        let would = !(inputs & past).is_empty() && (inputs & !(known | past)).is_empty();
        counts[NOT_FOLDED] += (computes && would) as u64;
        known &= !output;
        past &= !output;
        match op.shape.form {
            Form::BrCond => at_branch[op.label() as usize] |= known,
            Form::SetLabel => {
                (known, past) = (Set::NONE, known & at_branch[op.label() as usize]);
            }
            Form::Br | Form::ExitTb => (known, past) = (Set::NONE, Set::NONE),
            Form::Movi => known |= output,
            _ if folded => known |= output,
            _ => {}
        }
    }
}

/// Writes of a temporary that no kept op names up to the next brcond of the
/// same extended basic block.
fn writes(counts: &mut Counts, block: &Block, bytes: &[u8], plan: &Plan) {
    let mut unnamed = Set::NONE;
    for position in (0..block.ops).rev() {
        let op = block.op(bytes, position);
        let temporary = set(op.outputs()) & block.temporaries;
        let concerns = (op.is_pure() && !(temporary & unnamed).is_empty()) as u64;
        if !plan.kept[position] {
            counts[DROPPED] += concerns;
            continue;
        }
        counts[KEPT] += concerns;
        if op.shape.form == Form::BrCond {
            unnamed = block.temporaries;
        } else if op.parts_extended_blocks() {
            unnamed = Set::NONE;
        }
        let folded = plan.folded[position].is_some();
        let inputs = if folded { Set::NONE } else { set(op.inputs()) };
        unnamed &= !(inputs | set(op.outputs()));
    }
}

/// Counts what alone ended the extended basic block in which a temporary was
/// written that refusal 8 is about.
pub fn refused(counts: &mut Counts, bytes: &[u8], place: usize) {
    let (mut declared, mut temporaries) = (0, Set::NONE);
    let (mut written, mut jumped) = (Set::NONE, Set::NONE);
    // What was written in the extended basic block before, by its end.
    let mut lost = [Set::NONE; 3];
    for start in records(&bytes[..place]) {
        let op = Op::at(bytes, start);
        match op.shape.form {
            Form::Declaration => {
                if op.body[0] == 2 {
                    temporaries |= one(declared);
                }
                declared += 1;
            }
            Form::BrCond => jumped |= one(op.label()),
            Form::SetLabel if !jumped.has(op.label()) => lost = [Set::NONE; 3],
            Form::SetLabel => lost = [written, Set::NONE, Set::NONE],
            Form::Br => lost = [Set::NONE, written, Set::NONE],
            Form::ExitTb => lost = [Set::NONE, Set::NONE, written],
            _ => {}
        }
        written |= set(op.outputs());
        if op.parts_extended_blocks() {
            written = Set::NONE;
        }
    }
    let read = set(Op::at(bytes, place).inputs()) & temporaries & !written;
    for (count, variables) in counts[LOST..].iter_mut().zip(lost) {
        *count += !(read & variables).is_empty() as u64;
    }
}
