//! What occurred in the comparison. A default run has to have met all of it.

use crate::aligned::{self, may_have, FLAGS};
use crate::borders;
use crate::calls::Side;
use crate::cases::{passed, Case, RESULT};
use crate::extended::{self, Counts, THINGS};
use crate::fields;
use crate::limits;
use crate::second::{
    self, Block, Ending, Form, Op, Plan, Reason, Refusal, ALIGNED, DECLARATION, MEMORY, OPS, SHAPES,
};

/// Things that have to occur, each with how often it did.
type Things = Vec<(String, u64)>;

/// Single things that have to occur.
const SINGLE: [&str; 10] = [
    "empty block",
    "100,000 bytes or more",
    "longer result",
    "shorter result",
    "memory of 65,536 bytes",
    "empty memory",
    "lent too few or too many globals",
    "32-bit global of 2^32 or more",
    "memory above 65,536 bytes",
    "jumped-to label never set",
];

pub struct Stats {
    refusals: [u64; 13],
    /// Exit, load fault by bounds and by alignment, store fault by these, no
    /// stated result.
    endings: [u64; 6],
    /// By kind: accepted, run, folded, dropped, ended for want of a result.
    accepted: [u64; 256],
    run: [u64; 256],
    folded: [u64; 256],
    dropped: [u64; 256],
    unstated: [u64; 256],
    /// By cond, or flags of a swap, then kind.
    conds: [[u64; 256]; 10],
    swaps: [[u64; 256]; 8],
    /// By reason, then by store, then by flags.
    faults: [[[u64; FLAGS as usize]; 2]; 2],
    /// By class and type: 2 * class + type.
    variables: [u64; 6],
    /// By the number of ops from a jump to its label.
    jumps: [u64; OPS],
    single: [u64; SINGLE.len()],
    extended: Counts,
    fields: fields::Counts,
    aligned: aligned::Counts,
    limits: limits::Counts,
    borders: borders::Counts,
    pub accepted_blocks: u64,
}

impl Stats {
    pub fn new() -> Stats {
        Stats {
            refusals: [0; 13],
            endings: [0; 6],
            accepted: [0; 256],
            run: [0; 256],
            folded: [0; 256],
            dropped: [0; 256],
            unstated: [0; 256],
            conds: [[0; 256]; 10],
            swaps: [[0; 256]; 8],
            faults: [[[0; FLAGS as usize]; 2]; 2],
            variables: [0; 6],
            jumps: [0; OPS],
            single: [0; SINGLE.len()],
            extended: [0; THINGS.len()],
            fields: fields::Counts::default(),
            aligned: aligned::Counts::new(),
            limits: limits::Counts::default(),
            borders: borders::Counts::default(),
            accepted_blocks: 0,
        }
    }

    /// Counts what one case brings, by the second interpreter's readings.
    pub fn note(&mut self, case: &Case) {
        let bytes = &case.block;
        self.single[0] += bytes.is_empty() as u64;
        self.single[1] += (bytes.len() >= 100_000) as u64;
        match second::read(bytes) {
            Err(refusal) => self.refused(refusal, bytes),
            Ok(block) => {
                self.accepted_blocks += 1;
                self.note_block(&block, bytes);
                self.note_plan(&block, bytes, &second::plan(&block, bytes));
                self.note_run(case);
            }
        }
    }

    fn refused(&mut self, refusal: Refusal, bytes: &[u8]) {
        self.refusals[refusal.number as usize] += 1;
        self.single[9] += (refusal.number == 7 && refusal.place == bytes.len()) as u64;
        self.fields.refused(refusal, bytes);
        self.aligned.refused(refusal, bytes);
        self.limits.refused(refusal, bytes);
        if refusal.number == 8 {
            extended::refused(&mut self.extended, bytes, refusal.place);
            self.borders.refused(bytes, refusal.place);
        }
    }

    fn note_block(&mut self, block: &Block, bytes: &[u8]) {
        for declaration in bytes[..DECLARATION * block.variables].chunks(DECLARATION) {
            self.variables[(2 * declaration[1] + declaration[2]) as usize] += 1;
        }
        self.limits.note(block, bytes);
        for position in 0..block.ops {
            let op = block.op(bytes, position);
            self.accepted[op.kind as usize] += 1;
            let constants = op.constants();
            match op.narrow_kind() {
                0x28..=0x2A => self.conds[constants[0] as usize][op.kind as usize] += 1,
                0x31..=0x33 => self.swaps[constants[0] as usize][op.kind as usize] += 1,
                _ => {}
            }
            if matches!(op.shape.form, Form::Br | Form::BrCond) {
                self.jumps[block.target(&op) - position] += 1;
            }
        }
    }

    fn note_plan(&mut self, block: &Block, bytes: &[u8], plan: &Plan) {
        extended::note(&mut self.extended, block, bytes, plan);
        self.fields.note(block, bytes, plan);
        self.borders.note(block, bytes, plan);
        for position in 0..block.ops {
            let kind = block.op(bytes, position).kind as usize;
            self.folded[kind] += plan.folded[position].is_some() as u64;
            self.dropped[kind] += !plan.kept[position] as u64;
        }
        let result = passed(Side::Second, bytes, RESULT)
            .result()
            .map_or(0, <[u8]>::len);
        self.limits.note_result(result);
        self.single[2] += (result > bytes.len()) as u64;
        self.single[3] += (result < bytes.len()) as u64;
        let little = passed(Side::Second, bytes, result - 1).answer;
        self.refusals[(little % 256) as usize] += 1;
    }

    /// The run's ending; the ops on its path as far as the first branch.
    pub fn note_run(&mut self, case: &Case) {
        let (mut globals, mut memory) = (case.globals.clone(), case.memory.clone());
        let length = memory.len();
        let see = |op: &Op, now| {
            self.fields.due(op, now);
            self.aligned.due(op, now, length);
            self.limits.due(op);
        };
        let ending = second::watched(&case.block, &mut globals, &mut memory, see);
        let Ok(block) = second::read(&case.block) else {
            return;
        };
        let Ok(ending) = ending else {
            return self.misfit(&block, case);
        };
        self.single[4] += (memory.len() == MEMORY) as u64;
        self.single[5] += memory.is_empty() as u64;
        let kind = |position: u64| block.op(&case.block, position as usize).kind as usize;
        let count = match ending {
            Ending::Exit { count, .. } => count,
            Ending::Fault { count, .. } => count,
            Ending::NoResult { count, .. } => count,
        };
        for position in 0..count {
            self.run[kind(position)] += 1;
            if matches!(SHAPES[kind(position)].form, Form::Br | Form::BrCond) {
                break;
            }
        }
        self.note_ending(ending, kind);
        self.limits.note_ending(ending, count);
    }

    fn note_ending(&mut self, ending: Ending, kind: impl Fn(u64) -> usize) {
        match ending {
            Ending::Exit { .. } => self.endings[0] += 1,
            Ending::Fault {
                store,
                flags,
                reason,
                ..
            } => {
                let (store, reason) = (store as usize, reason as usize);
                self.endings[1 + 2 * store + reason] += 1;
                self.faults[reason][store][flags as usize] += 1;
            }
            Ending::NoResult { position, .. } => {
                self.endings[5] += 1;
                self.unstated[kind(position)] += 1;
            }
        }
    }

    fn misfit(&mut self, block: &Block, case: &Case) {
        self.refusals[11] += 1;
        if case.memory.len() > MEMORY {
            self.single[8] += 1;
        } else if case.globals.len() != block.lent() {
            self.single[6] += 1;
        } else {
            self.single[7] += 1;
        }
    }

    /// Every group: its name, and each thing in it with how often it occurred.
    fn groups(&self) -> Vec<(&'static str, Things)> {
        let ops = |kind: usize| !matches!(SHAPES[kind].form, Form::Unknown | Form::Declaration);
        let folds = |kind: usize| SHAPES[kind].form == Form::Compute;
        let pure = |kind: usize| matches!(SHAPES[kind].form, Form::Compute | Form::Movi);
        // Divisions, shifts and rotates, and the swaps that may have IZ.
        let may_lack = |kind: usize| matches!(kind & 0x7F, 0x1F..=0x27 | 0x31) || kind == 0xB2;
        let unstated = by_kind(&self.unstated, |kind| folds(kind) && may_lack(kind));
        let named = |(name, count): (&&str, u64)| (name.to_string(), count);
        let single = SINGLE.iter().zip(self.single).map(named).collect();
        let crossing = THINGS.iter().zip(self.extended).map(named).collect();
        vec![
            ("refusals", numbered(&self.refusals, 1)),
            ("endings", numbered(&self.endings, 0)),
            ("kinds accepted", by_kind(&self.accepted, ops)),
            ("kinds run", by_kind(&self.run, ops)),
            ("kinds folded", by_kind(&self.folded, folds)),
            ("kinds dropped", by_kind(&self.dropped, pure)),
            ("kinds without a result", unstated),
            ("conds by kind", self.cond_counts()),
            ("swap flags by kind", self.swap_counts()),
            ("faults by reason and flags", self.fault_counts()),
            ("classes and types", numbered(&self.variables, 0)),
            ("jump lengths", numbered(&self.jumps[..OPS - 1], 1)),
            (extended::GROUP, crossing),
            (fields::GROUP, self.fields.named()),
            (aligned::GROUP, self.aligned.named()),
            (limits::GROUP, self.limits.named()),
            (borders::GROUP, self.borders.named()),
            ("single things", single),
        ]
    }

    /// The conds of setcond, movcond and brcond.
    fn cond_counts(&self) -> Things {
        let mut all = vec![];
        for (cond, counts) in self.conds.iter().enumerate() {
            for kind in [0x28, 0x29, 0x2A, 0xA8, 0xA9, 0xAA] {
                all.push((format!("{kind:02X} cond {cond}"), counts[kind]));
            }
        }
        all
    }

    /// The flags with which a load and a store may fault for each reason.
    fn fault_counts(&self) -> Things {
        let mut all = vec![];
        for (name, kind, store) in [("load", 0xAB, 0), ("store", 0xAC, 1)] {
            for flags in (0..FLAGS).filter(|&flags| may_have(kind, flags)) {
                let count = |reason: Reason| self.faults[reason as usize][store][flags as usize];
                let fault = format!("{name} flags {flags:02X}");
                all.push((format!("{fault}, bounds"), count(Reason::Bounds)));
                if flags & ALIGNED != 0 && second::size(flags) > 1 {
                    all.push((format!("{fault}, alignment"), count(Reason::Alignment)));
                }
            }
        }
        all
    }

    /// The flags that each swap may have.
    fn swap_counts(&self) -> Things {
        let mut all = vec![];
        for kind in [0x31, 0xB1, 0xB2] {
            for flags in 2..=5 {
                all.push((format!("{kind:02X} flags {flags}"), self.swaps[flags][kind]));
            }
        }
        for kind in [0x32, 0xB3] {
            all.push((format!("{kind:02X} flags 0"), self.swaps[0][kind]));
        }
        all
    }

    /// Prints a line for each group; the things that occurred too seldom.
    pub fn report(&self) -> Vec<String> {
        let mut missing = vec![];
        for (name, things) in self.groups() {
            let needed = match name {
                extended::GROUP => extended::OFTEN,
                fields::GROUP => fields::OFTEN,
                aligned::GROUP => aligned::OFTEN,
                limits::GROUP => limits::OFTEN,
                borders::GROUP => borders::OFTEN,
                _ => 1,
            };
            let seen = things.iter().filter(|(_, n)| *n >= needed).count();
            let (least, count) = things
                .iter()
                .min_by_key(|(_, count)| *count)
                .cloned()
                .unwrap_or_default();
            println!(
                "{name}: {seen} of {}, least often {least} ({count} times)",
                things.len()
            );
            missing.extend(
                things
                    .iter()
                    .filter(|(_, n)| *n < needed)
                    .map(|(thing, _)| format!("{name}: {thing}")),
            );
        }
        missing
    }
}

/// The counts of those kinds that have to occur.
fn by_kind(counts: &[u64; 256], needed: impl Fn(usize) -> bool) -> Things {
    let named = |kind: usize| (format!("{kind:02X}"), counts[kind]);
    (0..256).filter(|&kind| needed(kind)).map(named).collect()
}

/// All counts from this number on.
fn numbered(counts: &[u64], from: usize) -> Things {
    let named = |(i, &count): (usize, &u64)| (i.to_string(), count);
    counts.iter().enumerate().skip(from).map(named).collect()
}
