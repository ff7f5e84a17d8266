//! How the limits of request 05 were met in the blocks that were compared, and
//! the sizes at which an implementation may turn to more room.

use crate::blocks::larger::{SOME_BOTH, SOME_BYTES, SOME_OPS};
use crate::blocks::records;
use crate::second::{
    self, one, Block, Ending, Form, Op, Refusal, Set, DECLARATION, LABELS, MOVI, OPS, SHAPES,
    VARIABLES,
};
use std::collections::BTreeMap;

/// The name of the group.
pub const GROUP: &str = "limits and sizes";

/// How often each has to occur.
pub const OFTEN: u64 = 3;

/// The most bytes of an accepted block: its last op is an exit_tb.
const LONGEST: usize = DECLARATION * VARIABLES + MOVI * (OPS - 1) + 2;
/// The most bytes of a result: as many movis as may be live, four brconds and
/// their set_label, an exit_tb.
const LONGEST_RESULT: usize = DECLARATION * VARIABLES + MOVI * (OPS - 6) + 4 * 5 + 2 + 2;
/// Numbers of variables that have to occur.
const SOME_VARIABLES: [usize; 9] = [1, 63, 64, 65, 127, 128, 129, VARIABLES - 1, VARIABLES];
/// Places and positions from here on do not fit in so many bits.
const BITS: [u32; 3] = [8, 12, 13];
/// The first label of each range of labels, and the last label.
const RANGES: [u8; 4] = [0, 32, 64, LABELS as u8 - 1];
const JUMPS: [u8; 3] = [0x03, 0x2A, 0xAA];

/// How often each thing occurred.
#[derive(Default)]
pub struct Counts {
    things: BTreeMap<String, u64>,
    /// In a run: where the last op that was due ends, and its form.
    last: (usize, Option<Form>),
}

impl Counts {
    /// Everything that has to occur, with how often it did.
    pub fn named(&self) -> Vec<(String, u64)> {
        let count = |name: String| {
            let count = self.things.get(&name).copied().unwrap_or(0);
            (name, count)
        };
        needed().into_iter().map(count).collect()
    }

    fn add(&mut self, so: bool, name: impl Fn() -> String) {
        if so {
            *self.things.entry(name()).or_default() += 1;
        }
    }

    /// What an accepted block has.
    pub fn note(&mut self, block: &Block, bytes: &[u8]) {
        let (ops, variables, length) = (block.ops, block.variables, bytes.len());
        self.add(true, || room("accepted", length, ops));
        self.add(SOME_OPS.contains(&ops), || some_ops(ops));
        self.add(SOME_BYTES.contains(&length) || length == LONGEST, || {
            some_bytes(length)
        });
        self.add(SOME_BOTH.contains(&(length, ops)), || both((length, ops)));
        self.add(SOME_VARIABLES.contains(&variables), || {
            some_variables(variables)
        });
        let (mut set, mut jumped) = (Set::NONE, Set::NONE);
        for position in 0..ops {
            let op = block.op(bytes, position);
            match op.shape.form {
                Form::SetLabel => set |= one(op.label()),
                Form::Br | Form::BrCond => jumped |= one(op.label()),
                _ => continue,
            }
            let last = op.label() as usize == LABELS - 1;
            self.add(last, || last_label(op.kind));
        }
        let all = set.count() == LABELS;
        self.add(all, || "all labels set".into());
        self.add(jumped.count() == LABELS, || "all labels jumped to".into());
        let full = ops == OPS && variables == VARIABLES;
        self.add(all && full, || "all three limits".into());
    }

    /// The length of a result.
    pub fn note_result(&mut self, length: usize) {
        self.add(length == LONGEST_RESULT, || result(length));
    }

    /// An op that is due in a run: a label that is jumped to or fallen into.
    pub fn due(&mut self, op: &Op) {
        let (end, form) = self.last;
        self.last = (op.place + 1 + op.body.len(), Some(op.shape.form));
        if op.shape.form == Form::SetLabel {
            let jumped = form == Some(Form::Br) || op.place != end;
            let range = RANGES.into_iter().filter(|&first| first <= op.label());
            let first = range.last().unwrap_or(0);
            self.add(true, || reached(jumped, first));
        }
    }

    /// How a run ends, after so many ops.
    pub fn note_ending(&mut self, ending: Ending, count: u64) {
        let most = count == OPS as u64;
        match ending {
            Ending::Exit { .. } => {
                self.add(most, || "exit after all ops".into());
                self.add(count >= 256, || ended("exit"));
            }
            Ending::Fault { .. } => self.add(count >= 256, || ended("fault")),
            Ending::NoResult { position, .. } => {
                self.add(position >= 256, || ended("no result"));
                self.add(position + 2 == OPS as u64, || "no result at the end".into());
            }
        }
    }

    /// The record that a refused block is refused for.
    pub fn refused(&mut self, refusal: Refusal, bytes: &[u8]) {
        let Refusal { number, place } = refusal;
        if place == bytes.len() {
            return;
        }
        if place + 2 == bytes.len() {
            let ops = 1 + ops_before(bytes, place);
            self.add(true, || room("refused at the end", place + 2, ops));
        }
        let kind = bytes[place];
        for bits in BITS {
            self.add(place >> bits != 0, || far(number, bits));
        }
        let declared = place == DECLARATION * VARIABLES;
        if number == 3 && declared && bytes[place + 2] < 2 {
            self.add(true, || too_many(bytes[place + 1]));
        }
        if number == 6 && matches!(SHAPES[kind as usize].form, Form::SetLabel | Form::Br) {
            self.add(bytes[place + 1] as usize == LABELS, || too_high(kind));
        }
        if number == 6 && SHAPES[kind as usize].form == Form::BrCond {
            let good = bytes[place + 3] < 10;
            let label = bytes[place + 4] as usize;
            self.add(good && label == LABELS, || too_high(kind));
        }
        if number == 9 {
            let also = without_an_op(bytes, place);
            self.add(true, || op_too_many(also));
        } else if number <= 3 && ops_before(bytes, place) == OPS {
            self.add(true, || first_of(number));
        }
    }
}

/// How many ops stand before this place.
fn ops_before(bytes: &[u8], place: usize) -> usize {
    let starts = records(&bytes[..place]);
    starts.iter().filter(|&&start| bytes[start] != 1).count()
}

/// The rule that the record at this place breaks if there is an op less before
/// it, a movi that no temporary waits for; 0 if it breaks none.
fn without_an_op(bytes: &[u8], place: usize) -> u8 {
    let lasts = |start: &usize| {
        let class = bytes[DECLARATION * bytes[*start + 1] as usize + 1];
        SHAPES[bytes[*start] as usize].form == Form::Movi && class != 2
    };
    let Some(movi) = records(&bytes[..place]).into_iter().find(lasts) else {
        return 0;
    };
    let fewer = [&bytes[..movi], &bytes[movi + MOVI..]].concat();
    match second::check(&fewer) {
        Err(refusal) if refusal.place == place - MOVI => refusal.number,
        _ => 0,
    }
}

/// Which of the sizes at which other room may be taken are passed.
fn room(what: &str, bytes: usize, ops: usize) -> String {
    let above = |number: usize, limit: usize| if number > limit { "above" } else { "at most" };
    let (bytes, ops) = (above(bytes, 512), above(ops, 64));
    format!("{what}, {bytes} 512 bytes, {ops} 64 ops")
}

fn some_ops(ops: usize) -> String {
    format!("{ops} ops")
}

fn some_bytes(bytes: usize) -> String {
    format!("{bytes} bytes")
}

fn both((bytes, ops): (usize, usize)) -> String {
    format!("{bytes} bytes and {ops} ops")
}

fn some_variables(variables: usize) -> String {
    format!("{variables} variables")
}

fn last_label(kind: u8) -> String {
    format!("{kind:02X} of the last label")
}

fn result(length: usize) -> String {
    format!("result of {length} bytes")
}

fn reached(jumped: bool, first: u8) -> String {
    let how = if jumped { "jumped to" } else { "fallen into" };
    format!("run, label {how}, {first} or above")
}

fn ended(how: &str) -> String {
    format!("{how} after 256 ops or more")
}

fn far(number: u8, bits: u32) -> String {
    format!("{number} at a place of more than {bits} bits")
}

fn too_many(class: u8) -> String {
    format!("3, a variable of class {class} too many")
}

fn too_high(kind: u8) -> String {
    format!("6, {kind:02X} of a label one too high")
}

fn op_too_many(also: u8) -> String {
    match also {
        0 => "9 alone".into(),
        number => format!("9, and {number} too"),
    }
}

fn first_of(number: u8) -> String {
    format!("{number} where 9 would come")
}

/// Everything that has to occur.
fn needed() -> Vec<String> {
    let mut all = vec![
        result(LONGEST_RESULT),
        some_bytes(LONGEST),
        "all labels set".into(),
        "all labels jumped to".into(),
        "all three limits".into(),
        "exit after all ops".into(),
        "no result at the end".into(),
    ];
    for what in ["accepted", "refused at the end"] {
        for (bytes, ops) in [(512, 64), (512, 65), (513, 64), (513, 65)] {
            all.push(room(what, bytes, ops));
        }
    }
    all.extend(SOME_OPS.map(some_ops));
    all.extend(SOME_BYTES.map(some_bytes));
    all.extend(SOME_BOTH.map(both));
    all.extend(SOME_VARIABLES.map(some_variables));
    all.extend(JUMPS.map(last_label));
    all.extend(JUMPS.map(too_high));
    all.extend([last_label(0x02), too_high(0x02)]);
    all.extend(["exit", "fault", "no result"].map(ended));
    for first in RANGES {
        all.extend([reached(true, first), reached(false, first)]);
    }
    for bits in BITS {
        all.extend((1..=9).map(|number| far(number, bits)));
    }
    all.extend([0, 1, 2].map(too_many));
    all.extend([0, 4, 5, 6, 7, 8].map(op_too_many));
    all.extend([1, 2, 3].map(first_of));
    all
}
