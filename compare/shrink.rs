//! Makes a case on which something differs as small as it can.

use crate::blocks::records;
use crate::cases::Case;
use crate::second::{DECLARATION, LABELS, SHAPES, VARIABLES};

/// How many bytes of smaller blocks are tried at most, with 64 for each block.
const EFFORT: usize = 6_000_000;

pub struct Shrinker<'a> {
    case: Case,
    differs: &'a dyn Fn(&Case) -> bool,
    effort: usize,
    /// Whether this round made the case smaller.
    smaller: bool,
}

/// The smallest case found that still differs.
pub fn smallest(case: Case, differs: &dyn Fn(&Case) -> bool) -> Case {
    let mut shrinker = Shrinker {
        case,
        differs,
        effort: 0,
        smaller: true,
    };
    while shrinker.smaller && shrinker.effort < EFFORT {
        shrinker.smaller = false;
        shrinker.drop_records();
        shrinker.drop_variables();
        shrinker.drop_bytes();
        shrinker.lower_labels();
        shrinker.lower_addresses();
        shrinker.lower_bytes();
        shrinker.shrink_globals();
        shrinker.shrink_memory();
    }
    shrinker.case
}

impl Shrinker<'_> {
    /// Takes the smaller case if it still differs.
    fn take(&mut self, smaller: Case) -> bool {
        self.effort += 64 + smaller.block.len();
        let taken = self.effort <= EFFORT && (self.differs)(&smaller);
        if taken {
            self.case = smaller;
            self.smaller = true;
        }
        taken
    }

    fn take_block(&mut self, block: Vec<u8>) -> bool {
        let smaller = Case {
            block,
            ..self.case.clone()
        };
        self.take(smaller)
    }

    /// Drops runs of records, long ones first.
    fn drop_records(&mut self) {
        let mut run = records(&self.case.block).len();
        while run > 0 {
            let mut first = 0;
            loop {
                let starts = records(&self.case.block);
                if first >= starts.len() {
                    break;
                }
                let end = starts
                    .get(first + run)
                    .copied()
                    .unwrap_or(self.case.block.len());
                let mut block = self.case.block.clone();
                block.drain(starts[first]..end);
                if !self.take_block(block) {
                    first += run;
                }
            }
            run /= 2;
        }
    }

    /// Drops a variable that no op names, with its lent value.
    fn drop_variables(&mut self) {
        for variable in (0..VARIABLES).rev() {
            if let Some(smaller) = without(&self.case, variable) {
                self.take(smaller);
            }
        }
    }

    /// Drops runs of bytes, long ones first.
    fn drop_bytes(&mut self) {
        let mut run = self.case.block.len() / 2;
        while run > 0 {
            let mut first = 0;
            while first < self.case.block.len() {
                let mut block = self.case.block.clone();
                block.drain(first..(first + run).min(block.len()));
                if !self.take_block(block) {
                    first += run;
                }
            }
            run /= 2;
        }
    }

    /// Gives a label a lower number wherever it stands.
    fn lower_labels(&mut self) {
        for label in 1..LABELS as u8 {
            for lower in 0..label {
                let mut block = self.case.block.clone();
                if !relabel(&mut block, label, lower) || self.take_block(block) {
                    break;
                }
            }
        }
    }

    /// Shortens the memory and lowers a movi by as much, for an address at its end.
    fn lower_addresses(&mut self) {
        for start in records(&self.case.block) {
            let mut less = self.case.memory.len();
            while less > 0 {
                let mut smaller = self.case.clone();
                smaller.memory.drain(..less);
                if !lower_movi(&mut smaller.block, start, less as u64) || !self.take(smaller) {
                    less /= 2;
                }
                less = less.min(self.case.memory.len());
            }
        }
    }

    fn lower_bytes(&mut self) {
        let mut place = 0;
        while place < self.case.block.len() && self.effort < EFFORT {
            let byte = self.case.block[place];
            for lower in [0, 1, byte / 2, byte.saturating_sub(1)] {
                let mut block = self.case.block.clone();
                block[place] = lower;
                if lower < byte && self.take_block(block) {
                    break;
                }
            }
            place += 1;
        }
    }

    fn shrink_globals(&mut self) {
        for place in (0..self.case.globals.len()).rev() {
            let mut fewer = self.case.clone();
            fewer.globals.remove(place);
            if self.take(fewer) {
                continue;
            }
            let value = self.case.globals[place];
            for lower in [
                0,
                1,
                value / 2,
                value & 0xFFFF_FFFF,
                value & value.wrapping_sub(1),
            ] {
                let mut smaller = self.case.clone();
                smaller.globals[place] = lower;
                if lower < value && self.take(smaller) {
                    break;
                }
            }
        }
    }

    fn shrink_memory(&mut self) {
        let length = self.case.memory.len();
        for shorter in [0, length / 2, length.saturating_sub(1)] {
            let mut smaller = self.case.clone();
            smaller.memory.truncate(shorter);
            if shorter < length && self.take(smaller) {
                return;
            }
        }
        for place in 0..length.min(1000) {
            let mut smaller = self.case.clone();
            smaller.memory[place] = 0;
            if self.case.memory[place] != 0 {
                self.take(smaller);
            }
        }
    }
}

/// Puts one label in place of another; whether there was any.
fn relabel(block: &mut [u8], label: u8, lower: u8) -> bool {
    let mut found = false;
    for start in records(block) {
        let last = start + SHAPES[block[start] as usize].body as usize;
        if matches!(block[start], 0x02 | 0x03 | 0x2A | 0xAA) && block.get(last) == Some(&label) {
            block[last] = lower;
            found = true;
        }
    }
    found
}

/// Lowers the value of the movi that starts here, if it is one.
fn lower_movi(block: &mut [u8], start: usize, less: u64) -> bool {
    let movi = matches!(block.get(start), Some(0x10 | 0x90));
    let Some(bytes) = block.get_mut(start + 2..start + 10) else {
        return false;
    };
    let mut eight = [0; 8];
    eight.copy_from_slice(bytes);
    let value = u64::from_le_bytes(eight);
    if !movi || value < less {
        return false;
    }
    bytes.copy_from_slice(&(value - less).to_le_bytes());
    true
}

/// The case without this variable, if there is one and no op names it.
fn without(case: &Case, variable: usize) -> Option<Case> {
    let mut smaller = case.clone();
    let starts = records(&case.block);
    let declared = starts
        .iter()
        .take_while(|&&start| case.block[start] == 1)
        .count();
    if variable >= declared || DECLARATION * (variable + 1) > case.block.len() {
        return None;
    }
    for &start in &starts[declared..] {
        let shape = &SHAPES[case.block[start] as usize];
        let operands = (shape.outputs + shape.inputs) as usize;
        let end = (start + 1 + operands).min(smaller.block.len());
        for byte in &mut smaller.block[start + 1..end] {
            if *byte as usize == variable {
                return None;
            }
            if *byte as usize > variable {
                *byte -= 1;
            }
        }
    }
    let start = DECLARATION * variable;
    if case.block[start + 1] == 0 && variable < smaller.globals.len() {
        smaller.globals.remove(variable);
    }
    smaller.block.drain(start..start + DECLARATION);
    Some(smaller)
}
