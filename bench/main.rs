//! Times the proved calls beside plain Rust written for speed, set by set,
//! after holding both to the same answers.

#[allow(dead_code)]
#[path = "../compare/blocks.rs"]
mod blocks;
#[path = "../compare/calls.rs"]
mod calls;
#[allow(dead_code)]
#[path = "../compare/cases.rs"]
mod cases;
#[path = "../compare/demand.rs"]
mod demand;
mod plain;
mod same;
#[allow(dead_code)]
#[path = "../compare/second.rs"]
mod second;
mod sets;
mod sides;

use cases::{Case, RESULT};
use second::{Form, SHAPES};
use sets::Set;
use sides::{Calls, LIBRARY, PLAIN};
use std::hint::black_box;
use std::process::ExitCode;

/// The median of so many rounds, each of at least so many nanoseconds.
const ROUNDS: usize = 9;
const ROUND: f64 = 20e6;
/// The other blocks on which the answers are compared.
const SEED: u64 = 2;
const OTHERS: u64 = 100_000;

extern "C" {
    /// The C library's.
    fn clock_gettime(clock: i32, time: *mut [i64; 2]) -> i32;
}

/// The thread's processor time in nanoseconds, so that other work on the
/// machine counts little.
fn now() -> f64 {
    let mut t = [0; 2];
    // SAFETY: on 64-bit Linux a timespec is two 64-bit numbers; 3 is
    // CLOCK_THREAD_CPUTIME_ID.
    let failed = unsafe { clock_gettime(3, &mut t) };
    assert_eq!(failed, 0, "no processor clock");
    t[0] as f64 * 1e9 + t[1] as f64
}

/// The known kinds that no block of these sets has.
fn kinds_left_out(sets: &[Set], names: [&str; 2]) -> Vec<u8> {
    let mut seen = [false; 256];
    let named = |set: &&Set| names.contains(&set.name);
    for case in sets.iter().filter(named).flat_map(|set| &set.cases) {
        for place in blocks::records(&case.block) {
            seen[case.block[place] as usize] = true;
        }
    }
    (0..=255)
        .filter(|&kind| SHAPES[kind as usize].form != Form::Unknown && !seen[kind as usize])
        .collect()
}

/// What the calls write; made before the time is taken.
struct Lent {
    out: Vec<u8>,
    globals: Vec<u64>,
    memory: Vec<u8>,
}

/// One turn over a set.
type Turn = fn(&Calls, &[Case], &mut Lent);

fn checks(side: &Calls, set: &[Case], _: &mut Lent) {
    for case in set {
        black_box((side.check)(black_box(&case.block)));
    }
}

fn passes(side: &Calls, set: &[Case], lent: &mut Lent) {
    for case in set {
        black_box((side.pass)(black_box(&case.block), &mut lent.out));
        black_box(&lent.out);
    }
}

/// Each run starts from the same state, which is copied for both sides alike.
fn runs(side: &Calls, set: &[Case], lent: &mut Lent) {
    let (globals, memory) = (&mut lent.globals, &mut lent.memory);
    let mut report = [0; 4];
    for case in set {
        globals.clone_from(&case.globals);
        memory.clone_from(&case.memory);
        let block = black_box(&case.block);
        black_box((side.run)(block, globals, memory, &mut report));
        black_box((&globals, &memory, &report));
    }
}

/// Nanoseconds for a block.
fn time(turn: Turn, side: &Calls, set: &[Case], turns: usize) -> f64 {
    let mut lent = Lent {
        out: vec![0; RESULT],
        globals: vec![],
        memory: vec![],
    };
    let start = now();
    for _ in 0..turns {
        turn(side, set, &mut lent);
    }
    (now() - start) / (turns * set.len()) as f64
}

/// So many turns that a round is long enough.
fn turns(turn: Turn, side: &Calls, set: &[Case]) -> usize {
    let mut turns = 1;
    loop {
        let taken = time(turn, side, set, turns) * (turns * set.len()) as f64;
        if taken >= ROUND {
            return turns;
        }
        turns = (turns as f64 * (1.2 * ROUND / taken).clamp(1.1, 100.0)).ceil() as usize;
    }
}

fn median(mut times: Vec<f64>) -> f64 {
    times.sort_by(f64::total_cmp);
    times[times.len() / 2]
}

/// Prints a row of a table: medians of both sides, timed in turn.
fn versus(name: &str, turn: Turn, set: &[Case]) {
    let sides = [&LIBRARY, &PLAIN].map(|side| (side, turns(turn, side, set)));
    let mut times = [Vec::new(), Vec::new()];
    for _ in 0..ROUNDS {
        for ((side, turns), times) in sides.into_iter().zip(&mut times) {
            times.push(time(turn, side, set, turns));
        }
    }
    let [ours, plain] = times.map(median);
    let ratio = ours / plain;
    println!("| `{name}` | {ours:.0} | {plain:.0} | {ratio:.2} |");
}

/// What the set is, and its table.
fn table(set: &Set) {
    let cases = &set.cases;
    let ops: Vec<usize> = cases.iter().map(|case| sets::ops(&case.block)).collect();
    let bytes: usize = cases.iter().map(|case| case.block.len()).sum();
    let reports: Vec<[u64; 4]> = cases.iter().filter_map(sets::report).collect();
    let ended = |ending| reports.iter().filter(|report| report[0] == ending).count();
    println!(
        "**{}**: blocks {}, ops {} ({} to {} a block), bytes {bytes}; ops run {}, exits {}, faults {}, without a stated result {}\n",
        set.name,
        cases.len(),
        ops.iter().sum::<usize>(),
        ops.iter().min().unwrap_or(&0),
        ops.iter().max().unwrap_or(&0),
        reports.iter().map(|report| report[3]).sum::<u64>(),
        ended(1),
        ended(2),
        ended(3)
    );
    println!("| Call | ours, ns a block | plain Rust, ns a block | ratio |");
    println!("|---|---|---|---|");
    versus("ngulo_check", checks, cases);
    versus("ngulo_pass", passes, cases);
    versus("ngulo_run", runs, cases);
    println!();
}

fn hex(block: &[u8]) -> String {
    block.iter().map(|byte| format!("{byte:02x}")).collect()
}

/// Says where the two sides differ, if they do.
fn differ(case: &Case) -> Option<String> {
    let call = same::difference(&LIBRARY, &PLAIN, case)?;
    let block = hex(&case.block);
    Some(format!("the answers to {call} differ on {block}"))
}

/// What is wrong with a set.
fn set_fault(set: &Set) -> Option<String> {
    let refused = |case: &&Case| sets::report(case).is_none();
    if let Some(case) = set.cases.iter().find(refused) {
        let block = hex(&case.block);
        return Some(format!("{}: a run is refused on {block}", set.name));
    }
    let ends_early = |case: &Case| sets::report(case).is_none_or(|report| report[0] != 1);
    if set.name.starts_with("aligned") && set.cases.iter().any(ends_early) {
        return Some(format!("{}: an access is not served", set.name));
    }
    set.cases.iter().find_map(differ)
}

/// Why the sets cannot be timed.
fn fault(sets: &[Set]) -> Option<String> {
    let left_out = kinds_left_out(sets, ["seeded", "fields"]);
    if !left_out.is_empty() {
        return Some(format!("no block has kinds {left_out:02x?}"));
    }
    sets.iter().find_map(set_fault)
}

/// Compares the answers on blocks of every sort, each on globals and memory
/// that fit and on others; how many blocks are refused.
fn compare_others() -> Result<usize, String> {
    let mut refused = 0;
    for number in 0..OTHERS {
        let case = blocks::case(SEED, number);
        let other = blocks::other(SEED, number, &case);
        if let Some(difference) = differ(&case).or_else(|| differ(&other)) {
            return Err(difference);
        }
        refused += usize::from((PLAIN.check)(&case.block) != 0);
    }
    Ok(refused)
}

fn report() -> Result<(), String> {
    let sets = sets::all();
    fault(&sets).map_or(Ok(()), Err)?;
    let refused = compare_others()?;
    let blocks: usize = sets.iter().map(|set| set.cases.len()).sum();
    println!(
        "Same answers on the {blocks} blocks below and on {OTHERS} others, of which {refused} are refused.\n"
    );
    sets.iter().for_each(table);
    Ok(())
}

fn main() -> ExitCode {
    match report() {
        Ok(()) => ExitCode::SUCCESS,
        Err(fault) => {
            println!("bench: {fault}");
            ExitCode::FAILURE
        }
    }
}
