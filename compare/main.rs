//! Compares the proved library with the second interpreter, call by call,
//! through the C interface, and checks demand 3 on the library's answers.

mod aligned;
mod blocks;
mod borders;
mod calls;
mod cases;
mod demand;
mod extended;
mod fields;
mod limits;
mod paper;
mod second;
mod shrink;
mod stats;
mod worked;
mod worked_aligned;
mod worked_limits;

use cases::{difference, hex, run_differs, Case, RESULT};
use stats::Stats;
use std::process::ExitCode;

/// Enough blocks that everything the statistics ask for occurs.
const BLOCKS: u64 = 140_000;

const HELP: &str = "\
Compares the proved library with the second interpreter on generated blocks.

usage: compare [options]
  --blocks N          compare on N blocks (default 140000)
  --seed S            start the generator from S (default 1)
  --as-found          tell the first difference as it is, not made smaller,
                      and keep no statistics
  --write-corpus DIR  write the first 2000 cases as fuzz inputs into DIR
  --help              print this text

exit code: 0 no difference, 1 a difference or something occurred too seldom,
2 bad arguments";

struct Options {
    blocks: u64,
    seed: u64,
    corpus: Option<String>,
    as_found: bool,
    help: bool,
}

fn options(arguments: &[String]) -> Result<Options, String> {
    let mut options = Options {
        blocks: BLOCKS,
        seed: 1,
        corpus: None,
        as_found: false,
        help: false,
    };
    let mut rest = arguments.iter();
    while let Some(name) = rest.next() {
        if name == "--help" {
            options.help = true;
            continue;
        }
        if name == "--as-found" {
            options.as_found = true;
            continue;
        }
        if !["--blocks", "--seed", "--write-corpus"].contains(&name.as_str()) {
            return Err(format!("unknown argument {name:?}"));
        }
        let value = rest.next().ok_or(format!("{name} needs a value"))?;
        let number = || {
            value
                .parse::<u64>()
                .map_err(|_| format!("{name} needs a number, not {value:?}"))
        };
        match name.as_str() {
            "--blocks" => options.blocks = number()?,
            "--seed" => options.seed = number()?,
            _ => options.corpus = Some(value.clone()),
        }
    }
    if options.blocks == 0 {
        return Err("--blocks needs at least 1".into());
    }
    Ok(options)
}

fn main() -> ExitCode {
    let arguments: Vec<String> = std::env::args().skip(1).collect();
    match options(&arguments) {
        Err(problem) => {
            eprintln!("compare: {problem} (see --help)");
            ExitCode::from(2)
        }
        Ok(options) if options.help => {
            println!("{HELP}");
            ExitCode::SUCCESS
        }
        Ok(options) => match &options.corpus {
            Some(directory) => write_corpus(directory, options.seed),
            None => compare(&options),
        },
    }
}

fn compare(options: &Options) -> ExitCode {
    let mut stats = Stats::new();
    for number in 0..options.blocks {
        let case = blocks::case(options.seed, number);
        let other = blocks::other(options.seed, number, &case);
        if difference(&case).is_some() {
            return tell(case, number, options.as_found);
        }
        if run_differs(&other).is_some() {
            return tell(other, number, options.as_found);
        }
        if !options.as_found {
            stats.note(&case);
            stats.note_run(&other);
        }
    }
    if let Some(what) = paper::failed() {
        println!("difference: the paper's cases: {what}");
        return ExitCode::FAILURE;
    }
    if !options.as_found && seldom(&stats, options.blocks) {
        return ExitCode::FAILURE;
    }
    println!("compare: {} blocks, no difference", options.blocks);
    ExitCode::SUCCESS
}

/// Prints the statistics; whether something occurred too seldom, where there
/// are enough blocks.
fn seldom(stats: &Stats, blocks: u64) -> bool {
    println!("{} of {} blocks accepted", stats.accepted_blocks, blocks);
    let missing = stats.report();
    let seldom = blocks >= BLOCKS && !missing.is_empty();
    if seldom {
        println!("compare: too seldom: {}", missing.join("; "));
    }
    seldom
}

/// Prints the case, or the smallest found, on which something differs.
fn tell(case: Case, number: u64, as_found: bool) -> ExitCode {
    let (smallest, how) = if as_found {
        (case, "as found")
    } else {
        let differs = |case: &Case| difference(case).is_some();
        (shrink::smallest(case, &differs), "made smaller")
    };
    if let Some(found) = difference(&smallest) {
        println!("difference: {} (from block {number}, {how})", found.call);
        println!("  block:   {}", hex(&smallest.block));
        println!("  globals: {:x?}", smallest.globals);
        println!("  memory:  {}", hex(&smallest.memory));
        println!("  library: {}", found.library);
        println!("  second:  {}", found.second);
    }
    println!("compare: a difference");
    ExitCode::FAILURE
}

/// A fuzz input: the numbers of globals and of memory bytes, these, the block.
fn input(case: &Case) -> Vec<u8> {
    let mut bytes = vec![case.globals.len() as u8, case.memory.len() as u8];
    bytes.extend(case.globals.iter().flat_map(|value| value.to_le_bytes()));
    bytes.extend(&case.memory);
    bytes.extend(&case.block);
    bytes
}

fn write_corpus(directory: &str, seed: u64) -> ExitCode {
    for number in 0..2000 {
        let case = blocks::case(seed, number);
        if case.memory.len() > 253 || case.block.len() > RESULT {
            continue;
        }
        let path = format!("{directory}/case-{number}");
        if let Err(problem) = std::fs::write(&path, input(&case)) {
            eprintln!("compare: {path}: {problem}");
            return ExitCode::from(2);
        }
    }
    ExitCode::SUCCESS
}
