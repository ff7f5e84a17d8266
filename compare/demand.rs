//! Demand 3, property by property, on the library's own answers. Only what
//! could still be folded and what is dead are the second interpreter's
//! readings.

use crate::calls::Side;
use crate::cases::{answer, bound, hex, passed, ran, Case, Difference, Ran, RESULT};
use crate::second;

/// The first property that the library's answers break on this case.
pub fn broken(case: &Case) -> Option<Difference> {
    if Side::Library.check(&case.block) != 0 {
        return None;
    }
    let source = passed(Side::Library, &case.block, RESULT);
    let Some(result) = source.result() else {
        return told(
            "a buffer as long as the bound has room",
            "a result",
            answer(source.answer),
        );
    };
    let accepted = Side::Library.check(result);
    if accepted != 0 {
        return told("the result is accepted", "accepted", answer(accepted));
    }
    longer(&case.block, result)
        .or_else(|| runs_differ(case, result))
        .or_else(|| work_remains(result))
        .or_else(|| again(result))
}

fn told(property: &str, expected: &str, found: String) -> Option<Difference> {
    Some(Difference {
        call: format!("demand 3: {property}"),
        library: found,
        second: format!("(expected) {expected}"),
    })
}

/// At most the header's `ngulo_result_bound`.
fn longer(block: &[u8], result: &[u8]) -> Option<Difference> {
    let bound = bound(block);
    if result.len() <= bound {
        return None;
    }
    told(
        "the result is within the bound for its block",
        &format!("at most {bound} bytes"),
        format!("{} bytes", result.len()),
    )
}

/// The same exit or fault, with its reason, the same globals and memory, in no
/// more ops.
fn runs_differ(case: &Case, result: &[u8]) -> Option<Difference> {
    let before = ran(Side::Library, &case.block, &case.globals, &case.memory);
    let after = ran(Side::Library, result, &case.globals, &case.memory);
    // Only globals and memory that fit; unless the source's run meets an op
    // without a stated result.
    if before.answer != 0 || before.report[0] == 3 {
        return None;
    }
    if after.answer != 0 || before.report[..3] != after.report[..3] {
        return told("the result ends alike", &brief(&before), brief(&after));
    }
    if before.globals != after.globals || before.memory != after.memory {
        return told(
            "the result leaves the same globals and memory",
            &state(&before),
            state(&after),
        );
    }
    if after.report[3] > before.report[3] {
        return told(
            "the result runs no more ops",
            &brief(&before),
            brief(&after),
        );
    }
    None
}

/// Nothing that fold could replace, no dead output of a pure op.
fn work_remains(result: &[u8]) -> Option<Difference> {
    let foldable = second::foldable(result);
    if foldable != Ok(None) {
        return told(
            "fold replaces no op of the result",
            "none",
            format!("{foldable:?} in {}", hex(result)),
        );
    }
    let dead = second::dead(result);
    if dead != Ok(None) {
        return told(
            "no output in the result is dead",
            "none",
            format!("{dead:?} in {}", hex(result)),
        );
    }
    None
}

/// The pass done again gives the same bytes.
fn again(result: &[u8]) -> Option<Difference> {
    let twice = passed(Side::Library, result, RESULT);
    if twice.result() == Some(result) {
        return None;
    }
    told(
        "the pass done again changes nothing",
        &hex(result),
        format!("{}; {}", answer(twice.answer), hex(&twice.out)),
    )
}

fn brief(ran: &Ran) -> String {
    format!("{}, report {:x?}", answer(ran.answer), ran.report)
}

fn state(ran: &Ran) -> String {
    format!("globals {:x?}; memory {}", ran.globals, hex(&ran.memory))
}
