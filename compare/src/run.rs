//! A seeded run: generated cases and their variations, and the swept ones.

use crate::judge::{judge, Program};
use crate::sweep::sweep;
use crate::vary::{variations, Trial};
use second::generate::{self, Rng};
use second::vectors::Op;

/// How many differences of an operation are shown in full.
const SHOWN: usize = 3;

/// What came of a run of one operation.
#[derive(Debug, Default, PartialEq, Eq)]
pub struct Count {
    pub cases: usize,
    pub differences: usize,
}

/// Compares a program with the second one on swept and on generated cases. Tells each difference, and
/// at the end how many there were.
pub fn run(
    program: &Program,
    op: Op,
    count: usize,
    seed: u64,
    tell: &mut dyn FnMut(&str),
) -> Count {
    let mut total = Count::default();
    swept(program, op, &mut total, tell);
    generated(program, op, count, seed, &mut total, tell);
    tell(&format!("{}: {} cases, {} differences", op.name(), total.cases, total.differences));
    total
}

/// The cases that are the same in every run.
pub fn swept(program: &Program, op: Op, total: &mut Count, tell: &mut dyn FnMut(&str)) {
    for (index, trial) in sweep(op).iter().enumerate() {
        put(program, trial, total, tell, &format!("op {}, case {index}", op.name()));
    }
}

/// The first `count` cases that this seed generates (those of `second cases`), and their variations.
pub fn generated(
    program: &Program,
    op: Op,
    count: usize,
    seed: u64,
    total: &mut Count,
    tell: &mut dyn FnMut(&str),
) {
    let mut source = Rng::new(seed);
    for index in 0..count {
        let case = generate::case(op, &mut source);
        // The variations have a source of their own, so the cases stay those of the seed.
        let mut other = Rng::new(seed ^ (index as u64 + 1).rotate_left(32));
        for trial in variations(&case, &mut other) {
            let place = format!("op {}, seed {seed}, case {index}", op.name());
            put(program, &trial, total, tell, &place);
        }
    }
}

fn put(
    program: &Program,
    trial: &Trial,
    total: &mut Count,
    tell: &mut dyn FnMut(&str),
    place: &str,
) {
    total.cases += 1;
    if let Err(difference) = judge(program, &trial.case, &trial.behind) {
        total.differences += 1;
        if total.differences <= SHOWN {
            tell(&format!("DIFFERENCE: {place}, {}\n{difference}", trial.how));
        }
    }
}
