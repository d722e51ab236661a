//! A vector file, run through the library.

use crate::difference::right_side;
use crate::judge::{judge, Program};
use crate::loan::Loan;
use second::vectors::{right_side as stored, Case, Op};
use std::collections::BTreeMap;

/// How many lines that differ are shown.
const SHOWN: usize = 20;

/// Compares a program with the right sides of a file, and with the second program in every byte that
/// is lent. Lines of operations that do not exist are counted only. Whether all agree, or what is
/// wrong with the file.
pub fn run(
    program: &Program,
    exists: &dyn Fn(Op) -> bool,
    text: &str,
    tell: &mut dyn FnMut(&str),
) -> Result<bool, String> {
    let (mut counts, mut skipped) = (BTreeMap::new(), BTreeMap::new());
    let mut differing = 0;
    for (index, line) in text.lines().enumerate() {
        let case = Case::parse(line)?;
        let stored = stored(line).ok_or_else(|| format!("no answer in: {line:.60}"))?;
        if !exists(case.op()) {
            *skipped.entry(case.op()).or_insert(0) += 1;
            continue;
        }
        let mut loan = Loan::new(&case, &[]);
        let words = program(&mut loan);
        let found = right_side(&loan, &words);
        let difference = match judge(program, &case, &[]) {
            Err(difference) => Some(difference.to_string()),
            Ok(()) if found != stored => Some(format!("{line}\nlibrary: {found}\n")),
            Ok(()) => None,
        };
        let (agreed, all) = counts.entry(case.op()).or_insert((0, 0));
        *all += 1;
        match difference {
            None => *agreed += 1,
            Some(difference) => {
                differing += 1;
                if differing <= SHOWN {
                    tell(&format!("DIFFERENCE: line {}\n{difference}", index + 1));
                }
            }
        }
    }
    for (op, (agreed, all)) in counts {
        tell(&format!("{}: {agreed} of {all} agree", op.name()));
    }
    for (op, count) in skipped {
        tell(&format!("{}: {count} not run, as the library has no {} yet", op.name(), op.name()));
    }
    Ok(differing == 0)
}
