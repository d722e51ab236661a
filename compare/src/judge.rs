//! One case, put to the library and to the second program over buffers that are filled alike.

use crate::difference::{right_side, Difference};
use crate::loan::{Lent, Loan};
use crate::word::Word;
use second::cell::Cell;
use second::operations;
use second::refusal::Refusal;
use second::vectors::{Case, Op};

/// Answers what is lent with 64-bit numbers, the answer's word first.
pub type Program = dyn Fn(&mut Loan) -> Vec<u64>;

/// Compares a program with the second one: every number that it gives, and every byte that is lent,
/// before the slices and behind them too; and a refusal or an absent answer must change nothing.
pub fn judge(program: &Program, case: &Case, behind: &[u8]) -> Result<(), Box<Difference>> {
    let lent = Loan::new(case, behind);
    let (mut expected, mut found) = (lent.clone(), lent.clone());
    let expected_words = second(&mut expected);
    let found_words = program(&mut found);
    let mut what = Vec::new();
    if expected_words != found_words {
        let show =
            |words: &[u64]| format!("{:?}", words.iter().map(|w| Word(*w)).collect::<Vec<_>>());
        what.push(format!("{} expected, {} found", show(&expected_words), show(&found_words)));
    }
    note_bytes(&expected, &found, "", &mut what);
    let word = Word(found_words[0]);
    if word.number() != 0 || !word.is_present() {
        note_bytes(&lent, &found, " though nothing is done", &mut what);
    }
    if what.is_empty() {
        return Ok(());
    }
    Err(Box::new(Difference {
        line: lent.line(),
        expected: right_side(&expected, &expected_words),
        found: right_side(&found, &found_words),
        behind: behind.to_vec(),
        what,
    }))
}

fn note_bytes(expected: &Loan, found: &Loan, why: &str, what: &mut Vec<String>) {
    let slices =
        |loan: &Loan| -> Vec<Lent> { [loan.inputs.clone(), loan.outputs.clone()].concat() };
    if expected == found {
        return;
    }
    for (expected, found) in slices(expected).iter().zip(slices(found)) {
        if let Some((at, byte, other)) = expected.first_difference(&found) {
            let (name, room) = (expected.name, expected.bytes().len());
            what.push(format!(
                "{name}[{at}] of {room}: {byte:02x} expected, {other:02x} found{why}"
            ));
        }
    }
}

/// The second program's answer.
pub fn second(loan: &mut Loan) -> Vec<u64> {
    match loan.op {
        Op::Check => {
            let [metadata, value] = loan.inputs();
            words(operations::check(metadata, value), |()| Word::present([0, 0]))
        }
        Op::Find => {
            let [metadata, value, path] = loan.inputs();
            words(operations::find(metadata, value, path), |found| match found {
                Some(span) => Word::present([span.start, span.length]),
                None => Word::absent(),
            })
        }
        Op::Normalise => {
            let ([metadata, value], [metadata_out, value_out]) = loan.parts();
            words(operations::normalise(metadata, value, metadata_out, value_out), Word::present)
        }
        Op::Shred => {
            let ([schema, metadata, value], [row_out]) = loan.parts();
            let length = operations::shred(schema, metadata, value, row_out);
            words(length, |length| Word::present([length, 0]))
        }
        Op::Rebuild => {
            let ([schema, row], [metadata_out, value_out]) = loan.parts();
            words(operations::rebuild(schema, row, metadata_out, value_out), Word::present)
        }
        Op::Cell => {
            let [bytes] = loan.inputs();
            cell_words(operations::cell(loan.code, bytes))
        }
        Op::Box => {
            let [metadata, value] = loan.inputs();
            let lot = operations::lot_box(metadata, value);
            let sides = match lot {
                Ok(Some(lot)) => [lot.east, lot.north, lot.south, lot.west],
                _ => [0; 4],
            };
            let word = words(lot, |lot| match lot {
                Some(_) => Word::present([0, 0]),
                None => Word::absent(),
            });
            [word, sides.to_vec()].concat()
        }
        Op::Judge => {
            let [schema, row] = loan.inputs();
            words(operations::judge(schema, row), |()| Word::present([0, 0]))
        }
    }
}

fn words<T>(answer: Result<T, Refusal>, word: impl FnOnce(T) -> Word) -> Vec<u64> {
    vec![answer.map_or_else(Word::refused, word).0]
}

/// Kind and words of a cell, as the header numbers them.
fn cell_words(answer: Result<Cell, Refusal>) -> Vec<u64> {
    let cell = match answer {
        Ok(cell) => cell,
        Err(refusal) => return vec![Word::refused(refusal).0, 0, 0],
    };
    let (kind, first, second) = match cell {
        Cell::Bool(truth) => (1, u64::from(truth), 0),
        Cell::Int(number) => (2, number as u64, 0),
        Cell::Float(bits) => (3, u64::from(bits), 0),
        Cell::Double(bits) => (4, bits, 0),
        Cell::Len(length) => (5, length as u64, 0),
        Cell::Uuid(first, second) => (6, first, second),
    };
    vec![Word::present([kind, 0]).0, first, second]
}
