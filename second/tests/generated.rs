//! The generator reaches every number of every operation, every rule, and good cases enough.

use second::generate::{case, Rng};
use second::operations::{answer, judge, rebuilt};
use second::refusal::Refusal;
use second::vectors::{Answer, Case, Op};
use std::collections::{BTreeMap, BTreeSet};

const CASES: usize = 10_000;

#[test]
fn every_number_of_every_operation() {
    for op in Op::ALL {
        let mut rng = Rng::new(1);
        let mut done = 0;
        let mut numbers = BTreeSet::new();
        for _ in 0..CASES {
            let number = answer(&case(op, &mut rng)).number();
            numbers.insert(number);
            done += usize::from(number == 0);
        }
        let numbers: Vec<u8> = numbers.into_iter().collect();
        assert_eq!(numbers, op.numbers(), "{}", op.name());
        // Of rows there are as many kinds of bad ones as of good ones.
        let least = if matches!(op, Op::Rebuild | Op::Judge) { CASES / 4 } else { CASES / 2 };
        assert!(done > least && done < CASES * 9 / 10, "{}: {done} done", op.name());
    }
}

#[test]
fn every_rule_of_a_row() {
    for op in [Op::Rebuild, Op::Judge] {
        let mut rng = Rng::new(2);
        let mut rules = BTreeMap::new();
        for _ in 0..CASES {
            let refusal = match answer(&case(op, &mut rng)) {
                Answer::Rebuild(Err(refusal)) | Answer::Judge(Err(refusal)) => refusal,
                _ => continue,
            };
            if let Refusal::Rule(rule) = refusal {
                *rules.entry(rule).or_insert(0) += 1;
            }
        }
        assert_eq!(rules.len(), 6);
        assert!(rules.values().all(|&count| count > CASES / 50), "{}: {rules:?}", op.name());
    }
}

#[test]
fn no_number_of_the_judge_is_rare() {
    let mut rng = Rng::new(6);
    let mut counts = [0; 10];
    for _ in 0..CASES {
        counts[usize::from(answer(&case(Op::Judge, &mut rng)).number())] += 1;
    }
    for &number in Op::Judge.numbers() {
        let count = counts[usize::from(number)];
        assert!(count > CASES * 3 / 100, "{number}: {count}");
    }
}

/// Two ways of judging a row: the judge's own walk, and the one that makes the document.
#[test]
fn the_judge_and_rebuild_agree() {
    let mut rng = Rng::new(7);
    for _ in 0..2 * CASES {
        let made = case(Op::Judge, &mut rng);
        let Case::Judge { schema, row } = &made else { unreachable!("a case of its operation") };
        let expected = match rebuilt(schema, row) {
            Ok(_) | Err(Refusal::TooLarge) => Ok(()),
            Err(refusal) => Err(refusal),
        };
        assert_eq!(judge(schema, row), expected, "{}", made.line());
    }
}

#[test]
fn lines_read_back_as_the_same_case() {
    let mut rng = Rng::new(3);
    for op in Op::ALL {
        for _ in 0..300 {
            let made = case(op, &mut rng);
            assert_eq!(Case::parse(&made.line()).as_ref(), Ok(&made));
        }
    }
}

#[test]
fn one_seed_gives_one_list() {
    let list = |seed: u64| {
        let mut rng = Rng::new(seed);
        (0..50).map(|_| case(Op::Shred, &mut rng)).collect::<Vec<_>>()
    };
    assert_eq!(list(4), list(4));
    assert_ne!(list(4), list(5));
}
