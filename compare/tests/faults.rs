//! The comparison itself: programs that are wrong in one way are found out, a right one is not.

use compare::judge::{judge, second};
use compare::loan::Loan;
use compare::run::{generated, run, swept, Count};
use compare::word::Word;
use second::vectors::{Case, Op};

/// How many differences a seeded run finds in a program.
fn differences(op: Op, program: fn(&mut Loan) -> Vec<u64>) -> usize {
    let mut total = Count::default();
    generated(&program, op, 60, 11, &mut total, &mut |_| {});
    total.differences
}

fn found_out(ops: &[Op], program: fn(&mut Loan) -> Vec<u64>) {
    for &op in ops {
        assert!(differences(op, program) > 0, "{}", op.name());
    }
}

/// The operations that write.
const WRITING: [Op; 3] = [Op::Normalise, Op::Shred, Op::Rebuild];

fn is_done(words: &[u64]) -> bool {
    Word(words[0]).number() == 0
}

#[test]
fn the_second_program_does_not_differ_from_itself() {
    for op in Op::ALL {
        assert_eq!(differences(op, second), 0, "{}", op.name());
        let mut total = Count::default();
        swept(&second, op, &mut total, &mut |_| {});
        assert_eq!(total.differences, 0, "{}", op.name());
    }
}

#[test]
fn a_byte_behind_the_written_ones() {
    fn wrong(loan: &mut Loan) -> Vec<u64> {
        let words = second(loan);
        let length = Word(words[0]).first();
        let behind = loan.outputs[0].bytes_mut().get_mut(length).filter(|_| is_done(&words));
        behind.into_iter().for_each(|byte| *byte ^= 1);
        words
    }
    found_out(&WRITING, wrong);
}

#[test]
fn the_last_byte_of_the_last_buffer() {
    fn wrong(loan: &mut Loan) -> Vec<u64> {
        let words = second(loan);
        let last = loan.outputs.last_mut().unwrap().bytes_mut().last_mut();
        last.filter(|_| is_done(&words)).into_iter().for_each(|byte| *byte ^= 0x80);
        words
    }
    found_out(&WRITING, wrong);
}

#[test]
fn a_byte_outside_of_the_buffer() {
    fn wrong(loan: &mut Loan) -> Vec<u64> {
        let words = second(loan);
        let room = loan.outputs[0].bytes_mut();
        // Behind the slice, in the bytes around it.
        unsafe { *room.as_mut_ptr().add(room.len()) ^= 1 };
        words
    }
    found_out(&WRITING, wrong);
}

#[test]
fn a_refusal_that_writes() {
    fn wrong(loan: &mut Loan) -> Vec<u64> {
        let words = second(loan);
        let first = loan.outputs[0].bytes_mut().first_mut().filter(|_| !is_done(&words));
        first.into_iter().for_each(|byte| *byte = byte.wrapping_add(1));
        words
    }
    found_out(&WRITING, wrong);
}

#[test]
fn an_input_that_is_changed() {
    fn wrong(loan: &mut Loan) -> Vec<u64> {
        let words = second(loan);
        loan.inputs[0].bytes_mut().first_mut().into_iter().for_each(|byte| *byte ^= 1);
        words
    }
    found_out(&Op::ALL, wrong);
}

#[test]
fn a_wrong_length() {
    fn wrong(loan: &mut Loan) -> Vec<u64> {
        let mut words = second(loan);
        if words[0] >> 16 != 0 {
            words[0] += 1 << 16;
        }
        words
    }
    let with_lengths = [Op::Find, Op::Normalise, Op::Shred, Op::Rebuild, Op::Cell];
    found_out(&with_lengths, wrong);
}

#[test]
fn lengths_on_a_refusal() {
    fn wrong(loan: &mut Loan) -> Vec<u64> {
        let mut words = second(loan);
        if matches!(Word(words[0]).number(), 1..=8) {
            words[0] |= 1 << 40;
        }
        words
    }
    found_out(&Op::ALL, wrong);
}

#[test]
fn swapped_numbers() {
    fn wrong(loan: &mut Loan) -> Vec<u64> {
        let mut words = second(loan);
        words[0] = match Word(words[0]).number() {
            2 | 3 | 6 | 7 => words[0] ^ 1,
            _ => words[0],
        };
        words
    }
    found_out(&Op::ALL, wrong);
}

#[test]
fn the_present_bit_and_the_unused_ones() {
    fn absent(loan: &mut Loan) -> Vec<u64> {
        let mut words = second(loan);
        words[0] |= u64::from(is_done(&words)) << 8;
        words
    }
    fn unused(loan: &mut Loan) -> Vec<u64> {
        let mut words = second(loan);
        words[0] |= 1 << 15;
        words
    }
    found_out(&[Op::Find, Op::Box], absent);
    found_out(&Op::ALL, unused);
}

#[test]
fn the_further_words_of_the_readers() {
    fn wrong(loan: &mut Loan) -> Vec<u64> {
        let mut words = second(loan);
        if !Word(words[0]).is_present() {
            *words.last_mut().unwrap() = 1;
        }
        words
    }
    found_out(&[Op::Cell, Op::Box], wrong);
}

#[test]
fn a_judge_that_refuses_what_only_rebuild_does() {
    fn wrong(loan: &mut Loan) -> Vec<u64> {
        let [schema, row] = loan.inputs();
        match second::operations::rebuilt(schema, row) {
            Ok(_) => vec![0x100],
            Err(refusal) => vec![u64::from(refusal.number())],
        }
    }
    assert!(run(&wrong, Op::Judge, 0, 11, &mut |_| {}).differences > 0, "swept");
    let mut total = Count::default();
    generated(&wrong, Op::Judge, 600, 11, &mut total, &mut |_| {});
    assert!(total.differences > 0, "generated");
}

#[test]
fn reading_behind_the_input() {
    fn wrong(loan: &mut Loan) -> Vec<u64> {
        let words = second(loan);
        let [metadata, value] = loan.inputs();
        // One byte more than was lent, in the bytes around it.
        let more = unsafe { std::slice::from_raw_parts(value.as_ptr(), value.len() + 1) };
        match second::operations::check(metadata, more) {
            Ok(()) => vec![0x100],
            Err(_) => words,
        }
    }
    assert!(differences(Op::Check, wrong) > 0);
}

#[test]
fn a_difference_is_told_so_that_it_can_be_replayed() {
    fn wrong(loan: &mut Loan) -> Vec<u64> {
        let mut words = second(loan);
        words[0] = 3;
        words
    }
    let case = Case::parse("normalise 010000 00 3 2").unwrap();
    let told = judge(&wrong, &case, &[]).unwrap_err().to_string();
    assert!(told.contains("\nnormalise 010000 00 3 2 | 0 3 1 110000 00\n"), "{told}");
    assert!(told.contains("\nnormalise 010000 00 3 2 | 3 0 0 - -\n"), "{told}");
    assert!(told.contains("metadata_out[0] of 3"), "{told}");
    let mut lines = Vec::new();
    run(&wrong, Op::Check, 5, 21, &mut |line| lines.push(line.to_string()));
    assert!(lines[0].starts_with("DIFFERENCE: op check, case "), "{}", lines[0]);
}
