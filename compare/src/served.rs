//! The library in a program of its own (`serve/serve.c`), for a machine that cannot link it.
//!
//! All that is lent goes there and comes back, the bytes around each slice too, so a call is judged by
//! the same bytes as a linked one.

use crate::loan::{Loan, GUARD};
use std::cell::RefCell;
use std::env;
use std::io::{BufReader, Read, Result, Write};
use std::process::{Child, ChildStdout, Command, Stdio};

/// Names the program, where it is another one than `make library` builds.
const PROGRAM: &str = "TANVELIS_SERVE";
const BUILT: &str = concat!(env!("CARGO_MANIFEST_DIR"), "/../target/serve/serve");
/// The most slices that an operation is lent.
const SLICES: usize = 4;
/// The most numbers that an operation gives.
const NUMBERS: usize = 5;

thread_local! {
    static LIBRARY: RefCell<Server> = RefCell::new(Server::start());
}

/// Calls the library on what is lent; all 64-bit numbers it gives.
pub fn call(loan: &mut Loan) -> Vec<u64> {
    let answer = LIBRARY.with_borrow_mut(|library| library.answer(loan));
    answer
        .unwrap_or_else(|error| panic!("the library gave no answer ({error}) to\n{}", loan.line()))
}

/// The running program. It ends when its input does.
struct Server {
    child: Child,
    answers: BufReader<ChildStdout>,
}

impl Server {
    fn start() -> Self {
        let program = env::var_os(PROGRAM).unwrap_or_else(|| BUILT.into());
        let (input, output) = (Stdio::piped(), Stdio::piped());
        let child = Command::new(&program).stdin(input).stdout(output).spawn();
        let mut child = child.unwrap_or_else(|error| {
            panic!("cannot run {}: {error}; `make library` builds it", program.display())
        });
        let answers = child.stdout.take().expect("its output is a pipe");
        Server { child, answers: BufReader::with_capacity(1 << 16, answers) }
    }

    fn answer(&mut self, loan: &mut Loan) -> Result<Vec<u64>> {
        let requests = self.child.stdin.as_mut().expect("its input is a pipe");
        requests.write_all(&request(loan))?;
        take_answer(loan, &mut self.answers)
    }
}

/// What is lent, as `serve.c` reads it.
fn request(loan: &mut Loan) -> Vec<u8> {
    let (op, code) = (loan.op as u32, u32::from(loan.code));
    let mut lengths = [0; SLICES];
    let (mut count, mut bytes) = (0, Vec::new());
    for slice in loan.slices_mut() {
        lengths[count] = slice.bytes().len() as u32;
        count += 1;
        bytes.extend_from_slice(slice.whole_mut());
    }
    let head = [op, code, GUARD as u32, count as u32].into_iter().chain(lengths);
    let mut request: Vec<u8> = head.flat_map(u32::to_le_bytes).collect();
    request.append(&mut bytes);
    request
}

/// Takes an answer as `serve.c` writes it: the numbers are given, and every byte is as it is there.
fn take_answer(loan: &mut Loan, answers: &mut impl Read) -> Result<Vec<u64>> {
    let mut next = || {
        let mut number = [0; 8];
        answers.read_exact(&mut number).map(|()| u64::from_le_bytes(number))
    };
    let count = next()? as usize;
    let mut numbers = (0..NUMBERS).map(|_| next()).collect::<Result<Vec<_>>>()?;
    numbers.truncate(count);
    loan.slices_mut().try_for_each(|slice| answers.read_exact(slice.whole_mut()))?;
    Ok(numbers)
}

#[cfg(test)]
mod tests {
    use super::*;
    use second::vectors::Case;

    fn lent(line: &str) -> Loan {
        Loan::new(&Case::parse(line).unwrap(), &[])
    }

    #[test]
    fn a_request_has_the_case_and_every_byte_around_it() {
        let mut loan = lent("normalise 010000 00 20 0");
        let request = request(&mut loan);
        let (head, bytes) = request.split_at(4 * (4 + SLICES));
        let numbers = head.chunks(4).map(|chunk| u32::from_le_bytes(chunk.try_into().unwrap()));
        assert_eq!(numbers.collect::<Vec<_>>(), [2, 0, GUARD as u32, 4, 3, 1, 20, 0]);
        assert_eq!(bytes.len(), 3 + 1 + 20 + 4 * 2 * GUARD);
        assert_eq!(bytes[GUARD..GUARD + 3], [1, 0, 0]);
        let mut whole = loan.slices_mut().flat_map(|slice| slice.whole_mut().to_vec());
        assert!(bytes.iter().all(|&byte| whole.next() == Some(byte)));
    }

    #[test]
    fn an_answer_brings_its_numbers_and_every_byte() {
        let before = lent("cell 3 80");
        let mut after = before.clone();
        after.slices_mut().flat_map(|slice| slice.whole_mut()).for_each(|byte| *byte ^= 1);
        let mut answer: Vec<u8> =
            [3u64, 0x2_0100, 5, 6, 0, 0].into_iter().flat_map(u64::to_le_bytes).collect();
        after.slices_mut().for_each(|slice| answer.extend_from_slice(slice.whole_mut()));
        let mut found = before.clone();
        assert_eq!(take_answer(&mut found, &mut &answer[..]).unwrap(), [0x2_0100, 5, 6]);
        assert_eq!(found, after);
        assert!(take_answer(&mut found, &mut &answer[..answer.len() - 1]).is_err());
    }
}
