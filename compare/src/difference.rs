//! A difference, and answers as the right sides of vector lines.

use crate::loan::{Lent, Loan};
use crate::word::Word;
use second::bytes::to_hex;
use second::vectors::Op;
use std::fmt;

/// A case on which the two programs differ.
#[derive(Debug)]
pub struct Difference {
    /// The left side of the case's line.
    pub line: String,
    /// The second program's right side.
    pub expected: String,
    /// The library's right side.
    pub found: String,
    /// The bytes that stood behind each input.
    pub behind: Vec<u8>,
    /// The numbers and the bytes that differ.
    pub what: Vec<String>,
}

/// The case with both answers as lines that can be replayed, then what differs.
impl fmt::Display for Difference {
    fn fmt(&self, f: &mut fmt::Formatter) -> fmt::Result {
        writeln!(f, "second:")?;
        writeln!(f, "{} | {}", self.line, self.expected)?;
        writeln!(f, "library:")?;
        writeln!(f, "{} | {}", self.line, self.found)?;
        if !self.behind.is_empty() {
            writeln!(f, "behind the inputs: {}", to_hex(&self.behind))?;
        }
        self.what.iter().try_for_each(|what| writeln!(f, "differs: {what}"))
    }
}

/// The right side of a vector line, from the numbers that a program gave and what it wrote.
pub fn right_side(loan: &Loan, words: &[u64]) -> String {
    let word = Word(words[0]);
    let (number, first, second) = (word.number(), word.first(), word.second());
    let present = u8::from(word.is_present());
    let written = |at: usize, length: usize| {
        let bytes = loan.outputs.get(at).map_or(&[][..], Lent::bytes);
        match number {
            0 => to_hex(&bytes[..length.min(bytes.len())]),
            _ => "-".to_string(),
        }
    };
    match loan.op {
        Op::Check | Op::Judge => format!("{number}"),
        Op::Find => format!("{number} {present} {first} {second}"),
        Op::Normalise | Op::Rebuild => {
            format!("{number} {first} {second} {} {}", written(0, first), written(1, second))
        }
        Op::Shred => format!("{number} {first} {}", written(0, first)),
        Op::Cell => format!("{number} {}", cell(first, words[1], words[2])),
        Op::Box => {
            let sides: Vec<_> = words[1..].iter().map(u64::to_string).collect();
            format!("{number} {present} {}", sides.join(" "))
        }
    }
}

fn cell(kind: usize, first: u64, second: u64) -> String {
    match kind {
        0 => format!("none {first}"),
        1 => format!("bool {first}"),
        2 => format!("int {}", first as i64),
        3 => format!("float {first}"),
        4 => format!("double {first}"),
        5 => format!("len {first}"),
        6 => format!("uuid {first} {second}"),
        _ => format!("kind-{kind} {first} {second}"),
    }
}

#[cfg(test)]
mod tests {
    use super::*;
    use crate::judge;
    use second::generate::{self, Rng};
    use second::operations::answer;

    #[test]
    fn right_sides_are_those_of_the_second_program() {
        for op in Op::ALL {
            let mut rng = Rng::new(4);
            for _ in 0..300 {
                let case = generate::case(op, &mut rng);
                let mut loan = Loan::new(&case, &[]);
                let words = judge::second(&mut loan);
                assert_eq!(right_side(&loan, &words), answer(&case).to_string());
            }
        }
    }
}
