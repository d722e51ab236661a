//! Cases and answers as lines of text: `op arg arg .. | number val val .. out out ..`.
//!
//! Bytes are hex, `-` when empty; numbers are decimal.

use crate::bytes::{from_hex, to_hex};
use crate::cell::Cell;
use crate::lotbox::LotBox;
use crate::operations;
use crate::refusal::{Lengths, Refusal};
use std::fmt;

/// The seven operations, and the judgement of a row by itself.
#[derive(Clone, Copy, Debug, PartialEq, Eq, PartialOrd, Ord)]
pub enum Op {
    Check,
    Find,
    Normalise,
    Shred,
    Rebuild,
    Cell,
    Box,
    Judge,
}

impl Op {
    pub const ALL: [Op; 8] =
        [Op::Check, Op::Find, Op::Normalise, Op::Shred, Op::Rebuild, Op::Cell, Op::Box, Op::Judge];

    /// Its name in a line.
    pub fn name(self) -> &'static str {
        match self {
            Op::Check => "check",
            Op::Find => "find",
            Op::Normalise => "normalise",
            Op::Shred => "shred",
            Op::Rebuild => "rebuild",
            Op::Cell => "cell",
            Op::Box => "box",
            Op::Judge => "judge",
        }
    }

    /// The operation of this name.
    pub fn named(name: &str) -> Option<Op> {
        Op::ALL.into_iter().find(|op| op.name() == name)
    }

    /// The numbers that this operation can answer.
    pub fn numbers(self) -> &'static [u8] {
        match self {
            Op::Check | Op::Box => &[0, 1, 2, 3],
            Op::Find => &[0, 1, 2, 3, 5],
            Op::Normalise => &[0, 1, 2, 3, 8, 9],
            Op::Shred => &[0, 1, 2, 3, 4, 8, 9],
            Op::Rebuild => &[0, 1, 4, 6, 7, 8, 9],
            Op::Cell => &[0, 1, 4, 6],
            Op::Judge => &[0, 1, 4, 6, 7],
        }
    }
}

/// One call of one operation. A room is the length of an output buffer.
#[derive(Clone, Debug, PartialEq, Eq)]
pub enum Case {
    Check { metadata: Vec<u8>, value: Vec<u8> },
    Find { metadata: Vec<u8>, value: Vec<u8>, path: Vec<u8> },
    Normalise { metadata: Vec<u8>, value: Vec<u8>, rooms: Lengths },
    Shred { schema: Vec<u8>, metadata: Vec<u8>, value: Vec<u8>, room: usize },
    Rebuild { schema: Vec<u8>, row: Vec<u8>, rooms: Lengths },
    Cell { code: u8, bytes: Vec<u8> },
    Box { metadata: Vec<u8>, value: Vec<u8> },
    Judge { schema: Vec<u8>, row: Vec<u8> },
}

/// The answer to a case: what the operation gives, and the bytes it wrote.
#[derive(Clone, Debug, PartialEq, Eq)]
pub enum Answer {
    Check(Result<(), Refusal>),
    Find(Result<Option<operations::Span>, Refusal>),
    Normalise(Result<Written, Refusal>),
    Shred(Result<Vec<u8>, Refusal>),
    Rebuild(Result<Written, Refusal>),
    Cell(Result<Cell, Refusal>),
    Box(Result<Option<LotBox>, Refusal>),
    Judge(Result<(), Refusal>),
}

/// The metadata and the value that an operation wrote.
#[derive(Clone, Debug, PartialEq, Eq)]
pub struct Written {
    pub metadata: Vec<u8>,
    pub value: Vec<u8>,
}

impl Case {
    /// Which operation it calls.
    pub fn op(&self) -> Op {
        match self {
            Case::Check { .. } => Op::Check,
            Case::Find { .. } => Op::Find,
            Case::Normalise { .. } => Op::Normalise,
            Case::Shred { .. } => Op::Shred,
            Case::Rebuild { .. } => Op::Rebuild,
            Case::Cell { .. } => Op::Cell,
            Case::Box { .. } => Op::Box,
            Case::Judge { .. } => Op::Judge,
        }
    }

    /// Reads a line; what stands from ` | ` on is not read.
    pub fn parse(line: &str) -> Result<Case, String> {
        let left = line.split(" | ").next().unwrap_or("");
        let mut words = left.split_whitespace();
        let op =
            words.next().and_then(Op::named).ok_or_else(|| format!("no operation: {left:.60}"))?;
        let mut words = Words { words };
        let case =
            Case::parse_args(op, &mut words).ok_or_else(|| format!("bad case: {left:.60}"))?;
        match words.words.next() {
            None => Ok(case),
            Some(_) => Err(format!("too many words: {left:.60}")),
        }
    }

    fn parse_args(op: Op, words: &mut Words) -> Option<Case> {
        Some(match op {
            Op::Check => Case::Check { metadata: words.bytes()?, value: words.bytes()? },
            Op::Find => {
                Case::Find { metadata: words.bytes()?, value: words.bytes()?, path: words.bytes()? }
            }
            Op::Normalise => Case::Normalise {
                metadata: words.bytes()?,
                value: words.bytes()?,
                rooms: [words.number()?, words.number()?],
            },
            Op::Shred => Case::Shred {
                schema: words.bytes()?,
                metadata: words.bytes()?,
                value: words.bytes()?,
                room: words.number()?,
            },
            Op::Rebuild => Case::Rebuild {
                schema: words.bytes()?,
                row: words.bytes()?,
                rooms: [words.number()?, words.number()?],
            },
            Op::Cell => Case::Cell { code: words.number()?, bytes: words.bytes()? },
            Op::Box => Case::Box { metadata: words.bytes()?, value: words.bytes()? },
            Op::Judge => Case::Judge { schema: words.bytes()?, row: words.bytes()? },
        })
    }

    /// The left side of its line.
    pub fn line(&self) -> String {
        let op = self.op().name();
        match self {
            Case::Check { metadata, value } | Case::Box { metadata, value } => {
                format!("{op} {} {}", to_hex(metadata), to_hex(value))
            }
            Case::Find { metadata, value, path } => {
                format!("{op} {} {} {}", to_hex(metadata), to_hex(value), to_hex(path))
            }
            Case::Normalise { metadata, value, rooms } => {
                format!("{op} {} {} {} {}", to_hex(metadata), to_hex(value), rooms[0], rooms[1])
            }
            Case::Shred { schema, metadata, value, room } => {
                let inputs = [schema, metadata, value].map(|bytes| to_hex(bytes)).join(" ");
                format!("{op} {inputs} {room}")
            }
            Case::Rebuild { schema, row, rooms } => {
                format!("{op} {} {} {} {}", to_hex(schema), to_hex(row), rooms[0], rooms[1])
            }
            Case::Cell { code, bytes } => format!("{op} {code} {}", to_hex(bytes)),
            Case::Judge { schema, row } => format!("{op} {} {}", to_hex(schema), to_hex(row)),
        }
    }
}

/// The words of a line that are not read yet.
struct Words<'l> {
    words: std::str::SplitWhitespace<'l>,
}

impl Words<'_> {
    fn bytes(&mut self) -> Option<Vec<u8>> {
        from_hex(self.words.next()?)
    }

    fn number<N: std::str::FromStr>(&mut self) -> Option<N> {
        self.words.next()?.parse().ok()
    }
}

impl Answer {
    /// The statement's number.
    pub fn number(&self) -> u8 {
        fn of<T>(answer: &Result<T, Refusal>) -> u8 {
            answer.as_ref().err().map_or(0, Refusal::number)
        }
        match self {
            Answer::Check(answer) | Answer::Judge(answer) => of(answer),
            Answer::Find(answer) => of(answer),
            Answer::Normalise(answer) | Answer::Rebuild(answer) => of(answer),
            Answer::Shred(answer) => of(answer),
            Answer::Cell(answer) => of(answer),
            Answer::Box(answer) => of(answer),
        }
    }
}

/// The right side of a line.
impl fmt::Display for Answer {
    fn fmt(&self, f: &mut fmt::Formatter) -> fmt::Result {
        write!(f, "{}", self.number())?;
        match self {
            Answer::Check(_) | Answer::Judge(_) => Ok(()),
            Answer::Find(Ok(Some(span))) => write!(f, " 1 {} {}", span.start, span.length),
            Answer::Find(_) => write!(f, " 0 0 0"),
            Answer::Normalise(answer) | Answer::Rebuild(answer) => write_document(f, answer),
            Answer::Shred(Ok(row)) => write!(f, " {} {}", row.len(), to_hex(row)),
            Answer::Shred(Err(refusal)) => write!(f, " {} -", needed(refusal)[0]),
            Answer::Cell(answer) => write_cell(f, answer),
            Answer::Box(Ok(Some(lot))) => {
                write!(f, " 1 {} {} {} {}", lot.east, lot.north, lot.south, lot.west)
            }
            Answer::Box(_) => write!(f, " 0 0 0 0 0"),
        }
    }
}

fn write_document(f: &mut fmt::Formatter, answer: &Result<Written, Refusal>) -> fmt::Result {
    match answer {
        Ok(Written { metadata, value }) => {
            let lengths = format!("{} {}", metadata.len(), value.len());
            write!(f, " {lengths} {} {}", to_hex(metadata), to_hex(value))
        }
        Err(refusal) => {
            let [metadata, value] = needed(refusal);
            write!(f, " {metadata} {value} - -")
        }
    }
}

fn write_cell(f: &mut fmt::Formatter, answer: &Result<Cell, Refusal>) -> fmt::Result {
    match answer {
        Ok(Cell::Bool(truth)) => write!(f, " bool {}", u8::from(*truth)),
        Ok(Cell::Int(number)) => write!(f, " int {number}"),
        Ok(Cell::Float(bits)) => write!(f, " float {bits}"),
        Ok(Cell::Double(bits)) => write!(f, " double {bits}"),
        Ok(Cell::Len(length)) => write!(f, " len {length}"),
        Ok(Cell::Uuid(first, second)) => write!(f, " uuid {first} {second}"),
        Err(_) => write!(f, " none 0"),
    }
}

/// A 9 carries the lengths needed, the other refusals zeros.
fn needed(refusal: &Refusal) -> Lengths {
    match refusal {
        Refusal::Room(lengths) => *lengths,
        _ => [0, 0],
    }
}

/// The right side that stands in a line, if one does.
pub fn right_side(line: &str) -> Option<&str> {
    line.split_once(" | ").map(|(_, right)| right.trim_end())
}

#[cfg(test)]
mod tests {
    use super::*;
    use crate::operations::answer;

    fn right(left: &str) -> String {
        answer(&Case::parse(left).unwrap()).to_string()
    }

    #[test]
    fn lines_go_both_ways() {
        let lines = [
            "check 010000 -",
            "find 010000 00 6102000100",
            "normalise 010000 00 3 1",
            "shred 000000 010000 00 70000",
            "rebuild 000000 - 0 1",
            "cell 255 00ff",
            "box - 00",
            "judge 000000 -",
        ];
        for line in lines {
            assert_eq!(Case::parse(line).unwrap().line(), line);
            assert_eq!(Case::parse(&format!("{line} | 0 1 2")).unwrap().line(), line);
        }
    }

    #[test]
    fn bad_lines_are_told() {
        for line in ["", "chek 00 00", "check 00", "check 0 00", "check 00 00 00", "cell 256 00"] {
            assert!(Case::parse(line).is_err(), "{line}");
        }
    }

    #[test]
    fn right_sides() {
        assert_eq!(right("check 010000 00"), "0");
        assert_eq!(right("check - 00"), "2");
        assert_eq!(right("find 010000 0300 -"), "3 0 0 0");
        assert_eq!(right("find 010000 0301000100 6102000000"), "0 1 4 1");
        assert_eq!(right("find 010000 0301000100 6102000100"), "0 0 0 0");
        assert_eq!(right("normalise 010000 00 3 1"), "0 3 1 110000 00");
        assert_eq!(right("normalise 010000 00 3 0"), "9 3 1 - -");
        assert_eq!(right("normalise 010000 54 0 0"), "3 0 0 - -");
        assert_eq!(right("shred 000000 010000 00 13"), "0 13 40030011000050040041010000");
        assert_eq!(right("shred 000000 010000 00 12"), "9 13 -");
        assert_eq!(right("shred 01 010000 00 12"), "4 0 -");
        assert_eq!(right("cell 1 01"), "0 bool 1");
        assert_eq!(right("cell 3 ff"), "0 int -1");
        assert_eq!(right("cell 14 0000807f"), "0 float 2139095040");
        assert_eq!(right("cell 7 000000000000f03f"), "0 double 4607182418800017408");
        assert_eq!(right("cell 15 -"), "0 len 0");
        assert_eq!(right("cell 20 01000000000000000200000000000000"), "0 uuid 1 2");
        assert_eq!(right("cell 2 00"), "4 none 0");
        assert_eq!(right("box 010000 00"), "0 0 0 0 0 0");
        assert_eq!(right("box 010000 -"), "3 0 0 0 0 0");
        assert_eq!(right("judge 000000 400300010000500000"), "0");
        assert_eq!(right("judge 000000 -"), "6");
    }
}
