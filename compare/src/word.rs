//! The 64-bit number in which an operation answers.

use second::refusal::{Lengths, Refusal};
use std::fmt;

const PRESENT_BIT: u64 = 1 << 8;
const FIRST_SHIFT: u32 = 16;
const SECOND_SHIFT: u32 = 40;
const PART: u64 = 0xFF_FFFF;

/// An answer: number, whether it is present, and two lengths or values.
#[derive(Clone, Copy, PartialEq, Eq)]
pub struct Word(pub u64);

impl Word {
    /// Good, found, done or read, with two lengths or values.
    pub fn present(parts: Lengths) -> Word {
        Word(PRESENT_BIT | packed(parts))
    }

    /// Absent.
    pub fn absent() -> Word {
        Word(0)
    }

    /// A refusal; a 9 carries the lengths needed.
    pub fn refused(refusal: Refusal) -> Word {
        let needed = match refusal {
            Refusal::Room(lengths) => lengths,
            _ => [0, 0],
        };
        Word(u64::from(refusal.number()) | packed(needed))
    }

    /// The statement's number.
    pub fn number(self) -> u8 {
        self.0 as u8
    }

    /// Whether the answer is present.
    pub fn is_present(self) -> bool {
        self.0 & PRESENT_BIT != 0
    }

    /// The first length or value.
    pub fn first(self) -> usize {
        (self.0 >> FIRST_SHIFT & PART) as usize
    }

    /// The second length or value.
    pub fn second(self) -> usize {
        (self.0 >> SECOND_SHIFT & PART) as usize
    }
}

fn packed([first, second]: Lengths) -> u64 {
    assert!(first as u64 <= PART && second as u64 <= PART, "a length has 24 bits");
    (first as u64) << FIRST_SHIFT | (second as u64) << SECOND_SHIFT
}

impl fmt::Debug for Word {
    fn fmt(&self, f: &mut fmt::Formatter) -> fmt::Result {
        write!(f, "{:#018x}", self.0)
    }
}

#[cfg(test)]
mod tests {
    use super::*;

    #[test]
    fn parts_stand_where_the_header_says() {
        assert_eq!(Word::absent().0, 0);
        assert_eq!(Word::present([0, 0]).0, 0x100);
        assert_eq!(Word::present([0x12_3456, 0xAB_CDEF]).0, 0xABCD_EF12_3456_0100);
        assert_eq!(Word::refused(Refusal::Path).0, 5);
        assert_eq!(Word::refused(Refusal::Room([3, 1])).0, 0x0000_0100_0003_0009);
    }

    #[test]
    fn parts_are_read_back() {
        let word = Word::present([0x12_3456, 0xAB_CDEF]);
        assert!(word.is_present());
        assert_eq!((word.number(), word.first(), word.second()), (0, 0x12_3456, 0xAB_CDEF));
        let word = Word::refused(Refusal::Room([70_000, 2]));
        assert!(!word.is_present());
        assert_eq!((word.number(), word.first(), word.second()), (9, 70_000, 2));
    }
}
