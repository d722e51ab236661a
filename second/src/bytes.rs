//! Little-endian numbers, the house framing (one-byte tag, two-byte length), and hex.

use crate::refusal::Broken;

/// A little-endian number of one to eight bytes.
pub fn number(bytes: &[u8]) -> u64 {
    bytes.iter().rev().fold(0, |n, &byte| n << 8 | u64::from(byte))
}

/// Appends the low `size` bytes of a number, little-endian.
pub fn push_number(out: &mut Vec<u8>, number: usize, size: usize) {
    out.extend_from_slice(&(number as u64).to_le_bytes()[..size]);
}

/// The smallest size, one to four bytes, that holds a number.
pub fn size_of_number(number: usize) -> usize {
    match number {
        0..=0xFF => 1,
        0x100..=0xFFFF => 2,
        0x1_0000..=0xFF_FFFF => 3,
        _ => 4,
    }
}

/// A list of little-endian numbers, all of one size.
#[derive(Clone, Copy)]
pub struct Numbers<'a> {
    bytes: &'a [u8],
    size: usize,
}

impl<'a> Numbers<'a> {
    /// The numbers in order.
    pub fn iter(&self) -> impl Iterator<Item = usize> + 'a {
        self.bytes.chunks_exact(self.size).map(|chunk| number(chunk) as usize)
    }
}

/// Reads from the front of lent bytes.
pub struct Reader<'a> {
    rest: &'a [u8],
}

impl<'a> Reader<'a> {
    /// A reader at the first byte.
    pub fn new(bytes: &'a [u8]) -> Self {
        Reader { rest: bytes }
    }

    /// The bytes not read yet.
    pub fn rest(&self) -> &'a [u8] {
        self.rest
    }

    /// Whether every byte is read.
    pub fn is_done(&self) -> bool {
        self.rest.is_empty()
    }

    /// The next `length` bytes.
    pub fn take(&mut self, length: usize) -> Result<&'a [u8], Broken> {
        let (taken, rest) = self.rest.split_at_checked(length).ok_or(Broken)?;
        self.rest = rest;
        Ok(taken)
    }

    /// The next number of `size` bytes.
    pub fn number(&mut self, size: usize) -> Result<usize, Broken> {
        Ok(number(self.take(size)?) as usize)
    }

    /// The next `count` numbers of `size` bytes each.
    pub fn numbers(&mut self, count: usize, size: usize) -> Result<Numbers<'a>, Broken> {
        let bytes = self.take(count.checked_mul(size).ok_or(Broken)?)?;
        Ok(Numbers { bytes, size })
    }

    /// The tag of the next frame, if any byte is left.
    pub fn peek(&self) -> Option<u8> {
        self.rest.first().copied()
    }

    /// The next frame: its tag and its body.
    pub fn frame(&mut self) -> Result<(u8, &'a [u8]), Broken> {
        let tag = self.take(1)?[0];
        let length = self.number(2)?;
        Ok((tag, self.take(length)?))
    }

    /// The body of the next frame, which must have this tag.
    pub fn tagged(&mut self, tag: u8) -> Result<&'a [u8], Broken> {
        match self.frame()? {
            (found, body) if found == tag => Ok(body),
            _ => Err(Broken),
        }
    }

    /// Refuses bytes that are left.
    pub fn end(&self) -> Result<(), Broken> {
        if self.is_done() {
            Ok(())
        } else {
            Err(Broken)
        }
    }
}

/// Appends a frame whose body is at hand; the body must be at most 65,535 bytes.
pub fn push_frame(out: &mut Vec<u8>, tag: u8, body: &[u8]) {
    assert!(body.len() <= 0xFFFF, "a frame's length has two bytes");
    out.push(tag);
    push_number(out, body.len(), 2);
    out.extend_from_slice(body);
}

/// Bytes as lower-case hex, `-` when there are none.
pub fn to_hex(bytes: &[u8]) -> String {
    if bytes.is_empty() {
        "-".to_string()
    } else {
        plain_hex(bytes)
    }
}

/// Bytes as lower-case hex; nothing when there are none.
pub fn plain_hex(bytes: &[u8]) -> String {
    const DIGITS: &[u8; 16] = b"0123456789abcdef";
    let mut text = String::with_capacity(2 * bytes.len());
    for &byte in bytes {
        text.push(DIGITS[usize::from(byte >> 4)] as char);
        text.push(DIGITS[usize::from(byte & 15)] as char);
    }
    text
}

/// Bytes from hex; `-` is no bytes. Anything else that is not pairs of digits is none.
pub fn from_hex(text: &str) -> Option<Vec<u8>> {
    if text == "-" {
        return Some(Vec::new());
    }
    let digit = |c: u8| (c as char).to_digit(16).map(|d| d as u8);
    if !text.len().is_multiple_of(2) {
        return None;
    }
    text.as_bytes()
        .chunks_exact(2)
        .map(|pair| Some(digit(pair[0])? << 4 | digit(pair[1])?))
        .collect()
}

#[cfg(test)]
mod tests {
    use super::*;

    #[test]
    fn numbers_are_little_endian() {
        assert_eq!(number(&[0x22, 0x01]), 0x122);
        let mut out = Vec::new();
        push_number(&mut out, 0x01_0203, 3);
        assert_eq!(out, [3, 2, 1]);
    }

    #[test]
    fn sizes_change_at_the_powers_of_256() {
        let sizes = [0, 255, 256, 65_535, 65_536, 16_777_215, 16_777_216].map(size_of_number);
        assert_eq!(sizes, [1, 1, 2, 2, 3, 3, 4]);
    }

    #[test]
    fn frames_must_fit() {
        assert_eq!(Reader::new(&[0x10, 1, 0, 6]).frame(), Ok((0x10, &[6u8][..])));
        assert_eq!(Reader::new(&[0x10, 2, 0, 6]).frame(), Err(Broken));
        assert_eq!(Reader::new(&[0x10, 1]).frame(), Err(Broken));
        assert_eq!(Reader::new(&[0x10, 0, 0]).tagged(0x20), Err(Broken));
    }

    #[test]
    fn hex_goes_both_ways() {
        assert_eq!(from_hex("00ffA5"), Some(vec![0, 255, 0xA5]));
        assert_eq!(from_hex("0"), None);
        assert_eq!(from_hex("0g"), None);
        assert_eq!(from_hex("-"), Some(Vec::new()));
        assert_eq!(to_hex(&[]), "-");
        assert_eq!(to_hex(&[0, 255]), "00ff");
    }
}
