//! Hex and buffers for the tests.

#![allow(dead_code)] // each test file uses a part of this

use second::refusal::{Lengths, Refusal};

/// Bytes from hex with blanks.
pub fn hex(text: &str) -> Vec<u8> {
    second::bytes::from_hex(&text.replace(' ', "")).expect("hex in a test")
}

/// Arrays so many levels deep around a value; at most 200 bytes inside.
pub fn nested(arrays: usize, innermost: &[u8]) -> Vec<u8> {
    (0..arrays).fold(innermost.to_vec(), |inner, _| {
        let length = u8::try_from(inner.len()).expect("a short nest");
        [&[0x03, 1, 0, length], &inner[..]].concat()
    })
}

/// A string value of exactly this many bytes, above 68.
pub fn string_of(length: usize) -> Vec<u8> {
    let count = length - 5;
    [&[0x40][..], &(count as u32).to_le_bytes(), &vec![b's'; count]].concat()
}

/// Good metadata of exactly this many bytes, one name; above 300.
pub fn metadata_of(length: usize) -> Vec<u8> {
    let count = length - 7;
    let count_bytes = (count as u16).to_le_bytes();
    [&[0x41, 1, 0, 0, 0][..], &count_bytes, &vec![b'm'; count]].concat()
}

/// A frame in the house framing.
pub fn frame(tag: u8, body: &[u8]) -> Vec<u8> {
    let length = u16::try_from(body.len()).expect("a frame's body");
    [&[tag][..], &length.to_le_bytes(), body].concat()
}

/// The number of an answer.
pub fn number<T>(answer: Result<T, Refusal>) -> u8 {
    answer.err().map_or(0, |refusal| refusal.number())
}

/// Runs an operation over two buffers of these lengths, filled with a mark; then what they hold.
pub fn over_two(
    rooms: Lengths,
    operation: impl FnOnce(&mut [u8], &mut [u8]) -> Result<Lengths, Refusal>,
) -> (Result<Lengths, Refusal>, Vec<u8>, Vec<u8>) {
    let (mut first, mut second) = (vec![0xEE; rooms[0]], vec![0xEE; rooms[1]]);
    let answer = operation(&mut first, &mut second);
    (answer, first, second)
}
