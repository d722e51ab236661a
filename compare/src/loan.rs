//! What is lent for one call: inputs with other bytes around them, and filled output buffers.
//!
//! The bytes of the fill are a function of the case, so a case that is run again is run alike.

use crate::parts;
use second::bytes::to_hex;
use second::generate::Rng;
use second::vectors::{Case, Op};
use std::ops::Range;

/// Bytes before and behind each slice that are not lent, and must neither be read nor written.
pub const GUARD: usize = 16;

/// One slice, inside of bytes that are not lent.
#[derive(Clone, Debug, PartialEq, Eq)]
pub struct Lent {
    pub name: &'static str,
    whole: Vec<u8>,
    lent: Range<usize>,
}

impl Lent {
    fn new(name: &'static str, bytes: Slice, fill: &mut Rng) -> Self {
        let length = match bytes {
            Slice::Input(bytes, _) => bytes.len(),
            Slice::Output(room) => room,
        };
        let lent = GUARD..GUARD + length;
        let mut whole = filled(fill, length + 2 * GUARD);
        if let Slice::Input(bytes, behind) = bytes {
            whole[lent.clone()].copy_from_slice(bytes);
            // What was cut off stands behind what is left: to read on would go unnoticed else.
            let behind = &behind[..behind.len().min(GUARD)];
            whole[lent.end..lent.end + behind.len()].copy_from_slice(behind);
        }
        Lent { name, whole, lent }
    }

    /// The slice.
    pub fn bytes(&self) -> &[u8] {
        &self.whole[self.lent.clone()]
    }

    /// The slice, to be written.
    pub fn bytes_mut(&mut self) -> &mut [u8] {
        &mut self.whole[self.lent.clone()]
    }

    /// The slice with the bytes around it.
    pub fn whole_mut(&mut self) -> &mut [u8] {
        &mut self.whole
    }

    /// The first byte that differs, counted from the slice's first: index, byte here, byte there.
    pub fn first_difference(&self, other: &Lent) -> Option<(isize, u8, u8)> {
        let both = self.whole.iter().zip(&other.whole);
        let (at, (here, there)) = both.enumerate().find(|(_, (here, there))| here != there)?;
        Some((at as isize - self.lent.start as isize, *here, *there))
    }
}

/// What a slice holds before the call: an input with bytes behind it, or so much room.
enum Slice<'a> {
    Input(&'a [u8], &'a [u8]),
    Output(usize),
}

/// All that is lent for one call.
#[derive(Clone, Debug, PartialEq, Eq)]
pub struct Loan {
    pub op: Op,
    /// A cell's type code.
    pub code: u8,
    pub inputs: Vec<Lent>,
    pub outputs: Vec<Lent>,
}

impl Loan {
    /// What a case lends. `behind` are bytes that stand behind every input.
    pub fn new(case: &Case, behind: &[u8]) -> Self {
        let (op, code) = (case.op(), parts::code(case));
        let mut fill = Rng::new(mark(case));
        let (input_names, output_names) = names(op);
        let inputs = parts::inputs(case).into_iter().zip(input_names);
        let inputs =
            inputs.map(|(bytes, name)| Lent::new(name, Slice::Input(bytes, behind), &mut fill));
        let inputs = inputs.collect();
        let outputs = parts::rooms(case).into_iter().zip(output_names);
        let outputs = outputs.map(|(room, name)| Lent::new(name, Slice::Output(room), &mut fill));
        Loan { op, code, inputs, outputs: outputs.collect() }
    }

    /// The left side of the case's line.
    pub fn line(&self) -> String {
        let mut words = vec![self.op.name().to_string()];
        if self.op == Op::Cell {
            words.push(self.code.to_string());
        }
        words.extend(self.inputs.iter().map(|lent| to_hex(lent.bytes())));
        words.extend(self.outputs.iter().map(|lent| lent.bytes().len().to_string()));
        words.join(" ")
    }

    /// All slices, the inputs first.
    pub fn slices_mut(&mut self) -> impl Iterator<Item = &mut Lent> {
        self.inputs.iter_mut().chain(&mut self.outputs)
    }

    /// The inputs of an operation that has so many.
    pub fn inputs<const I: usize>(&self) -> [&[u8]; I] {
        slices(&self.inputs)
    }

    /// The inputs and outputs of an operation that has so many of each.
    pub fn parts<const I: usize, const O: usize>(&mut self) -> ([&[u8]; I], [&mut [u8]; O]) {
        let outputs: Vec<_> = self.outputs.iter_mut().map(Lent::bytes_mut).collect();
        (slices(&self.inputs), outputs.try_into().expect("so many outputs"))
    }
}

fn slices<const N: usize>(list: &[Lent]) -> [&[u8]; N] {
    let list: Vec<_> = list.iter().map(Lent::bytes).collect();
    list.try_into().expect("so many inputs")
}

fn names(op: Op) -> (&'static [&'static str], &'static [&'static str]) {
    const DOCUMENT_OUT: [&str; 2] = ["metadata_out", "value_out"];
    match op {
        Op::Check | Op::Box => (&["metadata", "value"], &[]),
        Op::Find => (&["metadata", "value", "path"], &[]),
        Op::Normalise => (&["metadata", "value"], &DOCUMENT_OUT),
        Op::Shred => (&["schema", "metadata", "value"], &["row_out"]),
        Op::Rebuild => (&["schema", "row"], &DOCUMENT_OUT),
        Op::Cell => (&["bytes"], &[]),
        Op::Judge => (&["schema", "row"], &[]),
    }
}

/// A number that goes with a case (FNV-1a over its inputs, code and rooms).
pub fn mark(case: &Case) -> u64 {
    let mut mark = 0xCBF2_9CE4_8422_2325u64;
    let mut add = |byte: u8| mark = (mark ^ u64::from(byte)).wrapping_mul(0x0100_0000_01B3);
    add(parts::code(case));
    for input in parts::inputs(case) {
        input.len().to_le_bytes().into_iter().for_each(&mut add);
        input.iter().copied().for_each(&mut add);
    }
    parts::rooms(case).iter().flat_map(|room| room.to_le_bytes()).for_each(&mut add);
    mark
}

fn filled(fill: &mut Rng, length: usize) -> Vec<u8> {
    let mut bytes = Vec::with_capacity(length + 8);
    while bytes.len() < length {
        bytes.extend_from_slice(&fill.bits().to_le_bytes());
    }
    bytes.truncate(length);
    bytes
}

#[cfg(test)]
mod tests {
    use super::*;
    use second::generate;

    #[test]
    fn a_case_is_lent_alike_each_time() {
        let case = Case::parse("normalise 010000 00 20 30").unwrap();
        assert_eq!(Loan::new(&case, &[]), Loan::new(&case, &[]));
        let other = Case::parse("normalise 010000 00 20 31").unwrap();
        assert_ne!(mark(&case), mark(&other));
    }

    #[test]
    fn what_is_lent_is_the_case() {
        let mut rng = Rng::new(3);
        for op in Op::ALL {
            let case = generate::case(op, &mut rng);
            let loan = Loan::new(&case, &[1, 2, 3]);
            let lent: Vec<_> = loan.inputs.iter().map(|lent| lent.bytes().to_vec()).collect();
            assert_eq!(lent.iter().collect::<Vec<_>>(), parts::inputs(&case));
            let rooms: Vec<_> = loan.outputs.iter().map(|lent| lent.bytes().len()).collect();
            assert_eq!(rooms, parts::rooms(&case));
            assert_eq!(loan.line(), case.line());
        }
    }

    #[test]
    fn the_bytes_around_a_slice_are_told_from_it() {
        let case = Case::parse("shred 000000 010000 00 20").unwrap();
        let loan = Loan::new(&case, &[]);
        for (at, index) in [(0, -16), (15, -1), (16, 0), (35, 19), (36, 20)] {
            let mut other = loan.clone();
            other.outputs[0].whole[at] ^= 1;
            let (found, ..) = loan.outputs[0].first_difference(&other.outputs[0]).unwrap();
            assert_eq!(found, index);
        }
    }
}
