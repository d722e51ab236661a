//! Rows and schemas taken apart into the pieces of the house framing, so that any piece can be harmed.

use super::rng::Rng;
use crate::bytes::Reader;

/// A piece: a tag, a length and a body.
#[derive(Clone, Debug, PartialEq, Eq)]
struct Piece {
    tag: u8,
    /// How much its length says beyond the body that it has.
    beyond: isize,
    body: Body,
}

#[derive(Clone, Debug, PartialEq, Eq)]
enum Body {
    Bytes(Vec<u8>),
    Pieces(Vec<Piece>),
}

/// What may happen to a piece.
#[derive(Clone, Copy, Debug, PartialEq, Eq)]
pub enum Harm {
    Tag,
    Longer,
    Shorter,
    Doubled,
    LeftOut,
    Swapped,
    Moved,
    Strange,
    ByteMore,
    ByteLess,
    ByteChanged,
}

/// All of them.
pub const HARMS: [Harm; 11] = [
    Harm::Tag,
    Harm::Longer,
    Harm::Shorter,
    Harm::Doubled,
    Harm::LeftOut,
    Harm::Swapped,
    Harm::Moved,
    Harm::Strange,
    Harm::ByteMore,
    Harm::ByteLess,
    Harm::ByteChanged,
];

/// Every tag of a row or a schema, and tags that are beside them.
const TAGS: [u8; 16] = [
    0x00, 0x01, 0x10, 0x11, 0x20, 0x21, 0x30, 0x31, 0x32, 0x40, 0x41, 0x42, 0x43, 0x50, 0x51, 0xFF,
];
/// The tags whose body may be pieces: of schemas 20, 30 and 31, of rows 42 and 50.
const AROUND: [u8; 5] = [0x20, 0x30, 0x31, 0x42, 0x50];

/// Harms one piece of a row or a schema, at any depth.
pub fn harm(rng: &mut Rng, harm: Harm, bytes: &mut Vec<u8>) {
    let Some(mut pieces) = read(bytes) else { return };
    harm_below(rng, harm, &mut pieces);
    bytes.clear();
    pieces.iter().for_each(|piece| piece.write(bytes));
}

/// The pieces that are exactly these bytes, as far as they are any.
fn read(bytes: &[u8]) -> Option<Vec<Piece>> {
    let mut reader = Reader::new(bytes);
    let mut pieces = Vec::new();
    while !reader.is_done() {
        let (tag, body) = reader.frame().ok()?;
        let inside = if AROUND.contains(&tag) { read(body) } else { None };
        let body = inside.map_or_else(|| Body::Bytes(body.to_vec()), Body::Pieces);
        pieces.push(Piece { tag, beyond: 0, body });
    }
    Some(pieces)
}

impl Piece {
    fn write(&self, out: &mut Vec<u8>) {
        out.extend_from_slice(&[self.tag, 0, 0]);
        let start = out.len();
        match &self.body {
            Body::Bytes(bytes) => out.extend_from_slice(bytes),
            Body::Pieces(pieces) => pieces.iter().for_each(|piece| piece.write(out)),
        }
        let length = (out.len() - start).wrapping_add_signed(self.beyond) as u16;
        out[start - 2..start].copy_from_slice(&length.to_le_bytes());
    }

    /// The body as bytes, which are pieces no more.
    fn bytes_mut(&mut self) -> &mut Vec<u8> {
        if let Body::Pieces(pieces) = &self.body {
            let mut bytes = Vec::new();
            pieces.iter().for_each(|piece| piece.write(&mut bytes));
            self.body = Body::Bytes(bytes);
        }
        match &mut self.body {
            Body::Bytes(bytes) => bytes,
            Body::Pieces(_) => unreachable!("pieces became bytes"),
        }
    }
}

/// Harms one of these pieces, or in most cases one inside of them.
fn harm_below(rng: &mut Rng, harm: Harm, pieces: &mut Vec<Piece>) {
    if rng.percent(80) {
        let inside = pieces.iter_mut().filter_map(|piece| match &mut piece.body {
            Body::Pieces(pieces) => Some(pieces),
            Body::Bytes(_) => None,
        });
        let mut inside: Vec<_> = inside.collect();
        if !inside.is_empty() {
            let at = rng.below(inside.len());
            return harm_below(rng, harm, inside.swap_remove(at));
        }
    }
    harm_one(rng, harm, pieces);
}

fn harm_one(rng: &mut Rng, harm: Harm, pieces: &mut Vec<Piece>) {
    if pieces.is_empty() || harm == Harm::Strange {
        let body = Body::Bytes(vec![0; rng.below(3)]);
        let strange = Piece { tag: rng.pick(&TAGS), beyond: 0, body };
        return pieces.insert(rng.below(pieces.len() + 1), strange);
    }
    let count = pieces.len();
    let (at, other) = (rng.below(count), rng.below(count));
    match harm {
        Harm::Tag => pieces[at].tag = rng.pick(&TAGS),
        Harm::Longer => pieces[at].beyond += 1,
        Harm::Shorter => pieces[at].beyond -= 1,
        Harm::Doubled => pieces.insert(other, pieces[at].clone()),
        Harm::LeftOut => drop(pieces.remove(at)),
        Harm::Swapped => pieces.swap(at, (at + 1) % count),
        Harm::Moved => {
            let piece = pieces.remove(at);
            pieces.insert(other, piece);
        }
        Harm::Strange => {}
        Harm::ByteMore => pieces[at].bytes_mut().push(rng.pick(&[0, 1, 0x50, 0xFF])),
        Harm::ByteLess => drop(pieces[at].bytes_mut().pop()),
        Harm::ByteChanged => {
            let bytes = pieces[at].bytes_mut();
            let place = rng.below(bytes.len().max(1));
            bytes.get_mut(place).into_iter().for_each(|byte| *byte ^= 1 << rng.below(8));
        }
    }
}

#[cfg(test)]
mod tests {
    use super::*;
    use crate::generate::kinds::{of, Kind, Lent};
    use crate::operations::judge;

    #[test]
    fn pieces_are_written_as_they_were() {
        let mut rng = Rng::new(26);
        for _ in 0..200 {
            let Lent { schema, row } = of(Kind::Lawful, &mut rng);
            for bytes in [schema, row] {
                let mut again = Vec::new();
                read(&bytes).unwrap().iter().for_each(|piece| piece.write(&mut again));
                assert_eq!(again, bytes);
            }
        }
    }

    #[test]
    fn every_harm_is_refused_in_rows_and_in_schemas() {
        for how in HARMS {
            let mut rng = Rng::new(27);
            let mut refused = [0, 0];
            for _ in 0..300 {
                let Lent { schema, row } = of(Kind::Lawful, &mut rng);
                let (mut other_schema, mut other_row) = (schema.clone(), row.clone());
                harm(&mut rng, how, &mut other_schema);
                harm(&mut rng, how, &mut other_row);
                refused[0] += usize::from(judge(&schema, &other_row).is_err());
                let number = judge(&other_schema, &row).err().map(|refusal| refusal.number());
                refused[1] += usize::from(number == Some(4));
            }
            assert!(refused.into_iter().all(|count| count > 40), "{how:?}: {refused:?}");
        }
    }
}
