//! Cases that are the same in every run: every first byte, tag and code at small lengths, and every
//! limit from both sides.

use crate::parts;
use crate::vary::{How, Trial};
use second::bytes::push_frame;
use second::doc::Doc;
use second::generate::encode::{Encoder, Names};
use second::generate::{docs, rows, schemas, Rng};
use second::limits;
use second::row::{LEFTOVER, METADATA, PLACE, TYPED};
use second::value::{Size, SIZES};
use second::vectors::{Case, Op};

/// No names.
const EMPTY: [u8; 3] = [0x01, 0, 0];
/// The names b and a.
const NAMES: [u8; 7] = [0x01, 2, 0, 1, 2, 0x62, 0x61];
/// {a: null, b: true} under those.
const OBJECT: [u8; 9] = [0x02, 2, 1, 0, 0, 1, 2, 0x00, 0x04];
/// [null, true].
const ARRAY: [u8; 7] = [0x03, 2, 0, 1, 2, 0x00, 0x04];

/// All swept cases of an operation.
pub fn sweep(op: Op) -> Vec<Trial> {
    let cases = match op {
        Op::Check | Op::Normalise | Op::Box => variants(op),
        Op::Find => [variants(op), paths()].concat(),
        Op::Shred => [variants(op), columns(), shred_of_all_tags()].concat(),
        Op::Rebuild | Op::Judge => {
            [cells_in_rows(op), places(op), rows_of_all_tags(op), one_row(op), sizes(op)].concat()
        }
        Op::Cell => cells(),
    };
    cases.into_iter().chain(long(op)).map(|case| Trial::new(How::Swept, case)).collect()
}

/// So many bytes: zeros, ones, all bits, or counting.
fn fills(length: usize) -> [Vec<u8>; 4] {
    let counting = (0..length).map(|at| at as u8).collect();
    [vec![0; length], vec![1; length], vec![0xFF; length], counting]
}

fn heads_and_fills(lengths: std::ops::RangeInclusive<usize>) -> impl Iterator<Item = Vec<u8>> {
    let bodies = lengths.flat_map(fills);
    bodies.flat_map(|body| (0..=255).map(move |first| [vec![first], body.clone()].concat()))
}

/// Values and metadata of every first byte.
fn variants(op: Op) -> Vec<Case> {
    let case =
        |metadata: &[u8], value: &[u8]| parts::on_variant(op, metadata, value).expect("a Variant");
    let mut cases = vec![case(&[], &[]), case(&EMPTY, &[]), case(&[], &[0])];
    for value in heads_and_fills(0..=18) {
        cases.push(case(&NAMES, &value));
    }
    for metadata in heads_and_fills(0..=12) {
        cases.push(case(&metadata, &[0]));
    }
    // Each byte of a good object, array and dictionary, with every value.
    for byte in 0..=255 {
        for good in [&OBJECT[..], &ARRAY] {
            (0..good.len()).for_each(|at| cases.push(case(&NAMES, &put(good, at, byte))));
        }
        (0..NAMES.len()).for_each(|at| cases.push(case(&put(&NAMES, at, byte), &OBJECT)));
    }
    // Short strings and long ones, around the length from which they are long.
    for length in 0..=66 {
        cases.push(case(&EMPTY, &text(length)));
        cases.push(case(&EMPTY, &[vec![(length as u8) << 2 | 1], vec![b's'; length]].concat()));
    }
    cases
}

fn put(bytes: &[u8], at: usize, byte: u8) -> Vec<u8> {
    let mut bytes = bytes.to_vec();
    bytes[at] = byte;
    bytes
}

/// A long string of so many bytes.
fn text(length: usize) -> Vec<u8> {
    [vec![0x40], (length as u32).to_le_bytes().to_vec(), vec![b't'; length]].concat()
}

fn frame(tag: u8, body: &[u8]) -> Vec<u8> {
    let mut out = Vec::new();
    push_frame(&mut out, tag, body);
    out
}

/// Paths of every tag, into an object and an array.
fn paths() -> Vec<Case> {
    let mut cases = Vec::new();
    let mut add = |path: Vec<u8>| {
        for value in [&OBJECT[..], &ARRAY, &[0]] {
            cases.push(Case::Find {
                metadata: NAMES.to_vec(),
                value: value.to_vec(),
                path: path.clone(),
            });
        }
    };
    for body in [&[][..], &[0], b"a", b"b", b"c", &[0, 0], &[1, 0], &[2, 0], &[0, 1], &[0, 0, 0]] {
        (0..=255).for_each(|tag| add(frame(tag, body)));
        (0..3 + body.len()).for_each(|length| add(frame(0x61, body)[..length].to_vec()));
    }
    cases
}

/// A value of every primitive type in a column of every code.
fn columns() -> Vec<Case> {
    let mut cases = Vec::new();
    for kind in 0..SIZES.len() as u8 {
        let payload = match SIZES[usize::from(kind)] {
            Size::Fixed(size) => vec![7; size],
            Size::Prefixed => vec![1, 0, 0, 0, 7],
        };
        let value = [vec![kind << 2], payload].concat();
        for code in 0..=255 {
            cases.push(shred(frame(0x10, &[code]), &EMPTY, &value));
        }
    }
    cases
}

fn shred(schema: Vec<u8>, metadata: &[u8], value: &[u8]) -> Case {
    Case::Shred { schema, metadata: metadata.to_vec(), value: value.to_vec(), room: 200 }
}

/// Schemas of every tag, at the top and below.
fn schemas_of_all_tags() -> Vec<Vec<u8>> {
    let bodies = [vec![], vec![6], frame(0, &[]), field(b"a"), [field(b"a"), field(b"b")].concat()];
    let mut schemas = Vec::new();
    for body in &bodies {
        for tag in 0..=255 {
            let node = frame(tag, body);
            schemas.extend([frame(0x20, &node), frame(0x30, &node), node]);
        }
    }
    schemas
}

/// An object and an array under schemas of every tag.
fn shred_of_all_tags() -> Vec<Case> {
    let both = |schema: Vec<u8>| [&OBJECT[..], &ARRAY].map(|v| shred(schema.clone(), &NAMES, v));
    schemas_of_all_tags().into_iter().flat_map(both).collect()
}

/// A schema field of this name, leftover only.
fn field(name: &[u8]) -> Vec<u8> {
    frame(0x31, &[frame(0x32, name), frame(0, &[])].concat())
}

/// A case on a row with this place, under the names b and a.
fn on_place(op: Op, schema: Vec<u8>, place: &[u8]) -> Case {
    let row = [frame(METADATA, &NAMES), place.to_vec()].concat();
    let case = parts::on_row(op, schema, row).expect("a row");
    parts::with_rooms(&case, &[100, 200])
}

/// Rows with an empty place, which every node allows, and with a null, under schemas of every tag and
/// of every type code.
fn rows_of_all_tags(op: Op) -> Vec<Case> {
    let codes = (0..=255).map(|code| frame(0x10, &[code]));
    let places = [frame(PLACE, &[]), frame(PLACE, &frame(LEFTOVER, &[0]))];
    let both = |schema: Vec<u8>| places.clone().map(|place| on_place(op, schema.clone(), &place));
    schemas_of_all_tags().into_iter().chain(codes).flat_map(both).collect()
}

/// A row of every kind of piece: each byte of it and of its schema with every value, and cut at each.
fn one_row(op: Op) -> Vec<Case> {
    let field = |name: &[u8], node: Vec<u8>| frame(0x31, &[frame(0x32, name), node].concat());
    let booleans = frame(0x20, &frame(0x10, &[1]));
    let schema = frame(0x30, &[field(b"a", booleans), field(b"b", frame(0, &[]))].concat());
    let cell = |part: Vec<u8>| frame(PLACE, &part);
    let list = [cell(frame(TYPED, &[1])), cell(frame(LEFTOVER, &[0]))].concat();
    let places = [cell(frame(TYPED, &list)), cell(frame(LEFTOVER, &ARRAY))].concat();
    let object = [frame(LEFTOVER, &[2, 1, 2, 0, 1, 0]), frame(TYPED, &places)].concat();
    let metadata = frame(METADATA, &[0x01, 3, 0, 1, 2, 3, 0x62, 0x61, 0x63]);
    let row = [metadata, frame(PLACE, &object)].concat();
    let good = parts::on_row(op, schema, row).expect("a row");
    let mut cases = vec![good.clone()];
    for at in 0..2 {
        let bytes = parts::inputs(&good)[at];
        let changed =
            (0..bytes.len()).flat_map(|at| (0..=255).map(move |byte| put(bytes, at, byte)));
        let cut = (0..bytes.len()).map(|length| bytes[..length].to_vec());
        for bytes in changed.chain(cut) {
            let mut case = good.clone();
            *parts::input_mut(&mut case, at) = bytes;
            cases.push(case);
        }
    }
    cases
}

/// Rows around the lengths, and dictionaries around the counts, at which a program may change its ways:
/// powers of two.
fn sizes(op: Op) -> Vec<Case> {
    let mut cases = Vec::new();
    let mut add = |schema: Vec<u8>, metadata: &[u8], inside: &[u8]| {
        let row = [frame(METADATA, metadata), frame(PLACE, inside)].concat();
        cases.extend(parts::on_row(op, schema, row));
    };
    let around = |size: usize| size - 1..size + 2;
    for length in [1_024, 4_096, 16_384, 32_768].into_iter().flat_map(around) {
        add(frame(0x10, &[16]), &EMPTY, &frame(TYPED, &vec![b't'; length - 12]));
        // Booleans, beside metadata that fills the row up.
        let element = frame(PLACE, &frame(TYPED, &[1]));
        let names = 300 + (length - 309) % element.len();
        let list = frame(TYPED, &element.repeat((length - 9 - names) / element.len()));
        add(frame(0x20, &frame(0x10, &[1])), &rows::long_metadata(names), &list);
    }
    for count in [64, 256, 1_024, 2_048].into_iter().flat_map(around) {
        // Names that fall, all used by one leftover.
        let names: Vec<_> =
            (0..count).rev().map(|number| (number as u16).to_be_bytes().to_vec()).collect();
        let doc = docs::object(names.iter().map(|name| (name.clone(), Doc::Null)).collect());
        let (names, mut rng) = (Names::of(names), Rng::new(1));
        let leftover = Encoder::plain(&names).value(&mut rng, &doc);
        add(frame(0, &[]), &names.metadata(&mut rng), &frame(LEFTOVER, &leftover));
    }
    cases
}

/// Cells of every code at small lengths, in a row.
fn cells_in_rows(op: Op) -> Vec<Case> {
    let mut cases = Vec::new();
    for code in 0..=22 {
        for cell in (0..=18).flat_map(fills) {
            cases.push(on_place(op, frame(0x10, &[code]), &frame(PLACE, &frame(TYPED, &cell))));
        }
    }
    cases
}

/// Places of every tag, empty and full, under each kind of node.
fn places(op: Op) -> Vec<Case> {
    let nodes =
        [frame(0, &[]), frame(0x10, &[1]), frame(0x20, &frame(0, &[])), frame(0x30, &field(b"a"))];
    let (null, object) = (frame(LEFTOVER, &[0]), frame(LEFTOVER, &OBJECT));
    let (empty, truth) = (frame(PLACE, &[]), frame(TYPED, &[1]));
    let (list, full) = (frame(TYPED, &empty), frame(TYPED, &frame(PLACE, &null)));
    let parts = [
        &[][..],
        &null,
        &object,
        &frame(LEFTOVER, &ARRAY),
        &truth,
        &list,
        &full,
        &frame(TYPED, &[]),
    ];
    let mut cases = Vec::new();
    let mut add = |node: &[u8], place: Vec<u8>| cases.push(on_place(op, node.to_vec(), &place));
    for node in nodes {
        for one in parts {
            for tag in 0..=255 {
                add(&node, frame(tag, one));
                add(&node, frame(PLACE, &frame(tag, one)));
            }
            for other in parts {
                add(&node, frame(PLACE, &[one, other].concat()));
                add(&node, [frame(PLACE, one), other.to_vec()].concat());
            }
        }
    }
    cases
}

/// Cells of every code at small lengths.
fn cells() -> Vec<Case> {
    let mut cases = Vec::new();
    for code in 0..=255 {
        for bytes in (0..=18).flat_map(fills) {
            cases.push(Case::Cell { code, bytes });
        }
        cases.push(Case::Cell { code, bytes: vec![2] });
        cases.push(Case::Cell { code, bytes: vec![0x80] });
    }
    cases
}

/// Each input at its limit and above it, also where two bytes of its length say that it is short; the
/// other inputs good, and broken too.
fn long(op: Op) -> Vec<Case> {
    let mut cases = Vec::new();
    for (at, &limit) in parts::input_limits(op).iter().enumerate() {
        for length in [limit - 1, limit, limit + 1, 65_536, 65_537, 65_539] {
            let mut good = short(op);
            *parts::input_mut(&mut good, at) = of_length(op, at, length);
            let mut zeros = good.clone();
            parts::input_mut(&mut zeros, at).fill(0);
            for case in [good, zeros] {
                cases.push(case.clone());
                for other in (0..parts::inputs(&case).len()).filter(|&other| other != at) {
                    let mut broken = case.clone();
                    parts::input_mut(&mut broken, other).insert(0, 0xFF);
                    cases.push(broken);
                }
            }
        }
    }
    cases
}

/// A short good case with room for a long answer.
fn short(op: Op) -> Case {
    match op {
        Op::Rebuild | Op::Judge => {
            let row = [frame(METADATA, &EMPTY), frame(PLACE, &frame(TYPED, b"r"))].concat();
            parts::on_row(op, frame(0x10, &[16]), row).expect("a row")
        }
        Op::Cell => Case::Cell { code: 16, bytes: vec![] },
        _ => {
            let case = parts::on_variant(op, &EMPTY, &[0]).expect("a Variant");
            parts::with_rooms(&case, &vec![66_000; parts::rooms(&case).len()])
        }
    }
}

/// A good input of so many bytes, as far as its rules allow.
fn of_length(op: Op, at: usize, length: usize) -> Vec<u8> {
    match (op, at) {
        (Op::Cell, _) => vec![b'c'; length],
        (Op::Find, 2) if length < 65_536 => frame(0x60, &vec![b'p'; length - 3]),
        (Op::Find, 2) => vec![0x60; length],
        (Op::Shred | Op::Rebuild | Op::Judge, 0) if length < 65_000 => schemas::of_length(length),
        (Op::Shred | Op::Rebuild | Op::Judge, 0) => [vec![0, 0, 0], vec![0; length - 3]].concat(),
        (Op::Rebuild | Op::Judge, _) if length <= limits::ROW => {
            let typed = frame(TYPED, &vec![b'r'; length - 12]);
            [frame(METADATA, &EMPTY), frame(PLACE, &typed)].concat()
        }
        (Op::Rebuild | Op::Judge, _) => vec![METADATA; length],
        (op, at) if parts::metadata_at(op) == Some(at) => rows::long_metadata(length),
        _ => text(length - 5),
    }
}

#[cfg(test)]
mod tests {
    use super::*;
    use second::operations::answer;
    use std::collections::BTreeSet;

    #[test]
    fn every_operation_is_swept_on_both_sides() {
        for op in Op::ALL {
            let trials = sweep(op);
            let numbers: BTreeSet<u8> =
                trials.iter().map(|trial| answer(&trial.case).number()).collect();
            assert!(numbers.contains(&0) && numbers.contains(&1), "{}: {numbers:?}", op.name());
            assert!(numbers.len() > 3, "{}: {numbers:?}", op.name());
        }
    }

    #[test]
    fn inputs_have_the_length_asked_for() {
        for op in Op::ALL {
            for (at, &limit) in parts::input_limits(op).iter().enumerate() {
                for length in [limit - 1, limit, limit + 1, 65_536, 65_539] {
                    assert_eq!(of_length(op, at, length).len(), length, "{} {at}", op.name());
                }
            }
        }
    }

    #[test]
    fn rows_of_these_sizes_are_lawful() {
        let cases = sizes(Op::Judge);
        let lengths: BTreeSet<usize> =
            cases.iter().map(|case| parts::inputs(case)[1].len()).collect();
        assert!((1_023..=1_025).chain(16_383..=16_385).all(|length| lengths.contains(&length)));
        assert!(cases.iter().all(|case| answer(case).number() == 0));
    }

    #[test]
    fn a_limit_is_good_and_one_more_is_1() {
        for op in [Op::Check, Op::Find, Op::Normalise, Op::Shred, Op::Box, Op::Cell] {
            for (at, &limit) in parts::input_limits(op).iter().enumerate() {
                let number = |length: usize| {
                    let mut case = short(op);
                    *parts::input_mut(&mut case, at) = of_length(op, at, length);
                    answer(&case).number()
                };
                assert_eq!((number(limit), number(limit + 1)), (0, 1), "{} {at}", op.name());
            }
        }
    }
}
