//! Generated cases for each operation: good ones in odd encodings, broken ones, and rooms.

pub mod damage;
pub mod docs;
pub mod encode;
pub mod kinds;
pub mod large;
pub mod pieces;
pub mod places;
pub mod rng;
pub mod rows;
pub mod rules;
pub mod schemas;

pub use rng::Rng;

use crate::bytes::push_frame;
use crate::doc::Doc;
use crate::limits;
use crate::operations;
use crate::path::{push_step, Step};
use crate::refusal::Lengths;
use crate::schema::Node;
use crate::value::{Size, SIZES};
use crate::vectors::{Case, Op};
use damage::{damage, spoil_metadata};
use docs::Made;
use encode::{names_used, Encoder, Names, FAULTS};
use kinds::Lent;
use schemas::{encoded, schema_for};

/// A case of this operation.
pub fn case(op: Op, rng: &mut Rng) -> Case {
    match op {
        Op::Check => {
            let Variant { metadata, value } = any_variant(rng);
            Case::Check { metadata, value }
        }
        Op::Find => find_case(rng),
        Op::Normalise => normalise_case(rng),
        Op::Shred => shred_case(rng),
        Op::Rebuild => rebuild_case(rng),
        Op::Cell => cell_case(rng),
        Op::Box => {
            let doc = if rng.percent(75) { docs::lot(rng) } else { docs::doc(rng) };
            let Variant { metadata, value } = variant(rng, &doc);
            Case::Box { metadata, value }
        }
        Op::Judge => {
            let Lent { schema, row } = kinds::any(rng);
            Case::Judge { schema, row }
        }
    }
}

/// Metadata and value as they are lent.
#[derive(Clone, Debug)]
pub struct Variant {
    pub metadata: Vec<u8>,
    pub value: Vec<u8>,
}

/// A good encoding of a document, any of the many that mean it.
pub fn good_variant(rng: &mut Rng, doc: &Made) -> Variant {
    let mut list = Vec::new();
    names_used(doc, &mut list);
    let names = Names::odd(rng, list);
    let mut encoder = match rng.percent(20) {
        true => Encoder::plain(&names),
        false => Encoder::odd(&names),
    };
    let value = encoder.value(rng, doc);
    Variant { metadata: names.metadata(rng), value }
}

/// A document that grows when it is normalised.
pub fn growing_variant(rng: &mut Rng) -> Variant {
    let (doc, list) = docs::growing(rng);
    let names = Names::of(list);
    let value = Encoder::plain(&names).value(rng, &doc);
    Variant { metadata: names.metadata(rng), value }
}

fn any_variant(rng: &mut Rng) -> Variant {
    let doc = docs::doc(rng);
    variant(rng, &doc)
}

/// An encoding of a document: good, or now and then broken or too long.
fn variant(rng: &mut Rng, doc: &Made) -> Variant {
    if rng.permille(5) {
        return long_variant(rng);
    }
    let mut made = good_variant(rng, doc);
    if rng.percent(72) {
        return made;
    }
    match rng.below(6) {
        0..=2 => faulty_variant(rng, doc),
        3 => {
            spoil_metadata(rng, &mut made.metadata);
            made
        }
        4 => {
            damage(rng, &mut made.value);
            made
        }
        _ => {
            let part = if rng.percent(50) { &mut made.metadata } else { &mut made.value };
            damage(rng, part);
            made
        }
    }
}

fn faulty_variant(rng: &mut Rng, doc: &Made) -> Variant {
    let mut list = Vec::new();
    names_used(doc, &mut list);
    let names = Names::odd(rng, list);
    let (fault, after) = (rng.pick(&FAULTS), rng.pick(&[0, 0, 1, 3]));
    let value = Encoder::with_fault(&names, fault, after).value(rng, doc);
    Variant { metadata: names.metadata(rng), value }
}

/// Metadata or value of the greatest length, or one byte more; the other may be broken too.
fn long_variant(rng: &mut Rng) -> Variant {
    let doc = docs::tree(rng, 5);
    let mut made = good_variant(rng, &doc);
    let more = rng.pick(&[0, 1, 1, 2, 1000]);
    if rng.percent(50) {
        made.metadata = rows::long_metadata(limits::METADATA + more);
        made.value = vec![0x02, 1, 0, 0, 1, 0];
    } else {
        let text = Doc::Text(vec![b't'; limits::VALUE + more - 5].into());
        made.value = Encoder::plain(&Names::of(vec![])).value(rng, &text);
    }
    if rng.percent(30) {
        made.metadata[0] |= 0x20;
    }
    made
}

/// Room that is ample, exact, one short or none.
fn room(rng: &mut Rng, needed: usize) -> usize {
    match rng.below(10) {
        0 => 0,
        1 => needed.saturating_sub(1),
        2..=4 => needed,
        5 => 70_000,
        _ => needed + rng.below(40),
    }
}

fn rooms(rng: &mut Rng, needed: Lengths) -> Lengths {
    if rng.percent(30) {
        return [70_000, 20_000];
    }
    [room(rng, needed[0]), room(rng, needed[1])]
}

fn find_case(rng: &mut Rng) -> Case {
    let doc = docs::doc(rng);
    let Variant { metadata, value } = variant(rng, &doc);
    let mut path = path_into(rng, &doc);
    match rng.below(40) {
        0..=4 => damage(rng, &mut path),
        5 => push_frame(&mut path, 0x61, &[0, 0, 0][..rng.pick(&[0, 1, 3])]),
        6 => push_frame(&mut path, rng.pick(&[0x00, 0x41, 0x62]), b"a"),
        7 if rng.percent(30) => {
            let name = vec![b'p'; limits::PATH + rng.pick(&[0, 1, 50]) - 3];
            path = Vec::new();
            push_frame(&mut path, 0x60, &name);
        }
        _ => {}
    }
    Case::Find { metadata, value, path }
}

/// A path that leads into a document, now and then past it or astray.
pub fn path_into(rng: &mut Rng, doc: &Made) -> Vec<u8> {
    let mut path = Vec::new();
    let mut here = doc;
    while path.len() < 900 && rng.percent(80) {
        match here {
            Doc::Array(items) if !items.is_empty() && rng.percent(92) => {
                let index = rng.below(items.len());
                push_step(&mut path, Step::Index(index));
                here = &items[index];
            }
            Doc::Object(fields) if !fields.is_empty() && rng.percent(92) => {
                let (name, item) = &fields[rng.below(fields.len())];
                push_step(&mut path, Step::Name(name));
                here = item;
            }
            Doc::Array(items) if rng.percent(70) => {
                push_step(&mut path, Step::Index(items.len() + rng.pick(&[0, 1, 256])));
                break;
            }
            Doc::Array(_) | Doc::Object(_) => astray(rng, &mut path),
            _ if rng.percent(30) => astray(rng, &mut path),
            _ => break,
        }
    }
    path
}

fn astray(rng: &mut Rng, path: &mut Vec<u8>) {
    match rng.below(2) {
        0 => push_step(path, Step::Name(&docs::name(rng))),
        _ => push_step(path, Step::Index(rng.below(3))),
    }
}

fn normalise_case(rng: &mut Rng) -> Case {
    let Variant { metadata, value } = match rng.permille(4) {
        true => growing_variant(rng),
        false => any_variant(rng),
    };
    let made = operations::normalised(&metadata, &value);
    let needed = made.map_or([5, 5], |made| [made.metadata.len(), made.value.len()]);
    Case::Normalise { metadata, value, rooms: rooms(rng, needed) }
}

fn shred_case(rng: &mut Rng) -> Case {
    let (schema, Variant { metadata, value }) = match rng.below(1000) {
        0..=2 => (encoded(&schemas::any(rng, 1)), growing_variant(rng)),
        3..=5 => many_places(rng),
        _ => {
            let doc = docs::doc(rng);
            (any_schema(rng, &doc), variant(rng, &doc))
        }
    };
    let needed = operations::shredded(&schema, &metadata, &value).map_or(5, |row| row.len());
    Case::Shred { schema, metadata, value, room: room(rng, needed) }
}

/// A schema that suits a document, or is broken, or too long.
fn any_schema(rng: &mut Rng, doc: &Made) -> Vec<u8> {
    let node = schema_for(rng, doc);
    match rng.below(200) {
        0 => schemas::of_length(limits::SCHEMA + rng.below(3)),
        1..=20 => schemas::broken(rng, &node),
        21..=23 => encoded(&schemas::deep(rng, limits::LEVELS)),
        24..=30 => encoded(&schemas::any(rng, 1)),
        _ => encoded(&node),
    }
}

/// A short document whose row is long, as it has an empty place for each missing field; now and
/// then exactly as long as a row may be, or a byte or two longer.
fn many_places(rng: &mut Rng) -> (Vec<u8>, Variant) {
    let fields = rng.between(6, 18);
    let nodes = (0..fields).map(|i| (docs::numbered(i).into(), schemas::any(rng, limits::LEVELS)));
    let schema = encoded(&Node::List(Box::new(Node::Object(nodes.collect()))));
    // Two frames and the metadata, a string of no bytes, and a place for each object.
    let (outside, each) = (6 + 3 + 3 + 7, 6 + 3 * fields);
    let most = (limits::ROW - outside) / each;
    let mut count = rng.between(most / 2, most);
    let mut text = rng.below(3);
    if rng.percent(60) {
        count = most;
        text += limits::ROW - outside - count * each;
    }
    let mut items = vec![Doc::Object(vec![]); count];
    items.push(Doc::Text(vec![b'r'; text].into()));
    let names = Names::odd(rng, vec![]);
    let value = Encoder::plain(&names).value(rng, &Doc::Array(items));
    (schema, Variant { metadata: names.metadata(rng), value })
}

fn rebuild_case(rng: &mut Rng) -> Case {
    let Lent { schema, row } = kinds::any(rng);
    let made = operations::rebuilt(&schema, &row);
    let needed = made.map_or([5, 5], |made| [made.metadata.len(), made.value.len()]);
    Case::Rebuild { schema, row, rooms: rooms(rng, needed) }
}

fn cell_case(rng: &mut Rng) -> Case {
    let code = match rng.percent(90) {
        true => schemas::column_type(rng),
        false => rng.pick(&[0, 2, 8, 9, 10, 21, 22, 63, 64, 128, 255]),
    };
    let mut bytes = match SIZES.get(usize::from(code)) {
        Some(Size::Fixed(0)) => vec![rng.pick(&[0, 0, 1, 1, 2, 255])],
        Some(_) => docs::payload(rng, code),
        None => rng.bytes(4),
    };
    match rng.below(40) {
        0..=2 => bytes.push(0),
        3..=5 => drop(bytes.pop()),
        6 => bytes.clear(),
        7 if rng.percent(20) => bytes = vec![b'c'; limits::CELL + rng.below(3)],
        _ => {}
    }
    Case::Cell { code, bytes }
}
