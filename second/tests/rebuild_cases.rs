//! What the cases of rebuild have: every way in which a lawful row may be written, both sides of the
//! limit of a value, and rooms that are short by one byte.

use second::bytes::{size_of_number, Reader};
use second::doc::Doc;
use second::generate::{case, Rng};
use second::limits;
use second::metadata::Dictionary;
use second::normal::{normal, Normal};
use second::operations::{rebuilt, shredded};
use second::rebuild::rebuild;
use second::refusal::Refusal;
use second::row::{Place, Row, Typed, LEFTOVER, METADATA, PLACE, TYPED};
use second::schema::Node;
use second::value::{open, Shape, MAX_SHORT};
use second::vectors::{Case, Op};
use std::collections::BTreeMap;

const CASES: usize = 10_000;

/// How many of the cases have each thing.
#[derive(Default)]
struct Counts(BTreeMap<&'static str, usize>);

impl Counts {
    fn add(&mut self, what: &'static str, has: bool) {
        *self.0.entry(what).or_insert(0) += usize::from(has);
    }
}

fn rebuild_cases(seed: u64) -> impl Iterator<Item = (Vec<u8>, Vec<u8>, [usize; 2])> {
    let mut rng = Rng::new(seed);
    (0..CASES).map(move |_| match case(Op::Rebuild, &mut rng) {
        Case::Rebuild { schema, row, rooms } => (schema, row, rooms),
        _ => unreachable!("a case of its operation"),
    })
}

/// The leftovers of a row that parses, as they stand.
fn leftovers<'a>(node: &Node, body: &'a [u8], found: &mut Vec<&'a [u8]>) {
    let mut parts = Reader::new(body);
    while !parts.is_done() {
        let (tag, part) = parts.frame().expect("a part");
        if tag == LEFTOVER {
            found.push(part);
            continue;
        }
        let mut places = Reader::new(part);
        match node {
            Node::List(element) => {
                while !places.is_done() {
                    leftovers(element, places.tagged(PLACE).expect("a place"), found);
                }
            }
            Node::Object(fields) => {
                for (_, node) in fields {
                    leftovers(node, places.tagged(PLACE).expect("a place"), found);
                }
            }
            _ => assert_eq!(tag, TYPED),
        }
    }
}

/// What is odd about a value, at every level of it.
fn odd_value(names: &Dictionary, bytes: &[u8], found: &mut Counts) {
    let first = bytes[0];
    let ranges = match open(names, bytes).expect("a good value") {
        Shape::Text(text) => {
            found.add("a long string of few bytes", first & 3 == 0 && text.len() <= MAX_SHORT);
            return;
        }
        Shape::Array(ranges) => {
            found.add("a large array of few", first & 0x10 != 0 && ranges.len() <= 255);
            ranges
        }
        Shape::Object(fields) => {
            let ranges: Vec<_> = fields.into_iter().map(|(_, range)| range).collect();
            found.add("a large object of few", first & 0x40 != 0 && ranges.len() <= 255);
            found.add("ids of more than one byte", first & 0x30 != 0);
            let falls = ranges.windows(2).any(|pair| pair[1].start < pair[0].start);
            found.add("values out of order", falls);
            ranges
        }
        _ => return,
    };
    let area: usize = ranges.iter().map(|range| range.len()).sum();
    found.add("wide offsets", usize::from(first >> 2 & 3) + 1 > size_of_number(area));
    ranges.into_iter().for_each(|range| odd_value(names, &bytes[range], found));
}

/// Whether somewhere a left over field stands between two typed ones.
fn interleaves(node: &Node, place: &Place) -> bool {
    match (node, &place.typed) {
        (Node::Object(nodes), Some(Typed::Object(places))) => {
            let both = || nodes.iter().zip(places);
            let present = both().filter(|(_, place)| !place.is_empty()).map(|((name, _), _)| name);
            let (first, last) = (present.clone().min(), present.max());
            let between = match &place.leftover {
                Some(Doc::Object(fields)) => fields
                    .iter()
                    .any(|(name, _)| first.is_some_and(|f| f < name) && last > Some(name)),
                _ => false,
            };
            between || both().any(|((_, node), place)| interleaves(node, place))
        }
        (Node::List(element), Some(Typed::List(places))) => {
            places.iter().any(|place| interleaves(element, place))
        }
        _ => false,
    }
}

fn add_lawful(schema: &[u8], row: &[u8], made: &Normal, counts: &mut Counts) {
    let node = Node::read(schema).expect("a good schema");
    let parsed = Row::read(&node, row).expect("a row that parses");
    let names = parsed.names.names();
    let mut rising = names.to_vec();
    rising.sort_unstable();
    counts.add("names unsorted", rising != names);
    rising.dedup();
    counts.add("names repeated", rising.len() < names.len());
    let used = Dictionary::read(&made.metadata).expect("normal metadata").names().len();
    counts.add("names that nothing uses", used < rising.len());
    counts.add("more than 255 names used", used > 255);
    counts.add("an empty outermost place", parsed.place.is_empty());
    counts.add("typed and left over fields by turns", interleaves(&node, &parsed.place));
    counts.add(
        "as shredding writes it",
        shredded(schema, &made.metadata, &made.value) == Ok(row.to_vec()),
    );
    let mut reader = Reader::new(row);
    reader.tagged(METADATA).expect("metadata");
    let mut found = Vec::new();
    leftovers(&node, reader.tagged(PLACE).expect("a place"), &mut found);
    let mut odd = Counts::default();
    found.into_iter().for_each(|leftover| odd_value(&parsed.names, leftover, &mut odd));
    odd.0.into_iter().for_each(|(what, count)| counts.add(what, count > 0));
}

#[test]
fn lawful_rows_are_written_in_every_way() {
    let mut counts = Counts::default();
    for (schema, row, _) in rebuild_cases(41) {
        if let Ok(made) = rebuilt(&schema, &row) {
            add_lawful(&schema, &row, &made, &mut counts);
        }
    }
    assert_eq!(counts.0.len(), 13, "{:?}", counts.0);
    assert!(counts.0.values().all(|&count| count >= 20), "{:?}", counts.0);
}

/// How long the normal value of a lawful row is, be it too long or not; and what kind it is of.
fn normal_length(schema: &[u8], row: &[u8]) -> (usize, &'static str) {
    let node = Node::read(schema).expect("a good schema");
    let doc = rebuild(&node, Row::read(&node, row).expect("a row")).expect("a lawful row");
    let kind = match doc {
        Doc::Array(_) => "array",
        Doc::Object(_) => "object",
        _ => "scalar",
    };
    (normal(&doc).value.len(), kind)
}

#[test]
fn values_of_the_greatest_length_and_one_more() {
    let mut found = BTreeMap::new();
    for (schema, row, _) in rebuild_cases(42) {
        if matches!(rebuilt(&schema, &row), Ok(_) | Err(Refusal::TooLarge)) {
            *found.entry(normal_length(&schema, &row)).or_insert(0) += 1;
        }
    }
    for length in [limits::VALUE, limits::VALUE + 1] {
        for kind in ["scalar", "array", "object"] {
            let count = found.get(&(length, kind)).copied().unwrap_or(0);
            assert!(count > 2, "{length}, {kind}: {count}");
        }
    }
}

#[test]
fn rooms_are_short_by_one_byte() {
    let mut counts = Counts::default();
    for (schema, row, [metadata_room, value_room]) in rebuild_cases(43) {
        let Ok(Normal { metadata, value }) = rebuilt(&schema, &row) else { continue };
        let (first, second) = (metadata.len(), value.len());
        let (fits, other) = (metadata_room >= first, value_room >= second);
        counts.add("the metadata's alone", metadata_room + 1 == first && other);
        counts.add("the value's alone", value_room + 1 == second && fits);
        counts.add("both", metadata_room + 1 == first && value_room + 1 == second);
        counts.add("neither, exactly", metadata_room == first && value_room == second);
        counts.add("neither, with bytes behind", metadata_room > first && value_room > second);
    }
    assert!(counts.0.values().all(|&count| count >= 10), "{:?}", counts.0);
}
