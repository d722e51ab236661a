//! The rows that are timed for judge and for rebuild, beside those of the documents: small ones,
//! full-size ones, and those that cost most where a step is repeated for each place, field or name.

use super::shapes::{encode, full_parcels, like_name, metadata, one_letter, two_letters, Layout};
use super::Timed;
use crate::parts;
use second::bytes::push_frame;
use second::cell::cell_of;
use second::doc::Doc;
use second::generate::docs::{self, Made};
use second::generate::encode::{names_used, Names};
use second::generate::places::of_document;
use second::generate::rows::written_under;
use second::generate::rules::Plan;
use second::generate::schemas::{encoded, MadeNode};
use second::generate::Rng;
use second::limits;
use second::operations::rebuilt;
use second::row::{LEFTOVER, METADATA, PLACE, TYPED};
use second::schema::Node;
use second::value::{STRING, TRUE};
use second::vectors::{Case, Op};
use std::ops::Range;

/// How far a row is filled: up to its own limit, or up to that of its document's normal value.
#[derive(Clone, Copy, PartialEq, Eq)]
enum Full {
    Row,
    Value,
}

/// A row under its schema.
struct Rowed {
    shape: String,
    schema: Vec<u8>,
    row: Vec<u8>,
}

/// All of these rows, as cases of an operation on rows.
pub fn rows(op: Op) -> Vec<Timed> {
    let full = if op == Op::Rebuild { Full::Value } else { Full::Row };
    let mut all =
        vec![small(), lists(full), wide(full), dictionaries(full), beside(full), parcels()];
    if op == Op::Rebuild {
        all.push(too_large());
    }
    let case = |Rowed { shape, schema, row }| Timed {
        shape,
        case: parts::on_row(op, schema, row).expect("an operation on rows"),
    };
    all.into_iter().flatten().map(case).collect()
}

/// The documents of these rows, to be shredded, and those whose row passes its limit.
pub fn documents() -> Vec<Timed> {
    let all = [
        small(),
        lists(Full::Value),
        wide(Full::Value),
        dictionaries(Full::Value),
        beside(Full::Value),
        parcels(),
    ];
    let of = |Rowed { shape, schema, row }: Rowed| {
        let made = rebuilt(&schema, &row).ok()?;
        Some(shredded(&shape, schema, made.metadata, made.value))
    };
    all.into_iter().flatten().filter_map(of).chain(too_long()).collect()
}

fn shredded(shape: &str, schema: Vec<u8>, metadata: Vec<u8>, value: Vec<u8>) -> Timed {
    let case = Case::Shred { schema, metadata, value, room: limits::ROW };
    Timed { shape: shape.to_string(), case }
}

/// Lists of empty objects under hundreds of fields: few bytes that ask for a row of millions.
fn too_long() -> Vec<Timed> {
    let names: Vec<_> = (0..370).map(two_letters).collect();
    let schema = encoded(&list(object(&names)));
    let objects = |count: usize| {
        let doc = Doc::Array(vec![Doc::Object(vec![]); count]);
        let (metadata, value) = encode(&doc, &[], Layout::Sorted);
        shredded(&format!("refused as a row too long: {count} empty objects"), schema.clone(), metadata, value)
    };
    vec![objects(60), objects(3_000)]
}

/// A row of this metadata and what its outermost place holds.
fn rowed(shape: &str, node: &MadeNode, metadata: &[u8], inside: &[u8]) -> Rowed {
    let row = [frame(METADATA, metadata), frame(PLACE, inside)].concat();
    Rowed { shape: shape.to_string(), schema: encoded(node), row }
}

fn frame(tag: u8, body: &[u8]) -> Vec<u8> {
    let mut out = Vec::new();
    push_frame(&mut out, tag, body);
    out
}

fn none() -> Vec<u8> {
    metadata(&[], true)
}

/// Names in no order.
fn shuffled(names: &[Vec<u8>]) -> Vec<u8> {
    let mut names = names.to_vec();
    Rng::new(1).shuffle(&mut names);
    metadata(&names, false)
}

/// A list under a node, of as many of these elements as there is room for.
fn filled(full: Full, node: &MadeNode, metadata: &[u8], element: &[u8]) -> Vec<u8> {
    let of = |count: usize| frame(TYPED, &element.repeat(count));
    let most = (limits::ROW - 9 - metadata.len()) / element.len();
    if full == Full::Row {
        return of(most);
    }
    let fits = |&count: &usize| {
        let Rowed { schema, row, .. } = rowed("", node, metadata, &of(count));
        rebuilt(&schema, &row).is_ok()
    };
    of((1..=most).collect::<Vec<_>>().partition_point(fits))
}

/// A row of such a list.
fn filled_row(full: Full, shape: &str, node: &MadeNode, metadata: &[u8], element: &[u8]) -> Rowed {
    rowed(shape, node, metadata, &filled(full, node, metadata, element))
}

fn list(element: MadeNode) -> MadeNode {
    Node::List(Box::new(element))
}

/// A node of these fields, leftover only.
fn object(names: &[Vec<u8>]) -> MadeNode {
    Node::Object(names.iter().map(|name| (name.clone().into(), Node::Leftover)).collect())
}

fn boolean() -> Vec<u8> {
    frame(PLACE, &frame(TYPED, &[1]))
}

fn null() -> Vec<u8> {
    frame(PLACE, &frame(LEFTOVER, &[0]))
}

/// A typed object, so many of whose fields are null, and then so many missing.
fn fields(present: usize, missing: usize) -> Vec<u8> {
    frame(TYPED, &[null().repeat(present), frame(PLACE, &[]).repeat(missing)].concat())
}

fn small() -> Vec<Rowed> {
    let names: Vec<_> = (0..10).map(two_letters).collect();
    let (column, flags) = (Node::Primitive(6), list(Node::Primitive(1)));
    let (sorted, unsorted) = (metadata(&names, true), shuffled(&names));
    let beside = [frame(LEFTOVER, &[0x02, 1, 9, 0, 1, 0]), fields(9, 0)].concat();
    vec![
        rowed("small row, int64", &column, &none(), &frame(TYPED, &[34; 8])),
        rowed("small row, int8 left over", &column, &none(), &frame(LEFTOVER, &[0x0C, 34])),
        rowed("small row, empty place", &column, &none(), &[]),
        rowed("small list of booleans", &flags, &none(), &frame(TYPED, &boolean().repeat(17))),
        rowed("small object, names sorted", &object(&names), &sorted, &fields(10, 0)),
        rowed("small object, names unsorted", &object(&names), &unsorted, &fields(10, 0)),
        rowed("small object, leftover beside", &object(&names[..9]), &sorted, &beside),
    ]
}

/// Lists of thousands of elements; and refused at the last byte, at the first element, and at both.
fn lists(full: Full) -> Vec<Rowed> {
    let (names, node) = (none(), list(Node::Primitive(1)));
    let good = filled(Full::Row, &node, &names, &boolean());
    let spoil_last = |inside: &[u8]| [&inside[..inside.len() - 1], &[2]].concat();
    let first = frame(TYPED, &[frame(PLACE, &[]), good[3 + boolean().len()..].to_vec()].concat());
    let refused = |by: &str, inside: &[u8]| {
        rowed(&format!("full list of booleans, refused {by}"), &node, &names, inside)
    };
    let (pairs, pair) =
        (metadata(&[one_letter(0), one_letter(1)], true), frame(PLACE, &fields(2, 0)));
    let objects = list(object(&[one_letter(0), one_letter(1)]));
    vec![
        filled_row(full, "full list of booleans", &node, &names, &boolean()),
        refused("at its last byte", &spoil_last(&good)),
        refused("by its first element", &first),
        refused("by its first element and last byte", &spoil_last(&first)),
        filled_row(full, "full list of nulls left over", &list(Node::Leftover), &names, &null()),
        filled_row(full, "full list of small objects", &objects, &pairs, &pair),
        nests(full),
    ]
}

/// A list of nests of lists down to the last level.
fn nests(full: Full) -> Rowed {
    let (mut node, mut nest) = (Node::Primitive(1), boolean());
    for _ in 2..limits::LEVELS {
        node = list(node);
        nest = frame(PLACE, &frame(TYPED, &nest));
    }
    filled_row(full, "full list of nests of lists", &list(node), &none(), &nest)
}

/// Lists whose normal value passes its limit, of cells and of leftovers; and one long cell.
fn too_large() -> Vec<Rowed> {
    let refused = |of: &str, node: MadeNode, element: &[u8]| {
        let shape = format!("full row, refused as too large: {of}");
        filled_row(Full::Row, &shape, &list(node), &none(), element)
    };
    let text = frame(PLACE, &frame(TYPED, &[b't'; 60_000]));
    vec![
        refused("booleans", Node::Primitive(1), &boolean()),
        refused("nulls left over", Node::Leftover, &null()),
        refused("a string", Node::Primitive(16), &text),
    ]
}

/// Elements under a node of hundreds of fields: all of them missing or present; or left over, so that
/// there are thousands. And under two objects with 400 fields in all.
fn wide(full: Full) -> Vec<Rowed> {
    let all: Vec<_> = (0..370).map(two_letters).collect();
    let (node, names) = (list(object(&all)), metadata(&all, true));
    let empty_leftover = frame(LEFTOVER, &[0x02, 0, 0]);
    let elements = [
        ("all missing", frame(PLACE, &fields(0, 370))),
        ("all present", frame(PLACE, &fields(370, 0))),
        ("an empty leftover beside", frame(PLACE, &[empty_leftover, fields(0, 370)].concat())),
        ("thousands of nulls left over", null()),
    ];
    let row = |(of, element): (&str, Vec<u8>)| {
        filled_row(full, &format!("full list under 370 fields, {of}"), &node, &names, &element)
    };
    elements.map(row).into_iter().chain(in_two(full)).collect()
}

/// Elements of two objects of 200 fields each, every second one of them present.
fn in_two(full: Full) -> [Rowed; 2] {
    let all: Vec<_> = (0..200).map(one_letter).collect();
    let both = [0, 1].map(|at| (all[at].clone().into(), object(&all)));
    let node = list(Node::Object(both.to_vec()));
    let half = frame(PLACE, &frame(TYPED, &[null(), frame(PLACE, &[])].concat().repeat(100)));
    let element = frame(PLACE, &frame(TYPED, &half.repeat(2)));
    [("sorted", metadata(&all, true)), ("unsorted", shuffled(&all))].map(|(words, names)| {
        let shape = format!("full list under 400 fields, half of them present, names {words}");
        filled_row(full, &shape, &node, &names, &element)
    })
}

/// Typed objects with all fields present, under dictionaries of thousands of names and of long ones.
fn dictionaries(full: Full) -> Vec<Rowed> {
    let spread: Vec<_> = (0..100).map(|number| two_letters(number * 40)).collect();
    let letters: Vec<_> = (0..100).map(one_letter).collect();
    let thousands: Vec<_> = (0..4_000).map(two_letters).collect();
    let repeats: Vec<_> = (0..5_000).map(|number| one_letter(number % 200)).collect();
    let alike: Vec<_> = (0..158).map(like_name).collect();
    let row = |of: &str, named: &[Vec<u8>], names: Vec<u8>| {
        let element = frame(PLACE, &fields(named.len(), 0));
        filled_row(
            full,
            &format!("full dictionary of {of}"),
            &list(object(named)),
            &names,
            &element,
        )
    };
    vec![
        row("4,000 names, sorted", &spread, metadata(&thousands, true)),
        row("4,000 names, unsorted", &spread, shuffled(&thousands)),
        row("5,000 names, 200 of them different", &letters, shuffled(&repeats)),
        row("like names, sorted", &alike[..37], metadata(&alike, true)),
        row("like names, unsorted", &alike[..37], shuffled(&alike)),
    ]
}

/// Leftovers beside typed objects: a small one in every element, and one as large as may be whose
/// names lie between those of the node.
fn beside(full: Full) -> Vec<Rowed> {
    let nulls = |numbers: Range<usize>| {
        docs::object(numbers.map(|number| (two_letters(number), Doc::Null)).collect())
    };
    let others: Vec<_> = (0..2).chain(5..2_500).map(two_letters).collect();
    let mut rows = Vec::new();
    for (layout, words) in [(Layout::Sorted, "sorted"), (Layout::Unsorted, "unsorted")] {
        let (names, leftover) = encode(&nulls(2..5), &others, layout);
        let element = frame(PLACE, &[frame(LEFTOVER, &leftover), fields(2, 0)].concat());
        let shape = format!("full list, leftovers beside in every element, names {words}");
        rows.push(filled_row(full, &shape, &list(object(&others[..2])), &names, &element));
        let (names, leftover) = encode(&nulls(0..2_500), &[], layout);
        let between: Vec<_> =
            (0..340).map(|number| [two_letters(number), vec![0]].concat()).collect();
        let inside = [frame(LEFTOVER, &leftover), fields(0, 340)].concat();
        let shape = format!("full leftover of 2,500 fields beside 340, names {words}");
        rows.push(rowed(&shape, &object(&between), &names, &inside));
    }
    rows
}

/// Parcels all typed, all left over, and by halves, under names sorted and not.
fn parcels() -> Vec<Rowed> {
    let doc = full_parcels();
    let node = fitting(&doc);
    let mut rows = Vec::new();
    for (layout, words) in [(Layout::Sorted, "sorted"), (Layout::Unsorted, "unsorted")] {
        let (names, value) = encode(&doc, &[], layout);
        let row = |of: &str, node: &MadeNode, place: &[u8]| {
            rowed(&format!("full parcels, {of}, names {words}"), node, &names, place)
        };
        rows.push(row("all typed", &node, &typed_place(&doc)));
        rows.push(row("all left over", &Node::Leftover, &frame(LEFTOVER, &value)));
        rows.push(halves(&doc, &node, layout, words));
    }
    rows
}

/// The node under which all of a document is typed, if the elements of each list are alike.
fn fitting(doc: &Made) -> MadeNode {
    match doc {
        Doc::Bool(_) => Node::Primitive(TRUE),
        Doc::Payload(kind, _) => Node::Primitive(*kind),
        Doc::Text(_) => Node::Primitive(STRING),
        Doc::Array(items) => list(fitting(&items[0])),
        Doc::Object(fields) => {
            Node::Object(fields.iter().map(|(name, item)| (name.clone(), fitting(item))).collect())
        }
        Doc::Null => Node::Leftover,
    }
}

/// What a place holds where all of a document is typed.
fn typed_place(doc: &Made) -> Vec<u8> {
    let places = |items: &mut dyn Iterator<Item = &Made>| {
        items.flat_map(|item| frame(PLACE, &typed_place(item))).collect()
    };
    let body: Vec<u8> = match doc {
        Doc::Array(items) => places(&mut items.iter()),
        Doc::Object(fields) => places(&mut fields.iter().map(|(_, item)| item)),
        scalar => {
            let Node::Primitive(code) = fitting(scalar) else { return frame(LEFTOVER, &[0]) };
            cell_of(code, scalar).expect("a cell of its own column").into_owned()
        }
    };
    frame(TYPED, &body)
}

/// A list of objects with every second field typed, and leftovers in any encoding.
fn halves(doc: &Made, node: &MadeNode, layout: Layout, words: &str) -> Rowed {
    let Node::List(element) = node else { panic!("a list") };
    let Node::Object(fields) = element.as_ref() else { panic!("of objects") };
    let node = list(Node::Object(fields.iter().step_by(2).cloned().collect()));
    let mut rng = Rng::new(1);
    let mut names = Vec::new();
    names_used(doc, &mut names);
    names.sort();
    names.dedup();
    if layout != Layout::Sorted {
        rng.shuffle(&mut names);
    }
    let plan = Plan::new(node.clone(), of_document(&mut rng, &node, doc));
    let row = written_under(&mut rng, &Names::of(names), &plan, None);
    let shape = format!("full parcels, half of the fields typed, names {words}");
    Rowed { shape, schema: encoded(&node), row }
}

#[cfg(test)]
mod tests {
    use super::*;

    #[test]
    fn full_rows_are_as_full_as_may_be() {
        for op in [Op::Judge, Op::Rebuild] {
            for Timed { shape, case } in rows(op) {
                let [schema, row] = parts::inputs(&case)[..] else { panic!("{shape}") };
                let value = rebuilt(schema, row).map_or(0, |made| made.value.len());
                let is_full = match shape.split(' ').next() {
                    Some("small") => row.len() < 200,
                    _ if shape.contains("leftover of") => row.len() > 20_000,
                    _ if shape.contains("parcels") => value > 15_000,
                    _ => row.len() > 59_900 || op == Op::Rebuild && value > 14_000,
                };
                assert!(is_full, "{}, {shape}: {} and {value}", op.name(), row.len());
            }
        }
    }
}
