//! Schemas: of every kind of node, fitting a document partly, at the limits, and broken.

use super::damage::damage;
use super::docs::{self, Made};
use super::pieces::{harm, HARMS};
use super::rng::Rng;
use crate::bytes::push_frame;
use crate::doc::{Bytes, Doc};
use crate::limits;
use crate::schema::{is_column_type, Node};
use std::collections::BTreeMap;

/// A generated schema owns its bytes.
pub type MadeNode = Node<'static>;

/// A good schema that fits a document partly.
pub fn schema_for(rng: &mut Rng, doc: &Made) -> MadeNode {
    let node = fitting(rng, doc, 1);
    if encoded(&node).len() > limits::SCHEMA {
        return Node::Leftover;
    }
    node
}

/// A schema's bytes.
pub fn encoded(node: &MadeNode) -> Vec<u8> {
    let mut out = Vec::new();
    node.write(&mut out);
    out
}

fn fitting(rng: &mut Rng, doc: &Made, level: usize) -> MadeNode {
    if rng.percent(12) {
        return any(rng, level);
    }
    match doc {
        Doc::Bool(_) => Node::Primitive(1),
        Doc::Text(_) => Node::Primitive(16),
        Doc::Payload(kind, _) if is_column_type(*kind) => Node::Primitive(*kind),
        Doc::Array(items) if level < limits::LEVELS => {
            let element = match items.len() {
                0 => any(rng, level + 1),
                count => {
                    let at = rng.below(count);
                    fitting(rng, &items[at], level + 1)
                }
            };
            Node::List(Box::new(element))
        }
        Doc::Object(fields) if level < limits::LEVELS => fitting_object(rng, fields, level),
        _ => any(rng, level),
    }
}

/// Some of an object's fields, and now and then one that it lacks.
fn fitting_object(rng: &mut Rng, fields: &[(Bytes<'static>, Made)], level: usize) -> MadeNode {
    let percent = if fields.len() > 50 { 5 } else { 70 };
    let mut nodes = BTreeMap::new();
    for (name, item) in fields {
        if rng.percent(percent) {
            nodes.insert(name.to_vec(), fitting(rng, item, level + 1));
        }
    }
    if nodes.is_empty() || rng.percent(30) {
        nodes.insert(docs::name(rng), any(rng, level + 1));
    }
    object(nodes)
}

fn object(nodes: BTreeMap<Vec<u8>, MadeNode>) -> MadeNode {
    Node::Object(nodes.into_iter().map(|(name, node)| (name.into(), node)).collect())
}

/// Any good node.
pub fn any(rng: &mut Rng, level: usize) -> MadeNode {
    match rng.below(10) {
        0 | 1 => Node::Leftover,
        2 if level < limits::LEVELS => Node::List(Box::new(any(rng, level + 1))),
        3 if level < limits::LEVELS => {
            let nodes = (0..rng.between(1, 3)).map(|_| (docs::name(rng), any(rng, level + 1)));
            object(nodes.collect())
        }
        _ => Node::Primitive(column_type(rng)),
    }
}

/// Any type code of a schema.
pub fn column_type(rng: &mut Rng) -> u8 {
    loop {
        let code = rng.below(21) as u8;
        if is_column_type(code) {
            return code;
        }
    }
}

/// A schema of so many levels.
pub fn deep(rng: &mut Rng, levels: usize) -> MadeNode {
    (1..levels).fold(any(rng, limits::LEVELS), |inner, _| match rng.below(2) {
        0 => Node::List(Box::new(inner)),
        _ => Node::Object(vec![(docs::name(rng).into(), inner)]),
    })
}

/// A good node with others inside, of about so many.
pub fn branching(rng: &mut Rng, level: usize, most: &mut usize) -> MadeNode {
    if *most == 0 || level == limits::LEVELS || level > 1 && rng.percent(30) {
        return any(rng, limits::LEVELS);
    }
    *most -= 1;
    if rng.percent(40) {
        return Node::List(Box::new(branching(rng, level + 1, most)));
    }
    let names = (0..rng.between(1, 4)).map(|_| docs::name(rng));
    let names: Vec<_> = names.collect();
    object(names.into_iter().map(|name| (name, branching(rng, level + 1, most))).collect())
}

/// A good schema of so many fields, at most 400: in one object as far as they fit, or in two.
pub fn wide(rng: &mut Rng, fields: usize) -> MadeNode {
    let in_two = fields > 390 || fields.is_multiple_of(3);
    let mut object = |count: usize| {
        // There is no room for a type code in each of so many.
        let mut leaf = |at: usize| match fields <= 340 || at < 30 {
            true => any(rng, limits::LEVELS),
            false => Node::Leftover,
        };
        Node::Object((0..count).map(|at| (wide_name(at).into(), leaf(at))).collect())
    };
    match in_two {
        true => {
            let both = [b"one", b"two"].map(|name| (name[..].into(), object(fields / 2)));
            Node::Object(both.to_vec())
        }
        false => object(fields),
    }
}

/// The shortest names that rise as their numbers do, up to 400.
fn wide_name(at: usize) -> Vec<u8> {
    match at {
        0 => vec![],
        1..=250 => vec![at as u8 - 1],
        _ => vec![250, (at - 251) as u8],
    }
}

/// A good schema of so many bytes, above 12 and below 65,000.
pub fn of_length(length: usize) -> Vec<u8> {
    encoded(&Node::Object(vec![(vec![b's'; length - 12].into(), Node::Leftover)]))
}

/// A schema that is broken in most cases.
pub fn broken(rng: &mut Rng, node: &MadeNode) -> Vec<u8> {
    let mut out = encoded(node);
    match rng.below(15) {
        0 => frame(0x10, &[rng.pick(&[0, 2, 8, 9, 10, 21, 63, 255])]),
        1 => frame(0x10, rng.pick(&[&[][..], &[6, 6]])),
        2 => frame(0x20, rng.pick(&[&[][..], &[0, 0, 0, 0, 0, 0]])),
        3 => frame(0x30, &[]),
        4 => falling_names(rng),
        5 => encoded(&deep(rng, limits::LEVELS + 1)),
        6 => frame(rng.pick(&[0x01, 0x11, 0x21, 0x31, 0x40, 0x50]), &out),
        7 => {
            out.extend_from_slice(&[0, 0, 0]);
            out
        }
        8 => frame(0x00, &[0]),
        9 | 10 => {
            damage(rng, &mut out);
            out
        }
        _ => {
            let how = rng.pick(&HARMS);
            harm(rng, how, &mut out);
            out
        }
    }
}

fn frame(tag: u8, body: &[u8]) -> Vec<u8> {
    let mut out = Vec::new();
    push_frame(&mut out, tag, body);
    out
}

fn falling_names(rng: &mut Rng) -> Vec<u8> {
    let mut names = [docs::name(rng), docs::name(rng)];
    names.sort();
    names.reverse();
    encoded(&Node::Object(names.map(|name| (name.into(), any(rng, 2))).to_vec()))
}
