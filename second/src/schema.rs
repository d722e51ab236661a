//! Schemas: nodes in the house framing.

use crate::bytes::{push_frame, Reader};
use crate::doc::Bytes;
use crate::limits;
use crate::refusal::Broken;

const LEFTOVER: u8 = 0x00;
const PRIMITIVE: u8 = 0x10;
const LIST: u8 = 0x20;
const OBJECT: u8 = 0x30;
const FIELD: u8 = 0x31;
const NAME: u8 = 0x32;

/// A schema node.
#[derive(Clone, Debug, PartialEq, Eq)]
pub enum Node<'a> {
    /// Leftover only.
    Leftover,
    /// A column of this type.
    Primitive(u8),
    /// A list of this element.
    List(Box<Node<'a>>),
    /// One or more fields, names rising strictly.
    Object(Vec<(Bytes<'a>, Node<'a>)>),
}

/// The type codes of a schema and of the cell reader; 1 is boolean.
pub fn is_column_type(code: u8) -> bool {
    matches!(code, 1 | 3..=7 | 11..=20)
}

impl<'a> Node<'a> {
    /// Reads a schema: exactly one node.
    pub fn read(schema: &'a [u8]) -> Result<Self, Broken> {
        let mut reader = Reader::new(schema);
        let node = read_node(&mut reader, 1)?;
        reader.end()?;
        Ok(node)
    }

    /// Appends the node in the house framing; every body must be at most 65,535 bytes.
    pub fn write(&self, out: &mut Vec<u8>) {
        match self {
            Node::Leftover => push_frame(out, LEFTOVER, &[]),
            Node::Primitive(code) => push_frame(out, PRIMITIVE, &[*code]),
            Node::List(element) => {
                let mut body = Vec::new();
                element.write(&mut body);
                push_frame(out, LIST, &body);
            }
            Node::Object(fields) => {
                let mut body = Vec::new();
                fields.iter().for_each(|(name, node)| write_field(name, node, &mut body));
                push_frame(out, OBJECT, &body);
            }
        }
    }
}

fn write_field(name: &[u8], node: &Node, out: &mut Vec<u8>) {
    let mut body = Vec::new();
    push_frame(&mut body, NAME, name);
    node.write(&mut body);
    push_frame(out, FIELD, &body);
}

fn read_node<'a>(reader: &mut Reader<'a>, level: usize) -> Result<Node<'a>, Broken> {
    if level > limits::LEVELS {
        return Err(Broken);
    }
    match reader.frame()? {
        (LEFTOVER, []) => Ok(Node::Leftover),
        (PRIMITIVE, &[code]) if is_column_type(code) => Ok(Node::Primitive(code)),
        (LIST, body) => {
            let mut inner = Reader::new(body);
            let element = read_node(&mut inner, level + 1)?;
            inner.end()?;
            Ok(Node::List(Box::new(element)))
        }
        (OBJECT, body) => read_fields(body, level).map(Node::Object),
        _ => Err(Broken),
    }
}

fn read_fields(body: &[u8], level: usize) -> Result<Vec<(Bytes<'_>, Node<'_>)>, Broken> {
    let mut reader = Reader::new(body);
    let mut fields: Vec<(Bytes, Node)> = Vec::new();
    while !reader.is_done() {
        let mut field = Reader::new(reader.tagged(FIELD)?);
        let name = field.tagged(NAME)?;
        if fields.last().is_some_and(|(last, _)| last.as_ref() >= name) {
            return Err(Broken);
        }
        fields.push((name.into(), read_node(&mut field, level + 1)?));
        field.end()?;
    }
    if fields.is_empty() {
        return Err(Broken);
    }
    Ok(fields)
}

#[cfg(test)]
mod tests {
    use super::*;

    fn good(schema: &[u8]) -> bool {
        match Node::read(schema) {
            Ok(node) => {
                let mut again = Vec::new();
                node.write(&mut again);
                assert_eq!(again, schema);
                true
            }
            Err(Broken) => false,
        }
    }

    fn lists(count: usize, innermost: &[u8]) -> Vec<u8> {
        (0..count).fold(innermost.to_vec(), |inner, _| {
            let mut out = Vec::new();
            push_frame(&mut out, LIST, &inner);
            out
        })
    }

    #[test]
    fn every_node() {
        assert!(good(&[0x00, 0, 0]));
        assert!(good(&[0x10, 1, 0, 6]));
        assert!(good(&[0x20, 3, 0, 0x00, 0, 0]));
        assert!(good(&[0x30, 11, 0, 0x31, 8, 0, 0x32, 1, 0, 0x61, 0x10, 1, 0, 1]));
        assert!(good(&[0x30, 9, 0, 0x31, 6, 0, 0x32, 0, 0, 0x00, 0, 0]), "an empty name");
    }

    #[test]
    fn type_codes() {
        let good: Vec<u8> = (0..=255).filter(|&code| good(&[0x10, 1, 0, code])).collect();
        assert_eq!(good, [1, 3, 4, 5, 6, 7, 11, 12, 13, 14, 15, 16, 17, 18, 19, 20]);
    }

    #[test]
    fn broken_nodes() {
        assert!(!good(&[]), "no node");
        assert!(!good(&[0x00, 1, 0, 0]), "a body under 00");
        assert!(!good(&[0x10, 0, 0]), "no code");
        assert!(!good(&[0x10, 2, 0, 6, 6]), "two codes");
        assert!(!good(&[0x20, 0, 0]), "no element");
        assert!(!good(&[0x20, 6, 0, 0, 0, 0, 0, 0, 0]), "two elements");
        assert!(!good(&[0x30, 0, 0]), "no field");
        assert!(!good(&[0x21, 4, 0, 0x10, 1, 0, 6]), "no such tag");
        assert!(!good(&[0x00, 0, 0, 0x00]), "a byte behind");
        assert!(!good(&[0x10, 1, 0]), "cut");
        assert!(!good(&[0x30, 6, 0, 0x31, 3, 0, 0x32, 0, 0]), "no node in a field");
        assert!(!good(&[0x30, 6, 0, 0x31, 3, 0, 0x00, 0, 0]), "no name in a field");
    }

    #[test]
    fn names_rise_strictly() {
        let two = |first: u8, second: u8| {
            let field = |name: u8| [0x31, 7, 0, 0x32, 1, 0, name, 0x00, 0, 0];
            good(&[&[0x30, 20, 0][..], &field(first), &field(second)].concat())
        };
        assert!(two(0x61, 0x62));
        assert!(two(0x61, 0xFF));
        assert!(!two(0x61, 0x61));
        assert!(!two(0x62, 0x61));
    }

    #[test]
    fn sixteen_levels() {
        assert!(good(&lists(15, &[0x00, 0, 0])));
        assert!(!good(&lists(16, &[0x00, 0, 0])));
    }
}
