//! Rows as they stand: metadata, then places, read under a schema.

use crate::bytes::Reader;
use crate::cell;
use crate::doc::Doc;
use crate::limits;
use crate::metadata::Dictionary;
use crate::refusal::Broken;
use crate::schema::Node;

/// The tag of a row's metadata.
pub const METADATA: u8 = 0x40;
/// The tag of a leftover.
pub const LEFTOVER: u8 = 0x41;
/// The tag of a typed field.
pub const TYPED: u8 = 0x42;
/// The tag of every place.
pub const PLACE: u8 = 0x50;

/// A row that parses under its schema.
#[derive(Clone, Debug, PartialEq, Eq)]
pub struct Row<'a> {
    pub names: Dictionary<'a>,
    pub place: Place<'a>,
}

/// A place: at most one leftover, and at most one typed field.
#[derive(Clone, Debug, PartialEq, Eq)]
pub struct Place<'a> {
    pub leftover: Option<Doc<'a>>,
    pub typed: Option<Typed<'a>>,
}

/// A typed field, of the kind of its node.
#[derive(Clone, Debug, PartialEq, Eq)]
pub enum Typed<'a> {
    Primitive(Doc<'a>),
    List(Vec<Place<'a>>),
    /// One place for each schema field, in schema order.
    Object(Vec<Place<'a>>),
}

impl<'a> Row<'a> {
    /// Reads a row: `40`, `50`, nothing more.
    pub fn read(schema: &Node, row: &'a [u8]) -> Result<Self, Broken> {
        let mut reader = Reader::new(row);
        let metadata = reader.tagged(METADATA)?;
        let place = reader.tagged(PLACE)?;
        reader.end()?;
        if metadata.len() > limits::METADATA {
            return Err(Broken);
        }
        let names = Dictionary::read(metadata)?;
        let place = read_place(&names, schema, place, 1)?;
        Ok(Row { names, place })
    }
}

impl Place<'_> {
    /// A place that holds neither field.
    pub fn is_empty(&self) -> bool {
        self.leftover.is_none() && self.typed.is_none()
    }
}

fn read_place<'a>(
    names: &Dictionary<'a>,
    node: &Node,
    body: &'a [u8],
    level: usize,
) -> Result<Place<'a>, Broken> {
    let mut reader = Reader::new(body);
    let leftover = match reader.peek() {
        Some(LEFTOVER) => Some(read_leftover(names, reader.frame()?.1, level)?),
        _ => None,
    };
    let typed = match reader.peek() {
        Some(TYPED) => Some(read_typed(names, node, reader.frame()?.1, level)?),
        _ => None,
    };
    reader.end()?;
    Ok(Place { leftover, typed })
}

fn read_leftover<'a>(
    names: &Dictionary<'a>,
    value: &'a [u8],
    level: usize,
) -> Result<Doc<'a>, Broken> {
    if value.len() > limits::VALUE {
        return Err(Broken);
    }
    Doc::read(names, value, level)
}

fn read_typed<'a>(
    names: &Dictionary<'a>,
    node: &Node,
    body: &'a [u8],
    level: usize,
) -> Result<Typed<'a>, Broken> {
    let mut reader = Reader::new(body);
    match node {
        Node::Leftover => Err(Broken),
        Node::Primitive(code) => cell::meaning(*code, body).map(Typed::Primitive),
        Node::List(element) => {
            let mut places = Vec::new();
            while !reader.is_done() {
                places.push(read_place(names, element, reader.tagged(PLACE)?, level + 1)?);
            }
            Ok(Typed::List(places))
        }
        Node::Object(fields) => {
            let mut places = Vec::with_capacity(fields.len());
            for (_, node) in fields {
                places.push(read_place(names, node, reader.tagged(PLACE)?, level + 1)?);
            }
            reader.end()?;
            Ok(Typed::Object(places))
        }
    }
}
