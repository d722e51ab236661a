//! Shredding: the row that a document gives under a schema.

use crate::bytes::push_frame;
use crate::cell::cell_of;
use crate::doc::{Bytes, Doc};
use crate::limits;
use crate::normal::NormalNames;
use crate::row::{LEFTOVER, METADATA, PLACE, TYPED};
use crate::schema::Node;

/// The row to be written passes a row's limit.
#[derive(Clone, Copy, Debug, PartialEq, Eq)]
pub struct TooLarge;

/// Writes the row of a document: normal metadata, and places with normal leftovers.
/// The names must be the document's own.
pub fn shred(schema: &Node, doc: &Doc, names: &NormalNames) -> Result<Vec<u8>, TooLarge> {
    let mut row = Vec::new();
    push_frame(&mut row, METADATA, &names.metadata());
    Shredder { names }.place(schema, Some(doc), &mut row)?;
    Ok(row)
}

struct Shredder<'n> {
    names: &'n NormalNames<'n>,
}

impl Shredder<'_> {
    /// A place; empty for a missing field.
    fn place(&self, node: &Node, doc: Option<&Doc>, row: &mut Vec<u8>) -> Result<(), TooLarge> {
        frame(row, PLACE, |row| match (doc, node) {
            (None, _) => Ok(()),
            (Some(Doc::Array(items)), Node::List(element)) => self.list(element, items, row),
            (Some(Doc::Object(fields)), Node::Object(nodes)) => self.object(nodes, fields, row),
            (Some(doc), Node::Primitive(code)) => match cell_of(*code, doc) {
                Some(cell) => frame(row, TYPED, |row| append(row, &cell)),
                None => self.leftover(doc, row),
            },
            (Some(doc), _) => self.leftover(doc, row),
        })
    }

    fn leftover(&self, doc: &Doc, row: &mut Vec<u8>) -> Result<(), TooLarge> {
        frame(row, LEFTOVER, |row| {
            self.names.write(doc, row);
            Ok(())
        })
    }

    fn list(&self, element: &Node, items: &[Doc], row: &mut Vec<u8>) -> Result<(), TooLarge> {
        frame(row, TYPED, |row| {
            items.iter().try_for_each(|item| self.place(element, Some(item), row))
        })
    }

    /// Unnamed fields make one leftover object, none if nothing is left.
    fn object(
        &self,
        nodes: &[(Bytes, Node)],
        fields: &[(Bytes, Doc)],
        row: &mut Vec<u8>,
    ) -> Result<(), TooLarge> {
        let (named, unnamed) = split(nodes, fields);
        if !unnamed.is_empty() {
            frame(row, LEFTOVER, |row| {
                self.names.write_object(&unnamed, row);
                Ok(())
            })?;
        }
        frame(row, TYPED, |row| {
            let mut places = nodes.iter().zip(named);
            places.try_for_each(|((_, node), item)| self.place(node, item, row))
        })
    }
}

type Field<'d, 'a> = (&'d [u8], &'d Doc<'a>);

/// The fields that the node names, one for each of its own and none where it is missing; and the
/// fields that it does not name. Both lists of names rise, so one walk along both is enough.
fn split<'d, 'a>(
    nodes: &[(Bytes, Node)],
    fields: &'d [(Bytes<'a>, Doc<'a>)],
) -> (Vec<Option<&'d Doc<'a>>>, Vec<Field<'d, 'a>>) {
    let mut unnamed = Vec::new();
    let mut fields = fields.iter().map(|(name, item)| (name.as_ref(), item)).peekable();
    let mut named = Vec::with_capacity(nodes.len());
    for (name, _) in nodes {
        while let Some(field) = fields.next_if(|field| field.0 < name.as_ref()) {
            unnamed.push(field);
        }
        named.push(fields.next_if(|field| field.0 == name.as_ref()).map(|field| field.1));
    }
    unnamed.extend(fields);
    (named, unnamed)
}

fn append(row: &mut Vec<u8>, bytes: &[u8]) -> Result<(), TooLarge> {
    row.extend_from_slice(bytes);
    Ok(())
}

/// Appends a frame; its length is filled in when its body is written. A body that passes two
/// bytes of length, or a row that passes its limit already, is too large.
fn frame(
    row: &mut Vec<u8>,
    tag: u8,
    body: impl FnOnce(&mut Vec<u8>) -> Result<(), TooLarge>,
) -> Result<(), TooLarge> {
    row.extend_from_slice(&[tag, 0, 0]);
    let start = row.len();
    body(row)?;
    if row.len() > limits::ROW {
        return Err(TooLarge);
    }
    let length = u16::try_from(row.len() - start).map_err(|_| TooLarge)?;
    row[start - 2..start].copy_from_slice(&length.to_le_bytes());
    Ok(())
}
