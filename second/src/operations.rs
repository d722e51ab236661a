//! "The job": the seven operations over lent bytes, and the judgement of a row by itself.
//!
//! Where several refusals apply, the lowest number is given; so each operation judges its inputs
//! in the order of the numbers.

use crate::cell::{read_cell, Cell};
use crate::doc::Doc;
use crate::judge;
use crate::limits;
use crate::lotbox::{read_box, LotBox};
use crate::metadata::Dictionary;
use crate::normal::{normal, Normal, NormalNames};
use crate::path::{read_path, walk};
use crate::rebuild;
use crate::refusal::{Broken, Lengths, Refusal};
use crate::row::Row;
use crate::schema::{is_column_type, Node};
use crate::shred;
use crate::value;
use crate::vectors::{Answer, Case, Written};

/// Where a find ends in the value.
#[derive(Clone, Copy, Debug, PartialEq, Eq)]
pub struct Span {
    pub start: usize,
    pub length: usize,
}

/// Checks a Variant.
pub fn check(metadata: &[u8], value: &[u8]) -> Result<(), Refusal> {
    checked(metadata, value).map(|_| ())
}

/// Finds a path in a Variant; none is absent.
pub fn find(metadata: &[u8], value: &[u8], path: &[u8]) -> Result<Option<Span>, Refusal> {
    at_most(path, limits::PATH)?;
    let names = checked(metadata, value)?;
    let steps = read_path(path).map_err(|Broken| Refusal::Path)?;
    let found = walk(&names, value, &steps);
    Ok(found.map(|range| Span { start: range.start, length: range.len() }))
}

/// Writes a Variant's normal form; the lengths written.
pub fn normalise(
    metadata: &[u8],
    value: &[u8],
    metadata_out: &mut [u8],
    value_out: &mut [u8],
) -> Result<Lengths, Refusal> {
    let made = normalised(metadata, value)?;
    give_document(&made, metadata_out, value_out)
}

/// Writes a Variant's row under a schema; the length written.
pub fn shred(
    schema: &[u8],
    metadata: &[u8],
    value: &[u8],
    row_out: &mut [u8],
) -> Result<usize, Refusal> {
    let row = shredded(schema, metadata, value)?;
    if row_out.len() < row.len() {
        return Err(Refusal::Room([row.len(), 0]));
    }
    row_out[..row.len()].copy_from_slice(&row);
    Ok(row.len())
}

/// Writes the normal form of the Variant that a row holds; the lengths written.
pub fn rebuild(
    schema: &[u8],
    row: &[u8],
    metadata_out: &mut [u8],
    value_out: &mut [u8],
) -> Result<Lengths, Refusal> {
    let made = rebuilt(schema, row)?;
    give_document(&made, metadata_out, value_out)
}

/// Judges a row by itself: what rebuild refuses with 1, 4, 6 or 7.
pub fn judge(schema: &[u8], row: &[u8]) -> Result<(), Refusal> {
    at_most(schema, limits::SCHEMA)?;
    at_most(row, limits::ROW)?;
    let schema = read_schema(schema)?;
    match judge::judge(&schema, row).map_err(|Broken| Refusal::Row)? {
        Some(rule) => Err(Refusal::Rule(rule)),
        None => Ok(()),
    }
}

/// Reads one typed cell.
pub fn cell(code: u8, bytes: &[u8]) -> Result<Cell, Refusal> {
    at_most(bytes, limits::CELL)?;
    if !is_column_type(code) {
        return Err(Refusal::Schema);
    }
    read_cell(code, bytes).map_err(|Broken| Refusal::Row)
}

/// Reads a lot's box; none is absent.
pub fn lot_box(metadata: &[u8], value: &[u8]) -> Result<Option<LotBox>, Refusal> {
    let names = checked(metadata, value)?;
    Ok(read_box(&names, value))
}

/// The normal form of a Variant, as if all room were there.
pub fn normalised(metadata: &[u8], value: &[u8]) -> Result<Normal, Refusal> {
    within_limit(normal(&document(metadata, value)?))
}

/// The row of a Variant, as if all room were there.
pub fn shredded(schema: &[u8], metadata: &[u8], value: &[u8]) -> Result<Vec<u8>, Refusal> {
    at_most(schema, limits::SCHEMA)?;
    let doc = document(metadata, value)?;
    let schema = read_schema(schema)?;
    let names = NormalNames::of(&doc);
    let mut value = Vec::new();
    names.write(&doc, &mut value);
    if value.len() > limits::VALUE {
        return Err(Refusal::TooLarge);
    }
    shred::shred(&schema, &doc, &names).map_err(|shred::TooLarge| Refusal::TooLarge)
}

/// The normal form of a row's Variant, as if all room were there.
pub fn rebuilt(schema: &[u8], row: &[u8]) -> Result<Normal, Refusal> {
    at_most(schema, limits::SCHEMA)?;
    at_most(row, limits::ROW)?;
    let schema = read_schema(schema)?;
    let row = Row::read(&schema, row).map_err(|Broken| Refusal::Row)?;
    let doc = rebuild::rebuild(&schema, row).map_err(Refusal::Rule)?;
    within_limit(normal(&doc))
}

/// The meaning of a Variant.
pub fn document<'a>(metadata: &'a [u8], value: &'a [u8]) -> Result<Doc<'a>, Refusal> {
    let names = dictionary(metadata, value)?;
    Doc::read(&names, value, 1).map_err(|Broken| Refusal::Value)
}

/// The dictionary of a good Variant.
fn checked<'a>(metadata: &'a [u8], value: &[u8]) -> Result<Dictionary<'a>, Refusal> {
    let names = dictionary(metadata, value)?;
    value::check(&names, value, 1).map_err(|Broken| Refusal::Value)?;
    Ok(names)
}

/// Both lengths, then the metadata.
fn dictionary<'a>(metadata: &'a [u8], value: &[u8]) -> Result<Dictionary<'a>, Refusal> {
    at_most(metadata, limits::METADATA)?;
    at_most(value, limits::VALUE)?;
    Dictionary::read(metadata).map_err(|Broken| Refusal::Metadata)
}

fn read_schema(schema: &[u8]) -> Result<Node<'_>, Refusal> {
    Node::read(schema).map_err(|Broken| Refusal::Schema)
}

fn at_most(input: &[u8], limit: usize) -> Result<(), Refusal> {
    if input.len() > limit {
        Err(Refusal::TooLong)
    } else {
        Ok(())
    }
}

fn within_limit(made: Normal) -> Result<Normal, Refusal> {
    if made.value.len() > limits::VALUE {
        Err(Refusal::TooLarge)
    } else {
        Ok(made)
    }
}

/// Writes both parts, or neither where one does not fit.
fn give_document(
    made: &Normal,
    metadata_out: &mut [u8],
    value_out: &mut [u8],
) -> Result<Lengths, Refusal> {
    let lengths = [made.metadata.len(), made.value.len()];
    if metadata_out.len() < lengths[0] || value_out.len() < lengths[1] {
        return Err(Refusal::Room(lengths));
    }
    metadata_out[..lengths[0]].copy_from_slice(&made.metadata);
    value_out[..lengths[1]].copy_from_slice(&made.value);
    Ok(lengths)
}

/// Calls the operation of a case, over buffers as long as its rooms.
pub fn answer(case: &Case) -> Answer {
    match case {
        Case::Check { metadata, value } => Answer::Check(check(metadata, value)),
        Case::Find { metadata, value, path } => Answer::Find(find(metadata, value, path)),
        Case::Normalise { metadata, value, rooms } => {
            Answer::Normalise(written(*rooms, |md, out| normalise(metadata, value, md, out)))
        }
        Case::Shred { schema, metadata, value, room } => {
            let mut out = vec![0; *room];
            let length = shred(schema, metadata, value, &mut out);
            Answer::Shred(length.map(|length| out[..length].to_vec()))
        }
        Case::Rebuild { schema, row, rooms } => {
            Answer::Rebuild(written(*rooms, |md, out| rebuild(schema, row, md, out)))
        }
        Case::Cell { code, bytes } => Answer::Cell(cell(*code, bytes)),
        Case::Box { metadata, value } => Answer::Box(lot_box(metadata, value)),
        Case::Judge { schema, row } => Answer::Judge(judge(schema, row)),
    }
}

fn written(
    rooms: Lengths,
    operation: impl FnOnce(&mut [u8], &mut [u8]) -> Result<Lengths, Refusal>,
) -> Result<Written, Refusal> {
    let (mut metadata, mut value) = (vec![0; rooms[0]], vec![0; rooms[1]]);
    let lengths = operation(&mut metadata, &mut value)?;
    metadata.truncate(lengths[0]);
    value.truncate(lengths[1]);
    Ok(Written { metadata, value })
}
