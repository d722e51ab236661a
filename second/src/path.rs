//! Paths: steps in the house framing, and the walk along them.

use crate::bytes::{number, push_frame, push_number, Reader};
use crate::metadata::Dictionary;
use crate::refusal::Broken;
use crate::value::{open, Shape};
use std::ops::Range;

const NAME: u8 = 0x60;
const INDEX: u8 = 0x61;

/// One step of a path.
#[derive(Clone, Copy, Debug, PartialEq, Eq)]
pub enum Step<'a> {
    Name(&'a [u8]),
    Index(usize),
}

/// Reads a path; the empty one is the whole value.
pub fn read_path(path: &[u8]) -> Result<Vec<Step<'_>>, Broken> {
    let mut reader = Reader::new(path);
    let mut steps = Vec::new();
    while !reader.is_done() {
        steps.push(match reader.frame()? {
            (NAME, name) => Step::Name(name),
            (INDEX, index) if index.len() == 2 => Step::Index(number(index) as usize),
            _ => return Err(Broken),
        });
    }
    Ok(steps)
}

/// Appends a step; an index must fit two bytes.
pub fn push_step(out: &mut Vec<u8>, step: Step) {
    match step {
        Step::Name(name) => push_frame(out, NAME, name),
        Step::Index(index) => {
            let mut body = Vec::new();
            push_number(&mut body, index, 2);
            push_frame(out, INDEX, &body);
        }
    }
}

/// Walks a good value; where the path ends in it, or none if the path leads nowhere.
pub fn walk(names: &Dictionary, value: &[u8], steps: &[Step]) -> Option<Range<usize>> {
    let mut here = 0..value.len();
    for step in steps {
        let shape = open(names, &value[here.clone()]).ok()?;
        let child = child(&shape, step)?;
        here = here.start + child.start..here.start + child.end;
    }
    Some(here)
}

fn child(shape: &Shape, step: &Step) -> Option<Range<usize>> {
    match (shape, step) {
        (Shape::Array(items), Step::Index(index)) => items.get(*index).cloned(),
        (Shape::Object(fields), Step::Name(name)) => {
            let at = fields.binary_search_by(|(other, _)| other.cmp(name)).ok()?;
            Some(fields[at].1.clone())
        }
        _ => None,
    }
}

#[cfg(test)]
mod tests {
    use super::*;

    #[test]
    fn steps() {
        assert_eq!(read_path(&[]), Ok(vec![]));
        assert_eq!(read_path(&[0x61, 2, 0, 1, 0]), Ok(vec![Step::Index(1)]));
        assert_eq!(read_path(&[0x60, 0, 0]), Ok(vec![Step::Name(b"")]));
        let both = [0x60, 1, 0, 0x61, 0x61, 2, 0, 0, 1];
        assert_eq!(read_path(&both), Ok(vec![Step::Name(b"a"), Step::Index(256)]));
        let mut again = Vec::new();
        push_step(&mut again, Step::Name(b"a"));
        push_step(&mut again, Step::Index(256));
        assert_eq!(again, both);
    }

    #[test]
    fn broken_paths() {
        let broken: [&[u8]; 6] = [
            &[0x61, 1, 0, 1],
            &[0x61, 3, 0, 1, 0, 0],
            &[0x62, 0, 0],
            &[0x60, 1, 0],
            &[0x60],
            &[0x60, 0, 0, 0x00],
        ];
        broken.iter().for_each(|path| assert_eq!(read_path(path), Err(Broken)));
    }
}
