//! "What a document means".

use crate::limits;
use crate::metadata::Dictionary;
use crate::refusal::Broken;
use crate::value::{open, Shape};
use std::borrow::Cow;

/// Bytes that are lent where a document was read, and owned where it was made.
pub type Bytes<'a> = Cow<'a, [u8]>;

/// A document. Two documents are equal exactly when they mean the same.
#[derive(Clone, Debug, PartialEq, Eq)]
pub enum Doc<'a> {
    Null,
    Bool(bool),
    /// A payload with its type number; never a null, a boolean or a string.
    Payload(u8, Bytes<'a>),
    /// A string's bytes, short or long.
    Text(Bytes<'a>),
    Array(Vec<Doc<'a>>),
    /// A map from names to meanings: the names rise strictly by unsigned bytes.
    Object(Vec<(Bytes<'a>, Doc<'a>)>),
}

impl<'a> Doc<'a> {
    /// Reads the value that is exactly these bytes and stands at `level`.
    pub fn read(names: &Dictionary<'a>, bytes: &'a [u8], level: usize) -> Result<Self, Broken> {
        if level > limits::LEVELS {
            return Err(Broken);
        }
        Ok(match open(names, bytes)? {
            Shape::Null => Doc::Null,
            Shape::Bool(truth) => Doc::Bool(truth),
            Shape::Payload(kind, payload) => Doc::Payload(kind, payload.into()),
            Shape::Text(text) => Doc::Text(text.into()),
            Shape::Array(items) => {
                let item = |range| Doc::read(names, &bytes[range], level + 1);
                Doc::Array(items.into_iter().map(item).collect::<Result<_, _>>()?)
            }
            Shape::Object(fields) => {
                let field = |(name, range): (&'a [u8], _)| {
                    Ok((name.into(), Doc::read(names, &bytes[range], level + 1)?))
                };
                Doc::Object(fields.into_iter().map(field).collect::<Result<_, _>>()?)
            }
        })
    }

    /// The meaning of one field of an object; none where there is no such name.
    pub fn field(&self, name: &[u8]) -> Option<&Doc<'a>> {
        match self {
            Doc::Object(fields) => {
                let at = fields.binary_search_by(|(other, _)| other.as_ref().cmp(name)).ok()?;
                Some(&fields[at].1)
            }
            _ => None,
        }
    }
}

#[cfg(test)]
mod tests {
    use super::*;

    fn read<'a>(metadata: &'a [u8], value: &'a [u8]) -> Doc<'a> {
        Doc::read(&Dictionary::read(metadata).unwrap(), value, 1).unwrap()
    }

    #[test]
    fn a_string_is_its_bytes() {
        let empty = [1, 0, 0];
        let short = read(&empty, &[0x0D, 0x6E, 0x2F, 0x61]);
        assert_eq!(short, read(&empty, &[0x40, 3, 0, 0, 0, 0x6E, 0x2F, 0x61]));
        assert_ne!(short, read(&empty, &[0x3C, 3, 0, 0, 0, 0x6E, 0x2F, 0x61]));
    }

    #[test]
    fn a_type_is_part_of_the_meaning() {
        let int8 = read(&[1, 0, 0], &[0x0C, 34]);
        assert_ne!(int8, read(&[1, 0, 0], &[0x18, 34, 0, 0, 0, 0, 0, 0, 0]));
        assert_eq!(int8, Doc::Payload(3, vec![34].into()));
    }

    #[test]
    fn zeros_differ_by_their_sign() {
        let zero = [0x1C, 0, 0, 0, 0, 0, 0, 0, 0];
        let minus = [0x1C, 0, 0, 0, 0, 0, 0, 0, 0x80];
        assert_ne!(read(&[1, 0, 0], &zero), read(&[1, 0, 0], &minus));
    }

    #[test]
    fn the_order_of_values_means_nothing() {
        let ba = [0x01, 0x02, 0x00, 0x01, 0x02, 0x62, 0x61];
        let one = read(&ba, &[0x02, 2, 1, 0, 0, 1, 2, 0x00, 0x04]);
        let other = read(&ba, &[0x02, 2, 1, 0, 1, 0, 2, 0x04, 0x00]);
        assert_eq!(one, other);
        assert_eq!(one.field(b"a"), Some(&Doc::Null));
        assert_eq!(one.field(b"b"), Some(&Doc::Bool(true)));
        assert_eq!(one.field(b""), None);
    }
}
