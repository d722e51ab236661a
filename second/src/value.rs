//! "Values": what the bytes of one value are, one level at a time, and the check of all levels.

use crate::bytes::{number, Numbers, Reader};
use crate::limits;
use crate::metadata::Dictionary;
use crate::refusal::Broken;
use std::ops::Range;

/// The size of a primitive's payload.
#[derive(Clone, Copy, Debug, PartialEq, Eq)]
pub enum Size {
    /// This many bytes.
    Fixed(usize),
    /// A four-byte length, then that many bytes.
    Prefixed,
}

/// Payload sizes by primitive type, 0 to 20.
pub const SIZES: [Size; 21] = {
    use Size::{Fixed, Prefixed};
    [
        Fixed(0),  // null
        Fixed(0),  // true
        Fixed(0),  // false
        Fixed(1),  // int8
        Fixed(2),  // int16
        Fixed(4),  // int32
        Fixed(8),  // int64
        Fixed(8),  // double
        Fixed(5),  // decimal4
        Fixed(9),  // decimal8
        Fixed(17), // decimal16
        Fixed(4),  // date
        Fixed(8),  // timestamp
        Fixed(8),  // timestamp without time zone
        Fixed(4),  // float
        Prefixed,  // binary
        Prefixed,  // string
        Fixed(8),  // time
        Fixed(8),  // timestamp, nanoseconds
        Fixed(8),  // timestamp without time zone, nanoseconds
        Fixed(16), // uuid
    ]
};

/// The type number of null.
pub const NULL: u8 = 0;
/// The type number of true, and of a boolean column.
pub const TRUE: u8 = 1;
/// The type number of false.
pub const FALSE: u8 = 2;
/// The type number of a double.
pub const DOUBLE: u8 = 7;
/// The type numbers of the decimals.
pub const DECIMALS: Range<u8> = 8..11;
/// The type number of a float.
pub const FLOAT: u8 = 14;
/// The type number of binary.
pub const BINARY: u8 = 15;
/// The type number of a long string.
pub const STRING: u8 = 16;
/// The type number of a uuid.
pub const UUID: u8 = 20;
/// The largest scale of a decimal.
pub const MAX_SCALE: u8 = 38;
/// The longest short string.
pub const MAX_SHORT: usize = 63;

/// One value, opened by one level. Children are ranges of that value's own bytes.
#[derive(Debug, PartialEq, Eq)]
pub enum Shape<'a> {
    Null,
    Bool(bool),
    /// A payload with its type; binary without its length.
    Payload(u8, &'a [u8]),
    /// A string's bytes, short or long.
    Text(&'a [u8]),
    /// The elements in order.
    Array(Vec<Range<usize>>),
    /// The names, rising, and their values.
    Object(Vec<(&'a [u8], Range<usize>)>),
}

/// Judges a value and everything inside it; the value stands at `level`.
pub fn check(names: &Dictionary, bytes: &[u8], level: usize) -> Result<(), Broken> {
    if level > limits::LEVELS {
        return Err(Broken);
    }
    match open(names, bytes)? {
        Shape::Array(items) => {
            items.into_iter().try_for_each(|item| check(names, &bytes[item], level + 1))
        }
        Shape::Object(fields) => {
            fields.into_iter().try_for_each(|(_, item)| check(names, &bytes[item], level + 1))
        }
        _ => Ok(()),
    }
}

/// Opens the value that is exactly these bytes; its children are not judged.
pub fn open<'a>(names: &Dictionary<'a>, bytes: &'a [u8]) -> Result<Shape<'a>, Broken> {
    let (&first, body) = bytes.split_first().ok_or(Broken)?;
    let header = first >> 2;
    match first & 3 {
        0 => open_primitive(header, body),
        1 if body.len() == usize::from(header) => Ok(Shape::Text(body)),
        1 => Err(Broken),
        2 => open_object(names, header, bytes),
        _ => open_array(header, bytes),
    }
}

fn open_primitive(kind: u8, body: &[u8]) -> Result<Shape<'_>, Broken> {
    let payload = match SIZES.get(usize::from(kind)).ok_or(Broken)? {
        Size::Fixed(size) if body.len() == *size => body,
        Size::Fixed(_) => return Err(Broken),
        Size::Prefixed => unprefixed(body)?,
    };
    if DECIMALS.contains(&kind) && payload[0] > MAX_SCALE {
        return Err(Broken);
    }
    Ok(match kind {
        NULL => Shape::Null,
        TRUE => Shape::Bool(true),
        FALSE => Shape::Bool(false),
        STRING => Shape::Text(payload),
        _ => Shape::Payload(kind, payload),
    })
}

/// The bytes after a four-byte length, which must count them.
fn unprefixed(body: &[u8]) -> Result<&[u8], Broken> {
    let (length, payload) = body.split_at_checked(4).ok_or(Broken)?;
    if number(length) == payload.len() as u64 {
        Ok(payload)
    } else {
        Err(Broken)
    }
}

fn size_bits(header: u8, shift: u8) -> usize {
    usize::from(header >> shift & 3) + 1
}

fn count_size(is_large: bool) -> usize {
    if is_large {
        4
    } else {
        1
    }
}

fn open_array<'a>(header: u8, bytes: &'a [u8]) -> Result<Shape<'a>, Broken> {
    if header >> 3 != 0 {
        return Err(Broken);
    }
    let mut reader = Reader::new(&bytes[1..]);
    let count = reader.number(count_size(header >> 2 & 1 == 1))?;
    let offsets = reader.numbers(count + 1, size_bits(header, 0))?;
    let area = bytes.len() - reader.rest().len()..bytes.len();
    array_items(offsets, count, area).map(Shape::Array)
}

/// Offsets start at 0, each child ends where the next starts, the last where the area does.
fn array_items(
    offsets: Numbers,
    count: usize,
    area: Range<usize>,
) -> Result<Vec<Range<usize>>, Broken> {
    let mut offsets = offsets.iter();
    let mut start = offsets.next().ok_or(Broken)?;
    if start != 0 {
        return Err(Broken);
    }
    let mut items = Vec::with_capacity(count);
    for end in offsets {
        if end <= start || end > area.len() {
            return Err(Broken);
        }
        items.push(area.start + start..area.start + end);
        start = end;
    }
    if start == area.len() {
        Ok(items)
    } else {
        Err(Broken)
    }
}

fn open_object<'a>(
    names: &Dictionary<'a>,
    header: u8,
    bytes: &'a [u8],
) -> Result<Shape<'a>, Broken> {
    if header >> 5 != 0 {
        return Err(Broken);
    }
    let mut reader = Reader::new(&bytes[1..]);
    let count = reader.number(count_size(header >> 4 & 1 == 1))?;
    let ids = reader.numbers(count, size_bits(header, 2))?;
    let offsets = reader.numbers(count + 1, size_bits(header, 0))?;
    let area = bytes.len() - reader.rest().len()..bytes.len();
    let items = object_items(offsets, count, area)?;
    let mut fields = Vec::with_capacity(count);
    let mut last: Option<&[u8]> = None;
    for (id, item) in ids.iter().zip(items) {
        let name = names.name(id).ok_or(Broken)?;
        if last.is_some_and(|last| last >= name) {
            return Err(Broken);
        }
        last = Some(name);
        fields.push((name, item));
    }
    Ok(Shape::Object(fields))
}

/// Values lie in any order, but every byte of the area is in exactly one of them. As no value is
/// empty, a value then ends where the next higher start is, or where the area ends.
fn object_items(
    offsets: Numbers,
    count: usize,
    area: Range<usize>,
) -> Result<Vec<Range<usize>>, Broken> {
    let mut starts: Vec<usize> = offsets.iter().collect();
    if starts.pop() != Some(area.len()) {
        return Err(Broken);
    }
    let mut order: Vec<usize> = (0..count).collect();
    order.sort_by_key(|&i| starts[i]);
    let mut items = vec![0..0; count];
    let mut end = area.len();
    for &i in order.iter().rev() {
        if starts[i] >= end {
            return Err(Broken);
        }
        items[i] = area.start + starts[i]..area.start + end;
        end = starts[i];
    }
    if end == 0 {
        Ok(items)
    } else {
        Err(Broken)
    }
}

#[cfg(test)]
mod tests {
    use super::*;

    const EMPTY: &[u8] = &[0x01, 0x00, 0x00];
    const BA: &[u8] = &[0x01, 0x02, 0x00, 0x01, 0x02, 0x62, 0x61];

    fn good(metadata: &[u8], value: &[u8]) -> bool {
        check(&Dictionary::read(metadata).unwrap(), value, 1).is_ok()
    }

    fn nested(arrays: usize, innermost: &[u8]) -> Vec<u8> {
        (0..arrays).fold(innermost.to_vec(), |inner, _| {
            let mut value = vec![0x03, 1, 0, inner.len() as u8];
            value.extend(inner);
            value
        })
    }

    #[test]
    fn the_sample_lots() {
        assert!(!good(EMPTY, &[]));
        assert!(good(EMPTY, &[0x00]));
        assert!(good(EMPTY, &[0x0D, 0x6E, 0x2F, 0x61]));
        assert!(good(EMPTY, &[0x40, 3, 0, 0, 0, 0x6E, 0x2F, 0x61]));
        assert!(!good(EMPTY, &[0x13, 0x6E, 0x2F, 0x61]));
        assert!(good(EMPTY, &[0x02, 0x00, 0x00]));
        assert!(!good(EMPTY, &[0x02, 0x00]));
        assert!(good(EMPTY, &[0x03, 0x00, 0x00]));
        assert!(!good(EMPTY, &[0x54]));
    }

    #[test]
    fn names_rise_by_bytes_and_not_by_ids() {
        assert!(good(BA, &[0x02, 2, 1, 0, 0, 1, 2, 0x00, 0x04]));
        assert!(good(BA, &[0x02, 2, 1, 0, 1, 0, 2, 0x04, 0x00]));
        assert!(!good(BA, &[0x02, 2, 0, 1, 0, 1, 2, 0x00, 0x04]));
        let aa = [0x01, 0x02, 0x00, 0x01, 0x02, 0x61, 0x61];
        assert!(!good(&aa, &[0x02, 2, 0, 1, 0, 1, 2, 0x00, 0x04]), "one name twice");
        assert!(good(&aa, &[0x02, 1, 1, 0, 1, 0x00]));
        assert!(!good(&aa, &[0x02, 1, 2, 0, 1, 0x00]), "an id past the dictionary");
    }

    #[test]
    fn every_primitive_has_its_size() {
        for (kind, size) in SIZES.iter().enumerate() {
            let body = match size {
                Size::Fixed(size) => vec![0; *size],
                Size::Prefixed => vec![2, 0, 0, 0, 0xFF, 0xFE],
            };
            let mut value = vec![(kind as u8) << 2];
            value.extend(body);
            assert!(good(EMPTY, &value), "type {kind}");
            assert!(!good(EMPTY, &[&value[..], &[0]].concat()), "type {kind}, one more");
            assert!(!good(EMPTY, &value[..value.len() - 1]), "type {kind}, one less");
        }
        for kind in 21..64u8 {
            assert!((0..40).all(|size| !good(EMPTY, &[vec![kind << 2], vec![0; size]].concat())));
        }
    }

    #[test]
    fn a_scale_is_at_most_38() {
        for (kind, size) in [(8u8, 4), (9, 8), (10, 16)] {
            let decimal = |scale: u8| [vec![kind << 2, scale], vec![0xFF; size]].concat();
            assert!(good(EMPTY, &decimal(38)));
            assert!(!good(EMPTY, &decimal(39)));
        }
    }

    #[test]
    fn unused_bits_are_zero() {
        assert!(!good(EMPTY, &[0x82, 0x00, 0x00]));
        for bit in [0x20, 0x40, 0x80] {
            assert!(!good(EMPTY, &[0x03 | bit, 0x00, 0x00]));
        }
        assert!(good(EMPTY, &[0x42, 0, 0, 0, 0, 0]));
        assert!(good(EMPTY, &[0x13, 0, 0, 0, 0, 0]));
    }

    #[test]
    fn an_empty_container_has_the_offset_0() {
        assert!(!good(EMPTY, &[0x03, 0x00, 0x01]));
        assert!(!good(EMPTY, &[0x03, 0x00, 0x01, 0x00]));
        assert!(!good(EMPTY, &[0x02, 0x00, 0x01, 0x00]));
        assert!(!good(EMPTY, &[0x03, 0x00, 0x00, 0x00]));
    }

    #[test]
    fn array_offsets() {
        assert!(good(EMPTY, &[0x03, 2, 0, 1, 2, 0x00, 0x04]));
        assert!(!good(EMPTY, &[0x03, 2, 1, 0, 2, 0x00, 0x04]), "the first is not 0");
        assert!(!good(EMPTY, &[0x03, 2, 0, 0, 2, 0x00, 0x04]), "an empty child");
        assert!(!good(EMPTY, &[0x03, 2, 0, 1, 3, 0x00, 0x04]), "past the end");
        assert!(!good(EMPTY, &[0x03, 2, 0, 1, 2, 0x00, 0x04, 0x00]), "a byte left");
        assert!(!good(EMPTY, &[0x03, 1, 0, 2, 0x00, 0x04]), "a child shorter than its room");
    }

    #[test]
    fn every_byte_of_an_object_is_in_one_child() {
        let fields = |offsets: [u8; 3], area: &[u8]| {
            good(BA, &[&[0x02, 2, 1, 0][..], &offsets, area].concat())
        };
        assert!(fields([0, 2, 3], &[0x0C, 0x22, 0x00]));
        assert!(fields([1, 0, 3], &[0x00, 0x0C, 0x22]));
        assert!(!fields([0, 0, 2], &[0x0C, 0x22]), "shared");
        assert!(!fields([0, 1, 2], &[0x0C, 0x00]), "overlapping");
        assert!(!fields([0, 2, 3], &[0x00, 0x00, 0x00]), "a gap");
        assert!(!fields([1, 2, 3], &[0x00, 0x00, 0x00]), "a gap before");
        assert!(!fields([0, 1, 3], &[0x00, 0x00, 0x00]), "a gap behind");
        assert!(!fields([0, 1, 2], &[0x00, 0x00, 0x00]), "a last offset too small");
        assert!(!fields([0, 3, 3], &[0x0C, 0x22, 0x00]), "a start at the end");
    }

    #[test]
    fn sixteen_levels() {
        assert!(good(EMPTY, &nested(15, &[0x00])));
        assert!(!good(EMPTY, &nested(16, &[0x00])));
        assert!(good(EMPTY, &nested(15, &[0x03, 0, 0])));
        assert!(!good(EMPTY, &nested(15, &nested(1, &[0x00]))));
    }
}
