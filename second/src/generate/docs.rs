//! Documents: all types, nested, wide, deep, near the limits, and lots with a box.

use super::rng::Rng;
use crate::doc::{Bytes, Doc};
use crate::limits;
use crate::normal::normal;
use crate::value::Size;
use crate::value::{BINARY, DECIMALS, DOUBLE, FALSE, FLOAT, MAX_SCALE, NULL, SIZES, STRING, TRUE};
use std::collections::BTreeMap;

/// A generated document owns its bytes.
pub type Made = Doc<'static>;

/// Names that are prefixes of others, empty, above 127, no UTF-8, and the four of a box.
const NAMES: [&[u8]; 20] = [
    b"",
    b"a",
    b"aa",
    b"ab",
    b"abc",
    b"abd",
    b"b",
    b"ba",
    b"c",
    b"/",
    b" ",
    b"\x00",
    b"\x7f",
    b"\x80",
    b"\xc3\xa9",
    b"\xff",
    b"east",
    b"north",
    b"south",
    b"west",
];

#[derive(Clone, Copy)]
enum Form {
    Scalar,
    Small,
    Medium,
    Nest,
    WideArray,
    WideObject,
    Lot,
    Full,
}

/// A document of any form.
pub fn doc(rng: &mut Rng) -> Made {
    let form = rng.weighted(&[
        (120, Form::Scalar),
        (600, Form::Small),
        (180, Form::Medium),
        (40, Form::Nest),
        (8, Form::WideArray),
        (8, Form::WideObject),
        (40, Form::Lot),
        (4, Form::Full),
    ]);
    match form {
        Form::Scalar => scalar(rng),
        Form::Small => tree(rng, 8),
        Form::Medium => tree(rng, 40),
        Form::Nest => {
            let levels = rng.pick(&[2, 8, 14, 15, 16, 16, 17, 18]);
            nest(rng, levels)
        }
        Form::WideArray => wide_array(rng),
        Form::WideObject => wide_object(rng),
        Form::Lot => lot(rng),
        Form::Full => {
            let length = limits::VALUE - rng.pick(&[0, 0, 1, 2, 100]);
            full(rng, length)
        }
    }
}

/// A container, or rarely a scalar, of about so many values.
pub fn tree(rng: &mut Rng, values: usize) -> Made {
    tree_at(rng, values, 1)
}

/// A scalar or a container of about so many values, that may stand at this level.
pub fn tree_at(rng: &mut Rng, values: usize, level: usize) -> Made {
    let mut left = rng.between(1, values);
    grow(rng, &mut left, level)
}

fn grow(rng: &mut Rng, left: &mut usize, level: usize) -> Made {
    if *left == 0 || level == limits::LEVELS || rng.percent(if level == 1 { 5 } else { 45 }) {
        return scalar(rng);
    }
    let count = rng.below(6).min(*left);
    *left -= count;
    if rng.percent(50) {
        Doc::Array((0..count).map(|_| grow(rng, left, level + 1)).collect())
    } else {
        object((0..count).map(|_| (name(rng), grow(rng, left, level + 1))).collect())
    }
}

/// An object of these fields; the last of one name stays.
pub fn object(fields: Vec<(Vec<u8>, Made)>) -> Made {
    let fields: BTreeMap<Vec<u8>, Made> = fields.into_iter().collect();
    Doc::Object(fields.into_iter().map(|(name, item)| (Bytes::from(name), item)).collect())
}

/// A field's name.
pub fn name(rng: &mut Rng) -> Vec<u8> {
    match rng.below(20) {
        0..=13 => rng.pick(&NAMES).to_vec(),
        14..=17 => numbered(rng.below(400)),
        18 => {
            let length = rng.below(6);
            rng.bytes(length)
        }
        _ => vec![b'a'; rng.pick(&[3, 20, 63, 64, 255, 256])],
    }
}

/// Names that rise as their numbers do.
pub fn numbered(number: usize) -> Vec<u8> {
    format!("n{number:03}").into_bytes()
}

/// A value without children, of any type.
pub fn scalar(rng: &mut Rng) -> Made {
    let kind = rng.below(SIZES.len()) as u8;
    of_type(rng, kind)
}

/// A value of this type.
fn of_type(rng: &mut Rng, kind: u8) -> Made {
    match kind {
        NULL => Doc::Null,
        TRUE => Doc::Bool(true),
        FALSE => Doc::Bool(false),
        STRING => Doc::Text(text(rng).into()),
        kind => Doc::Payload(kind, payload(rng, kind).into()),
    }
}

/// A value that a column of this type takes.
pub fn of_column(rng: &mut Rng, code: u8) -> Made {
    match code {
        TRUE => Doc::Bool(rng.percent(50)),
        kind => of_type(rng, kind),
    }
}

/// Bytes that a payload of this type may have; for a string or binary without their length.
pub fn payload(rng: &mut Rng, kind: u8) -> Vec<u8> {
    match SIZES[usize::from(kind)] {
        Size::Prefixed if kind == BINARY => {
            let length = rng.pick(&[0, 1, 2, 7, 63, 64]);
            rng.bytes(length)
        }
        Size::Prefixed => text(rng),
        Size::Fixed(_) if kind == DOUBLE => double(rng).to_le_bytes().to_vec(),
        Size::Fixed(_) if kind == FLOAT => float(rng).to_le_bytes().to_vec(),
        Size::Fixed(size) if DECIMALS.contains(&kind) => {
            let scale = rng.pick(&[0, 2, MAX_SCALE]);
            [vec![scale], integer(rng, size - 1)].concat()
        }
        Size::Fixed(size) => integer(rng, size),
    }
}

fn integer(rng: &mut Rng, size: usize) -> Vec<u8> {
    let mut bytes = match rng.below(6) {
        0 => vec![0; size],
        1 | 4 => vec![0xFF; size],
        2 | 3 => [vec![34], vec![0; size - 1]].concat(),
        _ => return rng.bytes(size),
    };
    if rng.percent(30) {
        bytes[size - 1] ^= 0x80;
    }
    bytes
}

/// The bits of a double: zeros of both signs, ends, infinities, NaNs with payloads.
pub fn double(rng: &mut Rng) -> u64 {
    const BITS: [u64; 12] = [
        0,
        1 << 63,
        0x3FF0_0000_0000_0000,
        0xBFF0_0000_0000_0000,
        0x7FF0_0000_0000_0000,
        0xFFF0_0000_0000_0000,
        0x7FF8_0000_0000_0000,
        0xFFF8_0000_0000_0001,
        0x7FF0_0000_0000_0001,
        0x7FEF_FFFF_FFFF_FFFF,
        1,
        u64::MAX,
    ];
    match rng.below(4) {
        0 => rng.bits(),
        1 => ((rng.bits() % 3600) as f64 / 10.0 - 180.0).to_bits(),
        _ => rng.pick(&BITS),
    }
}

/// The bits of a float, as for doubles.
fn float(rng: &mut Rng) -> u32 {
    const BITS: [u32; 10] = [
        0,
        1 << 31,
        0x3F80_0000,
        0x7F80_0000,
        0xFF80_0000,
        0x7FC0_0000,
        0xFFC0_0001,
        0x7F80_0001,
        0x7F7F_FFFF,
        u32::MAX,
    ];
    if rng.percent(30) {
        rng.bits() as u32
    } else {
        rng.pick(&BITS)
    }
}

fn text(rng: &mut Rng) -> Vec<u8> {
    let length = match rng.below(12) {
        0 => rng.pick(&[62, 63, 64, 65, 255, 256]),
        1 => rng.below(100),
        _ => rng.below(9),
    };
    if rng.percent(10) {
        rng.bytes(length)
    } else {
        (0..length).map(|_| rng.pick(b"abcxyz/ ")).collect()
    }
}

/// A nest so deep: the innermost value is at level `levels`.
pub fn nest(rng: &mut Rng, levels: usize) -> Made {
    let innermost = match rng.below(3) {
        0 => Doc::Array(vec![]),
        1 => Doc::Object(vec![]),
        _ => scalar(rng),
    };
    (1..levels).fold(innermost, |inner, _| match rng.below(4) {
        0 => Doc::Array(vec![scalar(rng), inner]),
        1 => object(vec![(name(rng), scalar(rng)), (name(rng), inner)]),
        2 => object(vec![(name(rng), inner)]),
        _ => Doc::Array(vec![inner]),
    })
}

fn wide_array(rng: &mut Rng) -> Made {
    let count = rng.pick(&[254, 255, 256, 257, 300]);
    Doc::Array((0..count).map(|_| rng.pick(&[&Doc::Null, &Doc::Bool(true)]).clone()).collect())
}

/// More than 255 names, so that some ids take two bytes; and small objects that use some of them.
fn wide_object(rng: &mut Rng) -> Made {
    if rng.percent(15) {
        // The empty name and 254 to 256 of one byte: the count may need two bytes, the total one.
        let names = (0..rng.between(254, 256)).map(|byte| vec![byte as u8]);
        return object(names.chain([vec![]]).map(|name| (name, Doc::Null)).collect());
    }
    let count = rng.pick(&[254, 255, 256, 257, 300]);
    let wide = object((0..count).map(|number| (numbered(number), Doc::Null)).collect());
    if rng.percent(50) {
        return wide;
    }
    let small = |rng: &mut Rng| {
        let number = rng.between(250, 260);
        object(vec![(numbered(number), scalar(rng)), (name(rng), scalar(rng))])
    };
    Doc::Array(vec![small(rng), wide, small(rng)])
}

/// An object with a box, or nearly with one.
pub fn lot(rng: &mut Rng) -> Made {
    let (mut sides, mut fields) = ([double(rng); 4], Vec::new());
    if rng.percent(80) {
        let (east, north) = (rng.below(180) as f64, rng.below(90) as f64);
        let (south, west) = (north - rng.below(4) as f64, east - rng.below(4) as f64);
        sides = [east, north, south, west].map(f64::to_bits);
    }
    if rng.percent(30) {
        sides[rng.below(4)] = double(rng);
    }
    for (name, side) in NAMES[16..].iter().zip(sides) {
        fields.push((name.to_vec(), Doc::Payload(DOUBLE, side.to_le_bytes().to_vec().into())));
    }
    if rng.percent(15) {
        fields.remove(rng.below(4));
    } else if rng.percent(15) {
        fields[rng.below(4)].1 = scalar(rng);
    }
    (0..rng.below(4)).for_each(|_| {
        let extra = name(rng);
        if !NAMES[16..].contains(&extra.as_slice()) {
            fields.push((extra, tree(rng, 3)));
        }
    });
    object(fields)
}

/// A document whose normal value has exactly this length, which must be above 1,000.
pub fn full(rng: &mut Rng, length: usize) -> Made {
    if rng.percent(30) {
        return Doc::Text(vec![b'x'; length - 5].into());
    }
    let mut items = vec![];
    let mut used = 400;
    loop {
        let item = tree(rng, 30);
        used += normal(&item).value.len() + 8;
        if used > length || items.len() > 250 {
            break;
        }
        items.push(item);
    }
    items.push(Doc::Text(vec![b'y'; 300].into()));
    let short = length - normal(&Doc::Array(items.clone())).value.len();
    items.pop();
    items.push(Doc::Text(vec![b'y'; 300 + short].into()));
    Doc::Array(items)
}

/// A document that grows when it is normalised, and the order of names that keeps it small: the
/// first name, used again and again, gets the highest normal id.
pub fn growing(rng: &mut Rng) -> (Made, Vec<Vec<u8>>) {
    let often = b"often".to_vec();
    let names: Vec<Vec<u8>> = (0..260).map(numbered).collect();
    let wide = object(names.iter().map(|name| (name.clone(), Doc::Null)).collect());
    let small = object(vec![(often.clone(), Doc::Null)]);
    let count = rng.between(1600, 1870);
    let mut items = vec![small; count];
    items.insert(rng.below(count), wide);
    (Doc::Array(items), [vec![often], names].concat())
}

/// A document like another, with one thing changed somewhere in it.
pub fn changed(rng: &mut Rng, doc: &Made) -> Made {
    match doc {
        Doc::Array(items) if !items.is_empty() && rng.percent(70) => {
            let (mut items, at) = (items.clone(), rng.below(items.len()));
            items[at] = changed(rng, &items[at]);
            Doc::Array(items)
        }
        Doc::Object(fields) if !fields.is_empty() && rng.percent(70) => {
            let (mut fields, at) = (fields.clone(), rng.below(fields.len()));
            match rng.below(4) {
                0 => drop(fields.remove(at)),
                1 => fields[at].1 = Doc::Null,
                _ => fields[at].1 = changed(rng, &fields[at].1),
            }
            Doc::Object(fields)
        }
        Doc::Payload(kind, payload) if !payload.is_empty() => {
            let mut payload = payload.to_vec();
            // Not a decimal's scale, which has a limit.
            let first = usize::from(DECIMALS.contains(kind));
            let at = rng.between(first, payload.len() - 1);
            payload[at] ^= 1;
            Doc::Payload(*kind, payload.into())
        }
        _ => scalar(rng),
    }
}
