//! The documents that are timed: small and full-size, by the shapes that cost most.

use second::bytes::{push_number, size_of_number};
use second::doc::Doc;
use second::generate::docs::{object, Made};
use second::generate::encode::names_used;
use second::generate::Rng;
use second::limits;
use second::normal::normal;
use second::value::DOUBLE;
use std::collections::BTreeMap;

const INT8: u8 = 3;
const INT16: u8 = 4;
const INT32: u8 = 5;
const DATE: u8 = 11;

/// How a document is written: its dictionary sorted or not, the values of its objects in the order of
/// their fields or not.
#[derive(Clone, Copy, PartialEq, Eq)]
pub enum Layout {
    Sorted,
    Unsorted,
    SortedShuffled,
    UnsortedShuffled,
}

impl Layout {
    const ALL: [Layout; 4] =
        [Layout::Sorted, Layout::Unsorted, Layout::SortedShuffled, Layout::UnsortedShuffled];

    fn is_sorted(self) -> bool {
        matches!(self, Layout::Sorted | Layout::SortedShuffled)
    }

    fn is_shuffled(self) -> bool {
        matches!(self, Layout::SortedShuffled | Layout::UnsortedShuffled)
    }

    fn words(self) -> &'static str {
        match self {
            Layout::Sorted => ", names sorted",
            Layout::Unsorted => ", names unsorted",
            Layout::SortedShuffled => ", names sorted, values out of order",
            Layout::UnsortedShuffled => ", names unsorted, values out of order",
        }
    }
}

/// A document with its bytes.
pub struct Shape {
    pub name: String,
    pub doc: Made,
    layout: Layout,
    pub metadata: Vec<u8>,
    pub value: Vec<u8>,
}

impl Shape {
    /// Whether it is written otherwise than with names sorted and values in order.
    pub fn is_odd(&self) -> bool {
        self.layout != Layout::Sorted
    }
}

/// All documents that are timed.
pub fn shapes() -> Vec<Shape> {
    let mut shapes = Vec::new();
    let with_names = [
        ("small parcel", parcel(7)),
        ("full parcels", full_parcels()),
        ("small flat object", flat(29)),
        ("full flat object", flat(2_150)),
        ("small nest of objects", nested_objects(15)),
        ("full nests of objects", filled(|_| nested_objects(15))),
        ("full string in a nest of objects", nested_string()),
        ("full dictionary of like names", alike(158)),
    ];
    for (name, doc) in with_names {
        for layout in Layout::ALL {
            shapes.push(shape(format!("{name}{}", layout.words()), doc.clone(), &[], layout));
        }
    }
    for layout in Layout::ALL {
        let name = format!("full dictionary of 4,000 names, 2,700 used{}", layout.words());
        let unused: Vec<_> = (2_700..4_000).map(two_letters).collect();
        shapes.push(shape(name, numbered(2_700, two_letters), &unused, layout));
    }
    let repeats: Vec<_> = (0..4_800).map(|number| one_letter(number % 200)).collect();
    let name = "full dictionary of 5,000 names, 200 of them different".to_string();
    shapes.push(shape(name, numbered(200, one_letter), &repeats, Layout::Unsorted));
    let without = [
        ("small nest of arrays", nested_arrays(15)),
        ("full nests of arrays", filled(|_| nested_arrays(15))),
        ("small string", text(145)),
        ("full string", text(limits::VALUE - 5)),
        ("full strings of 1,000 bytes", filled(|_| text(1_000))),
        ("small array of int8", Doc::Array((0..48).map(int8).collect())),
        ("full array of int8", Doc::Array((0..4_090).map(int8).collect())),
        ("full array of nulls", Doc::Array(vec![Doc::Null; 5_450])),
    ];
    shapes.extend(without.map(|(name, doc)| shape(name.to_string(), doc, &[], Layout::Sorted)));
    shapes
}

fn shape(name: String, doc: Made, unused: &[Vec<u8>], layout: Layout) -> Shape {
    let (metadata, value) = encode(&doc, unused, layout);
    Shape { name, doc, layout, metadata, value }
}

fn payload(kind: u8, bytes: &[u8]) -> Made {
    Doc::Payload(kind, bytes.to_vec().into())
}

fn int8(number: usize) -> Made {
    payload(INT8, &[number as u8])
}

fn double(number: f64) -> Made {
    payload(DOUBLE, &number.to_le_bytes())
}

fn text(length: usize) -> Made {
    Doc::Text((0..length).map(|at| b'a' + (at % 26) as u8).collect::<Vec<_>>().into())
}

/// A parcel of the register, of about 150 bytes, with a box.
fn parcel(number: usize) -> Made {
    let field = |name: &str, item: Made| (name.as_bytes().to_vec(), item);
    let degrees = (number % 90) as f64;
    let owner = object(vec![
        field("name", Doc::Text(b"Registered Holder of the Northern Lots".to_vec().into())),
        field("since", payload(DATE, &(18_000 + number as u32).to_le_bytes())),
    ]);
    object(vec![
        field("county", Doc::Text(b"Elm and Ash".to_vec().into())),
        field("east", double(degrees + 0.5)),
        field("lot", payload(INT32, &(number as u32).to_le_bytes())),
        field("north", double(degrees + 0.25)),
        field("owner", owner),
        field("parts", Doc::Array((0..4).map(|part| int8(number + part)).collect())),
        field("retired", Doc::Bool(number.is_multiple_of(2))),
        field("south", double(degrees)),
        field("west", double(degrees)),
    ])
}

/// As many parcels as a value may hold.
pub fn full_parcels() -> Made {
    filled(|number| parcel(number * 37))
}

fn flat(count: usize) -> Made {
    let field = |number: usize| {
        (format!("n{number:04}").into_bytes(), payload(INT16, &(number as u16).to_le_bytes()))
    };
    object((0..count).map(field).collect())
}

/// A name of one byte.
pub fn one_letter(number: usize) -> Vec<u8> {
    vec![number as u8]
}

/// A name of two bytes; they rise as their numbers do.
pub fn two_letters(number: usize) -> Vec<u8> {
    vec![(number / 256) as u8, (number % 256) as u8]
}

/// An object of so many nulls.
fn numbered(count: usize, name: impl Fn(usize) -> Vec<u8>) -> Made {
    object((0..count).map(|number| (name(number), Doc::Null)).collect())
}

/// Names of 100 bytes that differ in the last ones only.
pub fn like_name(number: usize) -> Vec<u8> {
    format!("{}{number:03}", "n".repeat(97)).into_bytes()
}

fn alike(count: usize) -> Made {
    object((0..count).map(|number| (like_name(number), int8(number))).collect())
}

/// So many levels, all but the innermost objects, each with a number beside the next.
fn nested_objects(levels: usize) -> Made {
    (1..levels).fold(Doc::Null, |inner, level| {
        let (near, far) = (format!("level{level}"), format!("below{level}"));
        object(vec![(near.into_bytes(), int8(level)), (far.into_bytes(), inner)])
    })
}

/// A long string inside as many objects as there may be, each with a number beside the next.
fn nested_string() -> Made {
    (1..limits::LEVELS).fold(text(15_500), |inner, level| {
        object(vec![(b"far".to_vec(), inner), (b"near".to_vec(), int8(level))])
    })
}

/// So many levels, all but the innermost arrays, each with two numbers before the next.
fn nested_arrays(levels: usize) -> Made {
    (1..levels).fold(Doc::Null, |inner, level| Doc::Array(vec![int8(level), int8(level), inner]))
}

/// An array of as many as fit.
fn filled(item: impl Fn(usize) -> Made) -> Made {
    let mut items = Vec::new();
    let mut length = 10;
    loop {
        let next = item(items.len());
        // An item has its bytes and an offset.
        length += encode(&next, &[], Layout::Sorted).1.len() + 2;
        if length > limits::VALUE {
            return Doc::Array(items);
        }
        items.push(next);
    }
}

/// A path to the middle child of the middle child, and so on.
pub fn middle(doc: &Made) -> Vec<u8> {
    use second::path::{push_step, Step};
    let (mut path, mut here) = (Vec::new(), doc);
    loop {
        match here {
            Doc::Array(items) if !items.is_empty() => {
                let at = items.len() / 2;
                push_step(&mut path, Step::Index(at));
                here = &items[at];
            }
            Doc::Object(fields) if !fields.is_empty() => {
                let (name, item) = &fields[fields.len() / 2];
                push_step(&mut path, Step::Name(name));
                here = item;
            }
            _ => return path,
        }
    }
}

/// Metadata and value of a document, with further names in its dictionary.
pub fn encode(doc: &Made, unused: &[Vec<u8>], layout: Layout) -> (Vec<u8>, Vec<u8>) {
    let mut names = Vec::new();
    names_used(doc, &mut names);
    names.sort();
    names.dedup();
    names.extend_from_slice(unused);
    names.sort();
    let mut rng = Rng::new(1);
    if !layout.is_sorted() {
        rng.shuffle(&mut names);
    }
    let ids = names.iter().cloned().zip(0..).collect();
    let mut value = Vec::new();
    Writer { ids, is_shuffled: layout.is_shuffled(), rng }.write(doc, &mut value);
    (metadata(&names, layout.is_sorted()), value)
}

/// Metadata of these names as they stand, of the smallest sizes.
pub fn metadata(names: &[Vec<u8>], is_sorted: bool) -> Vec<u8> {
    let area = names.concat();
    let size = size_of_number(area.len().max(names.len()));
    let mut out = vec![0x01 | u8::from(is_sorted) << 4 | (size as u8 - 1) << 6];
    push_number(&mut out, names.len(), size);
    let mut offset = 0;
    push_number(&mut out, offset, size);
    for name in names {
        offset += name.len();
        push_number(&mut out, offset, size);
    }
    [out, area].concat()
}

/// Writes values of the smallest sizes.
struct Writer {
    ids: BTreeMap<Vec<u8>, usize>,
    is_shuffled: bool,
    rng: Rng,
}

impl Writer {
    fn write(&mut self, doc: &Made, out: &mut Vec<u8>) {
        match doc {
            Doc::Array(items) => self.container(None, items.iter(), out),
            Doc::Object(fields) => {
                let ids = fields.iter().map(|(name, _)| self.ids[name.as_ref()]).collect();
                self.container(Some(ids), fields.iter().map(|(_, item)| item), out);
            }
            scalar => out.extend(normal(scalar).value),
        }
    }

    fn container<'d>(
        &mut self,
        ids: Option<Vec<usize>>,
        items: impl Iterator<Item = &'d Made>,
        out: &mut Vec<u8>,
    ) {
        let items: Vec<_> = items.collect();
        let mut order: Vec<usize> = (0..items.len()).collect();
        if ids.is_some() && self.is_shuffled {
            self.rng.shuffle(&mut order);
        }
        let (mut area, mut offsets) = (Vec::new(), vec![0; items.len()]);
        for at in order {
            offsets[at] = area.len();
            self.write(items[at], &mut area);
        }
        offsets.push(area.len());
        let (size, is_large) = (size_of_number(area.len()), items.len() > 255);
        let ids_size = size_of_number(ids.iter().flatten().copied().max().unwrap_or(0));
        out.push(match ids {
            None => 0x03 | (size as u8 - 1) << 2 | u8::from(is_large) << 4,
            Some(_) => {
                0x02 | (size as u8 - 1) << 2 | (ids_size as u8 - 1) << 4 | u8::from(is_large) << 6
            }
        });
        push_number(out, items.len(), if is_large { 4 } else { 1 });
        ids.iter().flatten().for_each(|&id| push_number(out, id, ids_size));
        offsets.iter().for_each(|&offset| push_number(out, offset, size));
        out.extend(area);
    }
}

#[cfg(test)]
mod tests {
    use super::*;
    use second::operations::{document, find};

    #[test]
    fn shapes_are_good_and_of_their_size() {
        for Shape { name, doc, metadata, value, .. } in shapes() {
            assert_eq!(document(&metadata, &value).as_ref(), Ok(&doc), "{name}");
            let size = match name.starts_with("small") {
                true => 125..160,
                false => 15_000..limits::VALUE + 1,
            };
            let length = match name.contains("dictionary") {
                true => metadata.len(),
                false => value.len(),
            };
            assert!(size.contains(&length), "{name}: {length}");
            let found = find(&metadata, &value, &middle(&doc));
            assert!(matches!(found, Ok(Some(_))), "{name}");
        }
    }

    #[test]
    fn shuffled_values_are_out_of_order() {
        let in_order = |layout| {
            let (metadata, value) = encode(&flat(29), &[], layout);
            let normal = normal(&flat(29));
            (metadata[0] & 0x10 != 0, value == normal.value)
        };
        assert_eq!(in_order(Layout::Sorted), (true, true));
        assert_eq!(in_order(Layout::SortedShuffled), (true, false));
        assert_eq!(in_order(Layout::Unsorted), (false, false));
    }
}
