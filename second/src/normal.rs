//! "Normal form": the one encoding of a meaning.

use crate::bytes::{push_number, size_of_number};
use crate::doc::Doc;
use crate::value::{Size, FALSE, MAX_SHORT, NULL, SIZES, STRING, TRUE};

/// A document in normal form.
#[derive(Clone, Debug, PartialEq, Eq)]
pub struct Normal {
    pub metadata: Vec<u8>,
    pub value: Vec<u8>,
}

/// Writes a document in normal form.
pub fn normal(doc: &Doc) -> Normal {
    let names = NormalNames::of(doc);
    let mut value = Vec::new();
    names.write(doc, &mut value);
    Normal { metadata: names.metadata(), value }
}

/// A normal dictionary: exactly the names used, rising. A name's place in it is its normal id.
pub struct NormalNames<'d> {
    names: Vec<&'d [u8]>,
}

impl<'d> NormalNames<'d> {
    /// The names used in a document.
    pub fn of(doc: &'d Doc) -> Self {
        let mut names = Vec::new();
        collect(doc, &mut names);
        names.sort_unstable();
        names.dedup();
        NormalNames { names }
    }

    /// Flag set, smallest offset size that holds count and total.
    pub fn metadata(&self) -> Vec<u8> {
        let total: usize = self.names.iter().map(|name| name.len()).sum();
        let size = size_of_number(total.max(self.names.len()));
        let mut out = Vec::with_capacity(1 + size * (self.names.len() + 2) + total);
        out.push(0x11 | (size as u8 - 1) << 6);
        push_number(&mut out, self.names.len(), size);
        let mut offset = 0;
        push_number(&mut out, offset, size);
        for name in &self.names {
            offset += name.len();
            push_number(&mut out, offset, size);
        }
        self.names.iter().for_each(|name| out.extend_from_slice(name));
        out
    }

    /// Appends a normal value. Every name in it must be in the dictionary.
    pub fn write(&self, doc: &Doc, out: &mut Vec<u8>) {
        match doc {
            Doc::Null => out.push(NULL << 2),
            Doc::Bool(true) => out.push(TRUE << 2),
            Doc::Bool(false) => out.push(FALSE << 2),
            Doc::Payload(kind, payload) => write_payload(*kind, payload, out),
            Doc::Text(text) => write_text(text, out),
            Doc::Array(items) => self.write_array(items, out),
            Doc::Object(fields) => {
                let fields = fields.iter().map(|(name, item)| (name.as_ref(), item));
                self.write_object(&fields.collect::<Vec<_>>(), out)
            }
        }
    }

    fn write_array(&self, items: &[Doc], out: &mut Vec<u8>) {
        let (start, offsets) = self.write_items(items.iter(), out);
        let size = size_of_number(offsets[items.len()]);
        let large = items.len() > 255;
        let mut header = vec![0x03 | (size as u8 - 1) << 2 | u8::from(large) << 4];
        push_number(&mut header, items.len(), if large { 4 } else { 1 });
        push_numbers(&mut header, &offsets, size);
        out.splice(start..start, header);
    }

    /// Appends an object of these fields, whose names rise.
    pub fn write_object(&self, fields: &[(&[u8], &Doc)], out: &mut Vec<u8>) {
        let (start, offsets) = self.write_items(fields.iter().map(|(_, item)| *item), out);
        let ids: Vec<usize> = fields.iter().map(|(name, _)| self.id(name)).collect();
        let offset_size = size_of_number(offsets[fields.len()]);
        let id_size = size_of_number(ids.iter().copied().max().unwrap_or(0));
        let large = fields.len() > 255;
        let sizes = (offset_size as u8 - 1) << 2 | (id_size as u8 - 1) << 4;
        let mut header = vec![0x02 | sizes | u8::from(large) << 6];
        push_number(&mut header, fields.len(), if large { 4 } else { 1 });
        push_numbers(&mut header, &ids, id_size);
        push_numbers(&mut header, &offsets, offset_size);
        out.splice(start..start, header);
    }

    /// Appends values one after the other; where they start in `out`, and all their offsets.
    fn write_items<'i, 'b: 'i>(
        &self,
        items: impl Iterator<Item = &'i Doc<'b>>,
        out: &mut Vec<u8>,
    ) -> (usize, Vec<usize>) {
        let start = out.len();
        let mut offsets = vec![0];
        for item in items {
            self.write(item, out);
            offsets.push(out.len() - start);
        }
        (start, offsets)
    }

    fn id(&self, name: &[u8]) -> usize {
        self.names.binary_search(&name).expect("a dictionary has every name used")
    }
}

fn collect<'d>(doc: &'d Doc, names: &mut Vec<&'d [u8]>) {
    match doc {
        Doc::Array(items) => items.iter().for_each(|item| collect(item, names)),
        Doc::Object(fields) => fields.iter().for_each(|(name, item)| {
            names.push(name);
            collect(item, names);
        }),
        _ => {}
    }
}

fn push_numbers(out: &mut Vec<u8>, numbers: &[usize], size: usize) {
    numbers.iter().for_each(|&number| push_number(out, number, size));
}

fn write_payload(kind: u8, payload: &[u8], out: &mut Vec<u8>) {
    out.push(kind << 2);
    if SIZES[usize::from(kind)] == Size::Prefixed {
        push_number(out, payload.len(), 4);
    }
    out.extend_from_slice(payload);
}

/// Strings are short up to 63 bytes.
fn write_text(text: &[u8], out: &mut Vec<u8>) {
    if text.len() <= MAX_SHORT {
        out.push(0x01 | (text.len() as u8) << 2);
        out.extend_from_slice(text);
    } else {
        write_payload(STRING, text, out);
    }
}

#[cfg(test)]
mod tests {
    use super::*;

    fn object(fields: Vec<(Vec<u8>, Doc<'static>)>) -> Doc<'static> {
        Doc::Object(fields.into_iter().map(|(name, item)| (name.into(), item)).collect())
    }

    #[test]
    fn the_sample_lot() {
        let doc = object(vec![(b"a".to_vec(), Doc::Null), (b"b".to_vec(), Doc::Bool(true))]);
        let made = normal(&doc);
        assert_eq!(made.metadata, [0x11, 0x02, 0x00, 0x01, 0x02, 0x61, 0x62]);
        assert_eq!(made.value, [0x02, 2, 0, 1, 0, 1, 2, 0x00, 0x04]);
    }

    #[test]
    fn strings_are_short_up_to_63_bytes() {
        let first = |length: usize| normal(&Doc::Text(vec![0x61; length].into())).value;
        assert_eq!(first(0), [0x01]);
        assert_eq!(first(63)[..2], [0xFD, 0x61]);
        assert_eq!(first(64)[..6], [0x40, 0x40, 0x00, 0x00, 0x00, 0x61]);
    }

    #[test]
    fn empty_containers() {
        assert_eq!(normal(&Doc::Array(vec![])).value, [0x03, 0, 0]);
        assert_eq!(normal(&Doc::Object(vec![])).value, [0x02, 0, 0]);
        assert_eq!(normal(&Doc::Object(vec![])).metadata, [0x11, 0, 0]);
    }

    #[test]
    fn containers_are_large_above_255_members() {
        let array = |count: usize| normal(&Doc::Array(vec![Doc::Null; count])).value;
        assert_eq!(array(255)[..3], [0x03, 255, 0]);
        assert_eq!(array(256)[..7], [0x17, 0, 1, 0, 0, 0, 0]);
        let names = |count: usize| (0..count).map(|i| vec![(i >> 8) as u8, i as u8]);
        let wide = |count: usize| normal(&object(names(count).map(|n| (n, Doc::Null)).collect()));
        assert_eq!(wide(255).value[..3], [0x02, 255, 0]);
        assert_eq!(wide(256).value[..6], [0x46, 0, 1, 0, 0, 0]);
        assert_eq!(wide(257).value[..6], [0x56, 1, 1, 0, 0, 0]);
    }

    #[test]
    fn an_offset_size_holds_the_last_offset() {
        let array =
            |length: usize| normal(&Doc::Array(vec![Doc::Text(vec![0; length].into())])).value;
        assert_eq!(array(63)[..4], [0x03, 1, 0, 64]);
        assert_eq!(array(250)[..4], [0x03, 1, 0, 255]);
        assert_eq!(array(251)[..6], [0x07, 1, 0, 0, 0, 1]);
    }

    #[test]
    fn an_id_size_is_that_objects_own() {
        let names: Vec<_> = (0..300usize).map(|i| vec![(i >> 8) as u8, i as u8]).collect();
        let low = object(vec![(names[255].clone(), Doc::Null)]);
        let high = object(vec![(names[256].clone(), Doc::Null)]);
        let all = object(names.into_iter().map(|name| (name, Doc::Null)).collect());
        let doc = Doc::Array(vec![low, high, all]);
        let value = normal(&doc).value;
        let area = &value[2 + 2 * 4..];
        assert_eq!(area[..13], [0x02, 1, 255, 0, 1, 0x00, 0x12, 1, 0, 1, 0, 1, 0x00]);
    }

    #[test]
    fn metadata_offsets_hold_count_and_total() {
        let of = |count: usize, length: usize| {
            let name = |i: usize| [vec![(i >> 8) as u8, i as u8], vec![0; length - 2]].concat();
            normal(&object((0..count).map(|i| (name(i), Doc::Null)).collect())).metadata
        };
        assert_eq!(of(1, 255)[..4], [0x11, 1, 0, 255]);
        assert_eq!(of(1, 256)[..7], [0x51, 1, 0, 0, 0, 0, 1]);
        assert_eq!(of(127, 2)[..2], [0x11, 127]);
        assert_eq!(of(128, 2)[..3], [0x51, 128, 0]);
    }

    #[test]
    fn a_count_may_need_more_than_the_total() {
        let names = (0..255u8).map(|byte| vec![byte]).chain([vec![]]);
        let mut names: Vec<_> = names.map(|name| (name, Doc::Null)).collect();
        names.sort_by(|one, other| one.0.cmp(&other.0));
        let metadata = normal(&object(names)).metadata;
        assert_eq!(metadata[..5], [0x51, 0, 1, 0, 0]);
        assert_eq!(metadata.len(), 1 + 2 + 2 * 257 + 255);
    }
}
