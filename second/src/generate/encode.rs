//! Odd but legal encodings of one meaning; and, where a fault is asked for, illegal ones.

use super::docs::{self, Made};
use super::rng::Rng;
use crate::bytes::{push_number, size_of_number};
use crate::doc::Doc;
use crate::value::{Size, DECIMALS, FALSE, MAX_SHORT, NULL, SIZES, STRING, TRUE};
use std::collections::BTreeMap;

/// What one value may have wrong.
#[derive(Clone, Copy, Debug, PartialEq, Eq)]
pub enum Fault {
    FirstOffset,
    LastOffset,
    SharedChild,
    SwappedOffsets,
    Gap,
    Behind,
    Count,
    IdOutOfRange,
    NamesFall,
    NameTwice,
    UnusedBits,
    Scale,
    Type,
    Length,
    Cut,
}

/// All faults of values.
pub const FAULTS: [Fault; 15] = [
    Fault::FirstOffset,
    Fault::LastOffset,
    Fault::SharedChild,
    Fault::SwappedOffsets,
    Fault::Gap,
    Fault::Behind,
    Fault::Count,
    Fault::IdOutOfRange,
    Fault::NamesFall,
    Fault::NameTwice,
    Fault::UnusedBits,
    Fault::Scale,
    Fault::Type,
    Fault::Length,
    Fault::Cut,
];

/// A dictionary in any order, with any repeats, and the ids of each name.
pub struct Names {
    list: Vec<Vec<u8>>,
    ids: BTreeMap<Vec<u8>, Vec<usize>>,
}

impl Names {
    /// A dictionary of this list, as it stands.
    pub fn of(list: Vec<Vec<u8>>) -> Self {
        let mut ids: BTreeMap<Vec<u8>, Vec<usize>> = BTreeMap::new();
        for (id, name) in list.iter().enumerate() {
            ids.entry(name.clone()).or_default().push(id);
        }
        Names { list, ids }
    }

    /// A dictionary with at least these names: in order or not, with repeats and unused ones.
    pub fn odd(rng: &mut Rng, mut list: Vec<Vec<u8>>) -> Self {
        list.sort();
        list.dedup();
        if rng.percent(30) {
            (0..rng.below(4)).for_each(|_| list.push(docs::name(rng)));
        }
        if rng.percent(20) && !list.is_empty() {
            (0..rng.below(4)).for_each(|_| list.push(list[rng.below(list.len())].clone()));
        }
        list.sort();
        if rng.percent(60) {
            rng.shuffle(&mut list);
        }
        Names::of(list)
    }

    /// Its metadata: offsets of any size that fits, flag set or not where the names rise.
    pub fn metadata(&self, rng: &mut Rng) -> Vec<u8> {
        let total: usize = self.list.iter().map(Vec::len).sum();
        let size = width(rng, total.max(self.list.len()));
        let rising = self.list.windows(2).all(|pair| pair[0] < pair[1]);
        let flag = u8::from(rising && rng.percent(70)) << 4;
        let mut out = vec![0x01 | flag | (size as u8 - 1) << 6];
        push_number(&mut out, self.list.len(), size);
        let mut offset = 0;
        push_number(&mut out, offset, size);
        for name in &self.list {
            offset += name.len();
            push_number(&mut out, offset, size);
        }
        out.extend(self.list.concat());
        out
    }

    /// Whether a name is among them.
    pub fn has(&self, name: &[u8]) -> bool {
        self.ids.contains_key(name)
    }

    fn id(&self, rng: &mut Rng, name: &[u8]) -> usize {
        let ids = &self.ids[name];
        ids[rng.below(ids.len())]
    }
}

/// All names used in a document.
pub fn names_used(doc: &Made, names: &mut Vec<Vec<u8>>) {
    match doc {
        Doc::Array(items) => items.iter().for_each(|item| names_used(item, names)),
        Doc::Object(fields) => fields.iter().for_each(|(name, item)| {
            names.push(name.to_vec());
            names_used(item, names);
        }),
        _ => {}
    }
}

/// A size that holds a number, now and then larger than it need be.
fn width(rng: &mut Rng, number: usize) -> usize {
    let least = size_of_number(number);
    if rng.percent(15) {
        rng.between(least, 4)
    } else {
        least
    }
}

/// Writes values under a dictionary.
pub struct Encoder<'n> {
    names: &'n Names,
    /// Whether anything but the smallest sizes may be chosen.
    plain: bool,
    /// The fault still to be made, and how many values to pass first.
    fault: Option<(Fault, usize)>,
}

/// The parts of a container before they are put together.
struct Parts {
    header: u8,
    count: usize,
    count_size: usize,
    ids: Vec<usize>,
    id_size: usize,
    offsets: Vec<usize>,
    offset_size: usize,
    area: Vec<u8>,
}

impl<'n> Encoder<'n> {
    /// Smallest sizes, values in order.
    pub fn plain(names: &'n Names) -> Self {
        Encoder { names, plain: true, fault: None }
    }

    /// Any legal sizes and order.
    pub fn odd(names: &'n Names) -> Self {
        Encoder { names, plain: false, fault: None }
    }

    /// With one fault, if a value that can have it is met after so many others.
    pub fn with_fault(names: &'n Names, fault: Fault, after: usize) -> Self {
        Encoder { names, plain: false, fault: Some((fault, after)) }
    }

    /// Encodes a document.
    pub fn value(&mut self, rng: &mut Rng, doc: &Made) -> Vec<u8> {
        match doc {
            Doc::Null => self.primitive(rng, NULL, &[]),
            Doc::Bool(true) => self.primitive(rng, TRUE, &[]),
            Doc::Bool(false) => self.primitive(rng, FALSE, &[]),
            Doc::Payload(kind, payload) => self.primitive(rng, *kind, payload),
            Doc::Text(text) if text.len() <= MAX_SHORT && (self.plain || rng.percent(75)) => {
                let mut out = vec![0x01 | (text.len() as u8) << 2];
                out.extend_from_slice(text);
                self.spoil_bytes(rng, &mut out);
                out
            }
            Doc::Text(text) => self.primitive(rng, STRING, text),
            Doc::Array(items) => {
                let items: Vec<_> = items.iter().map(|item| self.value(rng, item)).collect();
                self.container(rng, None, items)
            }
            Doc::Object(fields) => {
                let items = fields.iter().map(|(_, item)| self.value(rng, item)).collect();
                let ids = fields.iter().map(|(name, _)| self.names.id(rng, name)).collect();
                self.container(rng, Some(ids), items)
            }
        }
    }

    fn primitive(&mut self, rng: &mut Rng, kind: u8, payload: &[u8]) -> Vec<u8> {
        let mut out = vec![kind << 2];
        if SIZES[usize::from(kind)] == Size::Prefixed {
            push_number(&mut out, payload.len(), 4);
        }
        out.extend_from_slice(payload);
        if DECIMALS.contains(&kind) && self.due(Fault::Scale) {
            out[1] = rng.pick(&[39, 40, 128, 255]);
        } else if SIZES[usize::from(kind)] == Size::Prefixed && self.due(Fault::Length) {
            out[1 + rng.below(4)] ^= 1;
        } else if self.due(Fault::Type) {
            out[0] = (rng.between(21, 63) as u8) << 2;
        }
        self.spoil_bytes(rng, &mut out);
        out
    }

    fn container(
        &mut self,
        rng: &mut Rng,
        ids: Option<Vec<usize>>,
        items: Vec<Vec<u8>>,
    ) -> Vec<u8> {
        let mut order: Vec<usize> = (0..items.len()).collect();
        if ids.is_some() && !self.plain && rng.percent(30) {
            rng.shuffle(&mut order);
        }
        let mut offsets = vec![0; items.len()];
        let mut area = Vec::new();
        for at in order {
            offsets[at] = area.len();
            area.extend_from_slice(&items[at]);
        }
        offsets.push(area.len());
        let mut parts = self.parts(rng, ids, offsets, area);
        self.spoil_parts(rng, &mut parts);
        let mut out = parts.join();
        self.spoil_bytes(rng, &mut out);
        out
    }

    fn parts(
        &self,
        rng: &mut Rng,
        ids: Option<Vec<usize>>,
        offsets: Vec<usize>,
        area: Vec<u8>,
    ) -> Parts {
        let mut size = |number: usize| match self.plain {
            true => size_of_number(number),
            false => width(rng, number),
        };
        let offset_size = size(area.len());
        let id_size = size(ids.iter().flatten().copied().max().unwrap_or(0));
        let count = offsets.len() - 1;
        let large = size(count) > 1;
        let header = match ids {
            None => 0x03 | (offset_size as u8 - 1) << 2 | u8::from(large) << 4,
            Some(_) => {
                let sizes = (offset_size as u8 - 1) << 2 | (id_size as u8 - 1) << 4;
                0x02 | sizes | u8::from(large) << 6
            }
        };
        let count_size = if large { 4 } else { 1 };
        let ids = ids.unwrap_or_default();
        Parts { header, count, count_size, ids, id_size, offsets, offset_size, area }
    }

    /// Whether this fault is to be made here.
    fn due(&mut self, fault: Fault) -> bool {
        match &mut self.fault {
            Some((wanted, after)) if *wanted == fault && *after == 0 => {
                self.fault = None;
                true
            }
            Some((wanted, after)) if *wanted == fault => {
                *after -= 1;
                false
            }
            _ => false,
        }
    }

    fn spoil_bytes(&mut self, rng: &mut Rng, out: &mut Vec<u8>) {
        if self.due(Fault::Behind) {
            out.push(rng.pick(&[0, 1, 0xFF]));
        } else if self.due(Fault::Cut) {
            out.pop();
        }
    }

    fn spoil_parts(&mut self, rng: &mut Rng, parts: &mut Parts) {
        let (ids, last) = (parts.ids.len(), parts.offsets.len() - 1);
        if self.due(Fault::UnusedBits) {
            let bits: &[u8] = if parts.header & 3 == 2 { &[0x80] } else { &[0x20, 0x40, 0x80] };
            parts.header |= rng.pick(bits);
        } else if self.due(Fault::Count) {
            parts.count = parts.count.wrapping_add_signed(rng.pick(&[-1, 1, 1]));
        } else if self.due(Fault::LastOffset) {
            let by = rng.pick(&[-1, 1]);
            parts.offsets[last] = parts.offsets[last].wrapping_add_signed(by);
        } else if self.due(Fault::FirstOffset) {
            parts.offsets[0] += 1;
        } else if last > 1 && self.due(Fault::SharedChild) {
            parts.offsets[1] = parts.offsets[0];
        } else if last > 1 && self.due(Fault::SwappedOffsets) {
            parts.offsets.swap(0, 1);
        } else if last > 0 && self.due(Fault::Gap) {
            parts.gap(rng.below(last));
        } else if ids > 0 && self.due(Fault::IdOutOfRange) {
            parts.ids[rng.below(ids)] = self.names.list.len();
        } else if ids > 1 && self.due(Fault::NamesFall) {
            parts.ids.swap(0, 1);
        } else if ids > 1 && self.due(Fault::NameTwice) {
            parts.ids[1] = parts.ids[0];
        }
    }
}

impl Parts {
    /// Puts a byte that is in no child before one of them.
    fn gap(&mut self, child: usize) {
        let at = self.offsets[child];
        self.area.insert(at, 0);
        let moved = self.offsets.iter_mut().filter(|offset| **offset >= at);
        moved.for_each(|offset| *offset += 1);
    }

    fn join(&self) -> Vec<u8> {
        let mut out = vec![self.header];
        push_number(&mut out, self.count, self.count_size);
        self.ids.iter().for_each(|&id| push_number(&mut out, id, self.id_size));
        self.offsets.iter().for_each(|&offset| push_number(&mut out, offset, self.offset_size));
        out.extend_from_slice(&self.area);
        out
    }
}

#[cfg(test)]
mod tests {
    use super::*;
    use crate::operations::check;

    #[test]
    fn every_fault_is_refused() {
        for fault in FAULTS {
            let mut rng = Rng::new(21);
            let refused = (0..300).filter(|_| {
                let doc = docs::tree(&mut rng, 20);
                let mut list = Vec::new();
                names_used(&doc, &mut list);
                let names = Names::odd(&mut rng, list);
                let value = Encoder::with_fault(&names, fault, 0).value(&mut rng, &doc);
                check(&names.metadata(&mut rng), &value).is_err()
            });
            let refused = refused.count();
            assert!(refused > 40, "{fault:?}: {refused}");
        }
    }

    #[test]
    fn without_a_fault_all_is_good() {
        let mut rng = Rng::new(22);
        for _ in 0..300 {
            let doc = docs::tree(&mut rng, 20);
            let mut list = Vec::new();
            names_used(&doc, &mut list);
            let names = Names::odd(&mut rng, list);
            let value = Encoder::odd(&names).value(&mut rng, &doc);
            assert_eq!(check(&names.metadata(&mut rng), &value), Ok(()));
        }
    }
}
