//! "Metadata": the header, the count, count + 1 offsets, the names.

use crate::bytes::Reader;
use crate::refusal::Broken;

const VERSION: u8 = 1;
const VERSION_BITS: u8 = 0x0F;
const SORTED_BIT: u8 = 0x10;
const UNUSED_BIT: u8 = 0x20;

/// The names of good metadata, each at its id.
#[derive(Clone, Debug, PartialEq, Eq)]
pub struct Dictionary<'a> {
    names: Vec<&'a [u8]>,
}

impl<'a> Dictionary<'a> {
    /// Reads metadata, or says that it breaks its rules.
    pub fn read(metadata: &'a [u8]) -> Result<Self, Broken> {
        let mut reader = Reader::new(metadata);
        let header = reader.take(1)?[0];
        if header & VERSION_BITS != VERSION || header & UNUSED_BIT != 0 {
            return Err(Broken);
        }
        let size = usize::from(header >> 6) + 1;
        let count = reader.number(size)?;
        let offsets = reader.numbers(count + 1, size)?;
        let names = split_names(offsets.iter(), reader.rest())?;
        if header & SORTED_BIT != 0 && !rises_strictly(&names) {
            return Err(Broken);
        }
        Ok(Dictionary { names })
    }

    /// The name with this id.
    pub fn name(&self, id: usize) -> Option<&'a [u8]> {
        self.names.get(id).copied()
    }

    /// All names in the order of their ids.
    pub fn names(&self) -> &[&'a [u8]] {
        &self.names
    }
}

/// Cuts the names at the offsets: the first is 0, none falls, the last ends the metadata.
fn split_names(
    mut offsets: impl Iterator<Item = usize>,
    area: &[u8],
) -> Result<Vec<&[u8]>, Broken> {
    let mut start = offsets.next().ok_or(Broken)?;
    if start != 0 {
        return Err(Broken);
    }
    let mut names = Vec::with_capacity(offsets.size_hint().0);
    for end in offsets {
        names.push(area.get(start..end).ok_or(Broken)?);
        start = end;
    }
    if start == area.len() {
        Ok(names)
    } else {
        Err(Broken)
    }
}

/// Whether each name is above the one before it, by unsigned bytes.
pub fn rises_strictly(names: &[&[u8]]) -> bool {
    names.windows(2).all(|pair| pair[0] < pair[1])
}

#[cfg(test)]
mod tests {
    use super::*;

    fn good(metadata: &[u8]) -> bool {
        Dictionary::read(metadata).is_ok()
    }

    #[test]
    fn the_sample_lots() {
        assert!(good(&[0x01, 0x00, 0x00]));
        assert!(!good(&[0x01, 0x00]));
        assert!(!good(&[0x21, 0x00, 0x00]));
        assert!(good(&[0x01, 0x02, 0x00, 0x01, 0x02, 0x62, 0x61]));
        assert!(!good(&[0x11, 0x02, 0x00, 0x01, 0x02, 0x62, 0x61]));
        assert!(good(&[0x01, 0x02, 0x00, 0x01, 0x02, 0x61, 0x61]));
        assert!(!good(&[]));
    }

    #[test]
    fn versions_and_flags() {
        assert!(!good(&[0x00, 0x00, 0x00]));
        assert!(!good(&[0x02, 0x00, 0x00]));
        assert!(good(&[0x11, 0x00, 0x00]));
        assert!(!good(&[0x11, 0x02, 0x00, 0x01, 0x02, 0x61, 0x61]));
        assert!(good(&[0x11, 0x02, 0x00, 0x01, 0x02, 0x61, 0xFF]));
    }

    #[test]
    fn offsets() {
        assert!(!good(&[0x01, 0x01, 0x01, 0x01, 0x61]), "the first is not 0");
        assert!(!good(&[0x01, 0x02, 0x00, 0x02, 0x01, 0x61, 0x61]), "one falls");
        assert!(!good(&[0x01, 0x01, 0x00, 0x02, 0x61]), "the last is past the end");
        assert!(!good(&[0x01, 0x01, 0x00, 0x00, 0x61]), "a byte is left");
        assert!(good(&[0x01, 0x01, 0x00, 0x00]), "an empty name");
        assert!(!good(&[0xC1, 0xFF, 0xFF, 0xFF, 0xFF, 0, 0, 0, 0]), "a huge count");
    }

    #[test]
    fn every_offset_size() {
        for size in 1..=4u8 {
            let mut metadata = vec![0x01 | (size - 1) << 6];
            for number in [1u8, 0, 1] {
                metadata.push(number);
                metadata.extend(std::iter::repeat_n(0, usize::from(size) - 1));
            }
            metadata.push(0x61);
            assert_eq!(Dictionary::read(&metadata).unwrap().names(), [b"a"]);
        }
    }
}
