//! "A lot's box": four doubles of the outermost object.

use crate::bytes::number;
use crate::metadata::Dictionary;
use crate::value::{open, Shape, DOUBLE};

/// A lot's box, each side as the bits of its double.
#[derive(Clone, Copy, Debug, PartialEq, Eq)]
pub struct LotBox {
    pub east: u64,
    pub north: u64,
    pub south: u64,
    pub west: u64,
}

/// The box of a good value, or none.
pub fn read_box(names: &Dictionary, value: &[u8]) -> Option<LotBox> {
    let Ok(Shape::Object(fields)) = open(names, value) else {
        return None;
    };
    let side = |name: &[u8]| {
        let at = fields.binary_search_by(|(other, _)| (*other).cmp(name)).ok()?;
        match open(names, &value[fields[at].1.clone()]) {
            Ok(Shape::Payload(DOUBLE, payload)) => Some(number(payload)),
            _ => None,
        }
    };
    let found = LotBox {
        east: side(b"east")?,
        north: side(b"north")?,
        south: side(b"south")?,
        west: side(b"west")?,
    };
    found.is_box().then_some(found)
}

impl LotBox {
    /// West ≤ east and south ≤ north; so a NaN is no box.
    fn is_box(&self) -> bool {
        f64::from_bits(self.west) <= f64::from_bits(self.east)
            && f64::from_bits(self.south) <= f64::from_bits(self.north)
    }
}

#[cfg(test)]
mod tests {
    use super::*;
    use crate::doc::Doc;
    use crate::normal::normal;

    fn double(number: f64) -> Doc<'static> {
        Doc::Payload(DOUBLE, number.to_le_bytes().to_vec().into())
    }

    fn lot(sides: [Doc<'static>; 4]) -> Doc<'static> {
        let names = [b"east".to_vec(), b"north".to_vec(), b"south".to_vec(), b"west".to_vec()];
        Doc::Object(names.into_iter().map(Into::into).zip(sides).collect())
    }

    fn found(doc: &Doc) -> Option<LotBox> {
        let made = normal(doc);
        read_box(&Dictionary::read(&made.metadata).unwrap(), &made.value)
    }

    fn doubles(east: f64, north: f64, south: f64, west: f64) -> Option<LotBox> {
        found(&lot([east, north, south, west].map(double)))
    }

    #[test]
    fn boxes() {
        let bits = f64::to_bits;
        let expected =
            LotBox { east: bits(2.0), north: bits(4.0), south: bits(3.0), west: bits(-1.0) };
        assert_eq!(doubles(2.0, 4.0, 3.0, -1.0), Some(expected));
        let zeros = doubles(-0.0, 0.0, -0.0, 0.0).unwrap();
        assert_eq!((zeros.east, zeros.west), (1 << 63, 0));
        assert!(doubles(f64::INFINITY, 1.0, 1.0, f64::NEG_INFINITY).is_some());
    }

    #[test]
    fn no_boxes() {
        assert_eq!(doubles(1.0, 4.0, 3.0, 2.0), None);
        assert_eq!(doubles(2.0, 3.0, 4.0, 1.0), None);
        for nan in 0..4 {
            let mut sides = [1.0; 4];
            sides[nan] = f64::NAN;
            let [east, north, south, west] = sides;
            assert_eq!(doubles(east, north, south, west), None);
        }
        let float = Doc::Payload(14, 1f32.to_le_bytes().to_vec().into());
        assert_eq!(found(&lot([double(1.0), float, double(1.0), double(1.0)])), None);
        assert_eq!(found(&Doc::Null), None);
        assert_eq!(found(&Doc::Array(vec![lot([1.0; 4].map(double))])), None);
        let Doc::Object(mut fields) = lot([1.0; 4].map(double)) else { unreachable!() };
        fields.remove(2);
        assert_eq!(found(&Doc::Object(fields)), None);
    }

    #[test]
    fn other_fields_are_ignored() {
        let Doc::Object(mut fields) = lot([1.0; 4].map(double)) else { unreachable!() };
        fields.insert(1, (b"eastern".to_vec().into(), Doc::Null));
        assert!(found(&Doc::Object(fields)).is_some());
    }
}
