//! "A cell": one typed payload, judged and handed out by kind.

use crate::bytes::number;
use crate::doc::{Bytes, Doc};
use crate::refusal::Broken;
use crate::value::{Size, BINARY, DOUBLE, FLOAT, SIZES, STRING, TRUE, UUID};

/// What a cell holds. Floats and doubles are handed out as their bits.
#[derive(Clone, Copy, Debug, PartialEq, Eq)]
pub enum Cell {
    Bool(bool),
    /// Integers, dates and times as their signed number.
    Int(i64),
    Float(u32),
    Double(u64),
    /// The length of a string or of binary.
    Len(usize),
    /// Two little-endian numbers, first eight bytes first.
    Uuid(u64, u64),
}

/// Reads a cell of a column type; the code must be one.
pub fn read_cell(code: u8, bytes: &[u8]) -> Result<Cell, Broken> {
    judge(code, bytes)?;
    Ok(match code {
        TRUE => Cell::Bool(bytes[0] == 1),
        FLOAT => Cell::Float(number(bytes) as u32),
        DOUBLE => Cell::Double(number(bytes)),
        BINARY | STRING => Cell::Len(bytes.len()),
        UUID => Cell::Uuid(number(&bytes[..8]), number(&bytes[8..])),
        _ => Cell::Int(signed(bytes)),
    })
}

/// The meaning of a cell of a column type; the code must be one.
pub fn meaning(code: u8, bytes: &[u8]) -> Result<Doc<'_>, Broken> {
    judge(code, bytes)?;
    Ok(match code {
        TRUE => Doc::Bool(bytes[0] == 1),
        STRING => Doc::Text(bytes.into()),
        _ => Doc::Payload(code, bytes.into()),
    })
}

/// The cell that holds a document in a column of this type; none where the type is another.
pub fn cell_of<'d>(code: u8, doc: &'d Doc) -> Option<Bytes<'d>> {
    match doc {
        Doc::Bool(truth) if code == TRUE => Some(vec![u8::from(*truth)].into()),
        Doc::Text(text) if code == STRING => Some(text.as_ref().into()),
        Doc::Payload(kind, payload) if code == *kind => Some(payload.as_ref().into()),
        _ => None,
    }
}

/// String and binary have any length, a boolean is `00` or `01`, the others have their size.
pub fn judge(code: u8, bytes: &[u8]) -> Result<(), Broken> {
    let good = match SIZES[usize::from(code)] {
        _ if code == TRUE => matches!(bytes, [0 | 1]),
        Size::Fixed(size) => bytes.len() == size,
        Size::Prefixed => true,
    };
    if good {
        Ok(())
    } else {
        Err(Broken)
    }
}

/// The signed number of one to eight little-endian bytes.
pub fn signed(bytes: &[u8]) -> i64 {
    let unused = 64 - 8 * bytes.len() as u32;
    (number(bytes) << unused) as i64 >> unused
}

#[cfg(test)]
mod tests {
    use super::*;

    #[test]
    fn every_kind() {
        assert_eq!(read_cell(1, &[0]), Ok(Cell::Bool(false)));
        assert_eq!(read_cell(1, &[1]), Ok(Cell::Bool(true)));
        assert_eq!(read_cell(3, &[0x80]), Ok(Cell::Int(-128)));
        assert_eq!(read_cell(4, &[0x22, 0x01]), Ok(Cell::Int(0x122)));
        assert_eq!(read_cell(5, &[0xFF; 4]), Ok(Cell::Int(-1)));
        assert_eq!(read_cell(11, &[0, 0, 0, 0x80]), Ok(Cell::Int(i64::from(i32::MIN))));
        for code in [6, 12, 13, 17, 18, 19] {
            assert_eq!(read_cell(code, &i64::MIN.to_le_bytes()), Ok(Cell::Int(i64::MIN)));
        }
        assert_eq!(read_cell(14, &[1, 0, 0xA0, 0x7F]), Ok(Cell::Float(0x7FA0_0001)));
        assert_eq!(read_cell(7, &(-0f64).to_le_bytes()), Ok(Cell::Double(1 << 63)));
        assert_eq!(read_cell(15, &[]), Ok(Cell::Len(0)));
        assert_eq!(read_cell(16, &[0xFF; 70]), Ok(Cell::Len(70)));
        let uuid: Vec<u8> = (0..16).collect();
        let halves = Cell::Uuid(0x0706_0504_0302_0100, 0x0F0E_0D0C_0B0A_0908);
        assert_eq!(read_cell(20, &uuid), Ok(halves));
    }

    #[test]
    fn wrong_sizes_and_content() {
        assert_eq!(read_cell(1, &[2]), Err(Broken));
        assert_eq!(read_cell(1, &[]), Err(Broken));
        assert_eq!(read_cell(1, &[0, 0]), Err(Broken));
        let sizes = [(3, 1), (4, 2), (5, 4), (6, 8), (7, 8), (11, 4), (14, 4), (20, 16)];
        for (code, size) in sizes {
            assert_eq!(read_cell(code, &vec![0; size - 1]), Err(Broken));
            assert_eq!(read_cell(code, &vec![0; size + 1]), Err(Broken));
        }
    }
}
