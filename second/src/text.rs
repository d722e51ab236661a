//! A small text form of what a document means, one line, for people to read and compare.

use crate::bytes::{number, plain_hex};
use crate::cell::signed;
use crate::doc::Doc;
use crate::value::{BINARY, DECIMALS, DOUBLE, FLOAT, UUID};

/// The names of the primitive types in the text form.
const TYPES: [&str; 21] = [
    "null",
    "true",
    "false",
    "int8",
    "int16",
    "int32",
    "int64",
    "double",
    "decimal4",
    "decimal8",
    "decimal16",
    "date",
    "timestamp",
    "timestampntz",
    "float",
    "binary",
    "string",
    "time",
    "timestamp_nanos",
    "timestampntz_nanos",
    "uuid",
];

/// The text form of a document.
pub fn text(doc: &Doc) -> String {
    let mut out = String::new();
    write(doc, &mut out);
    out
}

fn write(doc: &Doc, out: &mut String) {
    match doc {
        Doc::Null => out.push_str("null"),
        Doc::Bool(truth) => out.push_str(if *truth { "true" } else { "false" }),
        Doc::Payload(kind, payload) => {
            out.push_str(TYPES[usize::from(*kind)]);
            out.push(' ');
            out.push_str(&payload_text(*kind, payload));
        }
        Doc::Text(text) => out.push_str(&quoted(text)),
        Doc::Array(items) => list(out, ['[', ']'], items, write),
        Doc::Object(fields) => list(out, ['{', '}'], fields, |(name, item), out| {
            out.push_str(&quoted(name));
            out.push_str(": ");
            write(item, out);
        }),
    }
}

fn list<T>(out: &mut String, ends: [char; 2], items: &[T], write: impl Fn(&T, &mut String)) {
    out.push(ends[0]);
    for (at, item) in items.iter().enumerate() {
        if at > 0 {
            out.push_str(", ");
        }
        write(item, out);
    }
    out.push(ends[1]);
}

/// Floats and doubles are their bits; a decimal is its scale and its unscaled number.
fn payload_text(kind: u8, payload: &[u8]) -> String {
    match kind {
        DOUBLE => format!("0x{:016x}", number(payload)),
        FLOAT => format!("0x{:08x}", number(payload)),
        BINARY => format!("0x{}", plain_hex(payload)),
        UUID => uuid(payload),
        kind if DECIMALS.contains(&kind) => {
            format!("scale {} unscaled {}", payload[0], unscaled(&payload[1..]))
        }
        _ => signed(payload).to_string(),
    }
}

/// A signed number of up to sixteen little-endian bytes.
fn unscaled(bytes: &[u8]) -> i128 {
    let unused = 128 - 8 * bytes.len() as u32;
    let raw = bytes.iter().rev().fold(0u128, |n, &byte| n << 8 | u128::from(byte));
    (raw << unused) as i128 >> unused
}

fn uuid(payload: &[u8]) -> String {
    let hex = plain_hex(payload);
    [&hex[..8], &hex[8..12], &hex[12..16], &hex[16..20], &hex[20..]].join("-")
}

/// UTF-8 without control characters in quotes, `"` and `\` escaped; other bytes as hex.
fn quoted(bytes: &[u8]) -> String {
    match std::str::from_utf8(bytes) {
        Ok(text) if !text.chars().any(char::is_control) => {
            format!("\"{}\"", text.replace('\\', "\\\\").replace('"', "\\\""))
        }
        _ => format!("string 0x{}", plain_hex(bytes)),
    }
}

#[cfg(test)]
mod tests {
    use super::*;

    fn payload(kind: u8, payload: &[u8]) -> String {
        text(&Doc::Payload(kind, payload.into()))
    }

    #[test]
    fn scalars() {
        assert_eq!(text(&Doc::Null), "null");
        assert_eq!(text(&Doc::Bool(false)), "false");
        assert_eq!(payload(3, &[0xFF]), "int8 -1");
        assert_eq!(payload(7, &1f64.to_le_bytes()), "double 0x3ff0000000000000");
        assert_eq!(payload(14, &(-0f32).to_le_bytes()), "float 0x80000000");
        assert_eq!(payload(8, &[2, 0xFE, 0xFF, 0xFF, 0xFF]), "decimal4 scale 2 unscaled -2");
        let wide = [&[38][..], &i128::MIN.to_le_bytes()].concat();
        let least = format!("decimal16 scale 38 unscaled {}", i128::MIN);
        assert_eq!(payload(10, &wide), least);
        assert_eq!(payload(15, &[]), "binary 0x");
        let uuid: Vec<u8> = (0..16).collect();
        assert_eq!(payload(20, &uuid), "uuid 00010203-0405-0607-0809-0a0b0c0d0e0f");
    }

    #[test]
    fn strings() {
        let quoted = |bytes: &[u8]| text(&Doc::Text(bytes.into()));
        assert_eq!(quoted(b"n/a"), "\"n/a\"");
        assert_eq!(quoted(b"a\"\\"), "\"a\\\"\\\\\"");
        assert_eq!(quoted("é".as_bytes()), "\"é\"");
        assert_eq!(quoted(b"\xff"), "string 0xff");
        assert_eq!(quoted(b"a\n"), "string 0x610a");
    }

    #[test]
    fn containers() {
        let array = Doc::Array(vec![Doc::Null, Doc::Array(vec![])]);
        let fields = vec![(b"a"[..].into(), array), (b"b"[..].into(), Doc::Object(vec![]))];
        assert_eq!(text(&Doc::Object(fields)), "{\"a\": [null, []], \"b\": {}}");
    }
}
