//! Every sample lot of the statement.

mod common;

use common::{hex, metadata_of, nested, number, string_of};
use second::doc::Doc;
use second::operations::{check, document, normalised, rebuilt, shredded};

fn checked(metadata: &str, value: &str) -> u8 {
    number(check(&hex(metadata), &hex(value)))
}

#[test]
fn metadata() {
    assert_eq!(checked("01 00 00", "00"), 0);
    assert_eq!(checked("01 00", "00"), 2);
    assert_eq!(checked("21 00 00", "00"), 2);
    assert_eq!(checked("01 02 00 01 02 62 61", "00"), 0);
    assert_eq!(checked("11 02 00 01 02 62 61", "00"), 2);
    assert_eq!(checked("01 02 00 01 02 61 61", "00"), 0);
}

#[test]
fn values() {
    let value = |value: &str| checked("01 00 00", value);
    assert_eq!(value("-"), 3);
    assert_eq!(value("00"), 0);
    assert_eq!(value("0D 6E 2F 61"), 0);
    assert_eq!(value("40 03 00 00 00 6E 2F 61"), 0);
    assert_eq!(value("13 6E 2F 61"), 3);
    assert_eq!(value("02 00 00"), 0);
    assert_eq!(value("02 00"), 3);
    assert_eq!(value("03 00 00"), 0);
    assert_eq!(value("54"), 3);
}

#[test]
fn meanings() {
    let (empty, short, long) =
        (hex("01 00 00"), hex("0D 6E 2F 61"), hex("40 03 00 00 00 6E 2F 61"));
    assert_eq!(document(&empty, &hex("00")).unwrap(), Doc::Null);
    assert_eq!(document(&empty, &short), document(&empty, &long));
    assert_eq!(document(&empty, &short).unwrap(), Doc::Text(b"n/a"[..].into()));
}

#[test]
fn strings_of_63_and_64_bytes() {
    let empty = hex("01 00 00");
    let short = normalised(&empty, &string_of(63 + 5)).unwrap().value;
    assert_eq!((short[0], short.len()), (0xFD, 64));
    let long = normalised(&empty, &string_of(64 + 5)).unwrap().value;
    assert_eq!(long[..5], hex("40 40 00 00 00"));
}

#[test]
fn levels() {
    let empty = hex("01 00 00");
    assert_eq!(number(check(&empty, &nested(15, &[0x00]))), 0);
    assert_eq!(number(check(&empty, &nested(16, &[0x00]))), 3);
    assert_eq!(number(check(&empty, &nested(15, &[0x03, 0, 0]))), 0);
}

#[test]
fn lengths() {
    assert_eq!(number(check(&hex("01 00 00"), &string_of(16_385))), 1);
    assert_eq!(number(check(&hex("01 00"), &string_of(16_385))), 1);
    assert_eq!(number(check(&hex("01 00 00"), &string_of(16_384))), 0);
    assert_eq!(number(check(&hex("01 00 00"), &vec![0x54; 16_384])), 3);
    assert_eq!(number(check(&metadata_of(16_384), &[0x00])), 0);
    assert_eq!(number(check(&metadata_of(16_385), &[0x00])), 1);
}

#[test]
fn names_b_and_a() {
    let ba = hex("01 02 00 01 02 62 61");
    let (first, second) = (hex("02 02 01 00 00 01 02 00 04"), hex("02 02 01 00 01 00 02 04 00"));
    let fields = vec![(b"a"[..].into(), Doc::Null), (b"b"[..].into(), Doc::Bool(true))];
    let meaning = Doc::Object(fields);
    assert_eq!(document(&ba, &first).unwrap(), meaning);
    assert_eq!(document(&ba, &second).unwrap(), meaning);
    assert_eq!(number(check(&ba, &hex("02 02 00 01 00 01 02 00 04"))), 3);
    for value in [first, second] {
        let made = normalised(&ba, &value).unwrap();
        assert_eq!(made.metadata, hex("11 02 00 01 02 61 62"));
        assert_eq!(made.value, hex("02 02 00 01 00 01 02 00 04"));
    }
}

#[test]
fn an_int64_column() {
    let (schema, empty) = (hex("10 01 00 06"), hex("01 00 00"));
    let row = hex("40 03 00 11 00 00 50 0B 00 42 08 00 22 00 00 00 00 00 00 00");
    let int64 = hex("18 22 00 00 00 00 00 00 00");
    assert_eq!(shredded(&schema, &empty, &int64).unwrap(), row);
    assert_eq!(rebuilt(&schema, &row).unwrap().value, int64);
    let int8 = shredded(&schema, &empty, &hex("0C 22")).unwrap();
    assert_eq!(int8, hex("40 03 00 11 00 00 50 05 00 41 02 00 0C 22"));
    let null = rebuilt(&schema, &hex("40 03 00 11 00 00 50 00 00")).unwrap();
    assert_eq!((null.metadata, null.value), (hex("11 00 00"), hex("00")));
}

#[test]
fn an_object_column() {
    let schema = hex("30 0B 00 31 08 00 32 01 00 61 10 01 00 01");
    let (ba, value) = (hex("01 02 00 01 02 62 61"), hex("02 02 01 00 00 01 02 00 04"));
    let row = hex("40 07 00 11 02 00 01 02 61 62 50 13 00 41 06 00 02 01 01 00 01 04 \
                   42 07 00 50 04 00 41 01 00 00");
    assert_eq!(shredded(&schema, &ba, &value).unwrap(), row);
    assert_eq!(rebuilt(&schema, &row), normalised(&ba, &value));
    let empty = shredded(&schema, &ba, &hex("02 00 00")).unwrap();
    assert_eq!(empty, hex("40 03 00 11 00 00 50 06 00 42 03 00 50 00 00"));
}
