//! Rows: what parses, the rules a to f, and what is legal to read.

mod common;

use common::{frame, hex, metadata_of, nested, string_of};
use second::normal::Normal;
use second::operations::{judge, rebuilt as made};
use second::refusal::{Refusal, Rule};

/// Names a, b, c.
const ABC: &str = "11 03 00 01 02 03 61 62 63";
const BOOL: &str = "10 01 00 01";
/// An object with the boolean column a.
const OBJECT: &str = "30 0B 00 31 08 00 32 01 00 61 10 01 00 01";
const LIST: &str = "20 04 00 10 01 00 01";

/// A row under the names a, b, c.
fn row(place: &str) -> Vec<u8> {
    [frame(0x40, &hex(ABC)), frame(0x50, &hex(place))].concat()
}

/// What a row is rebuilt to; the judge must refuse it alike.
fn rebuilt(schema: &[u8], row: &[u8]) -> Result<Normal, Refusal> {
    let answer = made(schema, row);
    assert_eq!(judge(schema, row), answer.as_ref().map(|_| ()).map_err(|refusal| *refusal));
    answer
}

fn answer(schema: &str, place: &str) -> Result<Normal, Refusal> {
    rebuilt(&hex(schema), &row(place))
}

fn rule(schema: &str, place: &str) -> Rule {
    match answer(schema, place) {
        Err(Refusal::Rule(rule)) => rule,
        other => panic!("{schema}, {place}: {other:?}"),
    }
}

fn value(schema: &str, place: &str) -> Vec<u8> {
    answer(schema, place).unwrap().value
}

fn unparsed(schema: &str, place: &str) -> bool {
    answer(schema, place) == Err(Refusal::Row)
}

#[test]
fn rule_a() {
    assert_eq!(rule(BOOL, "41 01 00 04 42 01 00 01"), Rule::A);
    assert_eq!(rule(LIST, "41 01 00 00 42 00 00"), Rule::A);
    assert_eq!(rule(LIST, "41 03 00 02 00 00 42 00 00"), Rule::A);
}

#[test]
fn rule_b() {
    assert_eq!(rule(OBJECT, "41 01 00 00 42 03 00 50 00 00"), Rule::B);
    assert_eq!(rule(OBJECT, "41 03 00 03 00 00 42 03 00 50 00 00"), Rule::B);
}

#[test]
fn rule_c() {
    let leftover = "41 06 00 02 01 00 00 01 04";
    assert_eq!(rule(OBJECT, &format!("{leftover} 42 07 00 50 04 00 42 01 00 01")), Rule::C);
    assert_eq!(rule(OBJECT, &format!("{leftover} 42 03 00 50 00 00")), Rule::C);
    let other = "41 06 00 02 01 01 00 01 04";
    let both = value(OBJECT, &format!("{other} 42 07 00 50 04 00 42 01 00 01"));
    assert_eq!(both, hex("02 02 00 01 00 01 02 04 04"));
}

#[test]
fn rule_d() {
    assert_eq!(rule(OBJECT, "41 03 00 02 00 00"), Rule::D);
    assert_eq!(rule(OBJECT, "41 06 00 02 01 01 00 01 04"), Rule::D);
    assert_eq!(rule(LIST, "41 03 00 03 00 00"), Rule::D);
    assert_eq!(value(OBJECT, "41 03 00 03 00 00"), hex("03 00 00"));
    assert_eq!(value(LIST, "41 03 00 02 00 00"), hex("02 00 00"));
    assert_eq!(value(BOOL, "41 03 00 02 00 00"), hex("02 00 00"));
    assert_eq!(value("00 00 00", "41 03 00 03 00 00"), hex("03 00 00"));
}

#[test]
fn rule_e() {
    assert_eq!(rule(LIST, "42 03 00 50 00 00"), Rule::E);
    assert_eq!(rule(LIST, "42 0A 00 50 04 00 42 01 00 01 50 00 00"), Rule::E);
    assert_eq!(value(LIST, "42 00 00"), hex("03 00 00"));
    assert_eq!(value(LIST, "42 07 00 50 04 00 42 01 00 01"), hex("03 01 00 01 04"));
}

#[test]
fn rule_f() {
    let schema = "30 0B 00 31 08 00 32 01 00 64 10 01 00 01";
    assert_eq!(rule(schema, "42 07 00 50 04 00 42 01 00 01"), Rule::F);
    assert_eq!(rule(schema, "42 07 00 50 04 00 41 01 00 00"), Rule::F);
    assert_eq!(value(schema, "42 03 00 50 00 00"), hex("02 00 00"), "an empty place asks nothing");
}

#[test]
fn a_6_wins_over_a_7() {
    let place = "42 0B 00 50 00 00 50 05 00 42 02 00 01 01";
    assert!(unparsed(LIST, place));
    assert_eq!(rule(LIST, "42 0A 00 50 00 00 50 04 00 42 01 00 01"), Rule::E);
    assert!(unparsed(BOOL, "41 01 00 54 42 01 00 01"));
}

#[test]
fn places_that_do_not_parse() {
    assert!(unparsed("00 00 00", "42 00 00"), "a 42 under 00");
    assert!(unparsed(BOOL, "42 01 00 02"), "no boolean");
    assert!(unparsed(BOOL, "42 00 00"), "no byte");
    assert!(unparsed("10 01 00 06", "42 07 00 00 00 00 00 00 00 00"), "seven bytes");
    assert!(unparsed(BOOL, "41 00 00"), "an empty leftover");
    assert!(unparsed(BOOL, "42 01 00 01 41 01 00 00"), "the wrong order");
    assert!(unparsed(BOOL, "41 01 00 00 41 01 00 00"), "two leftovers");
    assert!(unparsed(BOOL, "42 01 00 01 42 01 00 01"), "two typed");
    assert!(unparsed(BOOL, "43 00 00"), "no such tag");
    assert!(unparsed(BOOL, "42 02 00 01"), "a length past the end");
    assert!(unparsed(OBJECT, "42 00 00"), "no place for a field");
    assert!(unparsed(OBJECT, "42 06 00 50 00 00 50 00 00"), "two places for a field");
    assert!(unparsed(LIST, "42 04 00 42 01 00 01"), "no place in a list");
    assert!(unparsed(BOOL, "41 06 00 02 01 03 00 01 00"), "an id past the dictionary");
}

#[test]
fn rows_that_do_not_parse() {
    let broken = [
        "50 00 00",
        "40 03 00 01 00 00",
        "40 02 00 01 00 50 00 00",
        "40 03 00 01 00 00 50 00 00 00",
        "40 03 00 01 00 00 50 00 00 50 00 00",
        "40 03 00 01 00 00 51 00 00",
        "50 00 00 40 03 00 01 00 00",
    ];
    for row in broken {
        assert_eq!(rebuilt(&hex(BOOL), &hex(row)), Err(Refusal::Row), "{row}");
    }
}

#[test]
fn metadata_and_leftovers_have_their_lengths() {
    let of = |metadata: usize, leftover: usize| {
        let place = frame(0x41, &string_of(leftover));
        let row = [frame(0x40, &metadata_of(metadata)), frame(0x50, &place)].concat();
        rebuilt(&hex("00 00 00"), &row).map(|made| made.value.len())
    };
    assert_eq!(of(16_384, 16_384), Ok(16_384));
    assert_eq!(of(16_385, 16_384), Err(Refusal::Row));
    assert_eq!(of(16_384, 16_385), Err(Refusal::Row));
}

#[test]
fn leftovers_are_at_the_level_of_their_place() {
    let rebuilt_list = |leftover: &[u8]| {
        let place = frame(0x42, &frame(0x50, &frame(0x41, leftover)));
        let row = [frame(0x40, &hex(ABC)), frame(0x50, &place)].concat();
        rebuilt(&hex("20 03 00 00 00 00"), &row).map(|made| made.value)
    };
    assert_eq!(rebuilt_list(&nested(14, &[0x00])), Ok(nested(15, &[0x00])));
    assert_eq!(rebuilt_list(&nested(15, &[0x00])), Err(Refusal::Row));
    let in_a_field = |levels: usize| {
        let place = frame(0x42, &frame(0x50, &frame(0x41, &nested(levels, &[0x00]))));
        let row = [frame(0x40, &hex(ABC)), frame(0x50, &place)].concat();
        rebuilt(&hex(OBJECT), &row).is_ok()
    };
    assert!(in_a_field(14));
    assert!(!in_a_field(15));
    let beside = |levels: usize| {
        let inner = nested(levels, &[0x00]);
        let leftover = [&[0x02, 1, 1, 0, inner.len() as u8], &inner[..]].concat();
        let place = [frame(0x41, &leftover), hex("42 03 00 50 00 00")].concat();
        let row = [frame(0x40, &hex(ABC)), frame(0x50, &place)].concat();
        rebuilt(&hex(OBJECT), &row).is_ok()
    };
    assert!(beside(14));
    assert!(!beside(15));
}

#[test]
fn an_empty_outermost_place_is_null_under_every_node() {
    for schema in ["00 00 00", BOOL, OBJECT, LIST] {
        assert_eq!(value(schema, "-"), hex("00"));
    }
}

#[test]
fn legal_to_read_though_never_written() {
    assert_eq!(value(BOOL, "41 01 00 04"), hex("04"), "a leftover of the column's own type");
    let beside = "41 03 00 02 00 00 42 07 00 50 04 00 42 01 00 00";
    assert_eq!(value(OBJECT, beside), hex("02 01 00 00 01 08"), "an empty leftover object");
    let odd = [
        frame(0x40, &hex("01 03 00 01 02 03 63 61 61")),
        frame(0x50, &hex("41 06 00 02 01 00 00 01 04 42 07 00 50 04 00 41 01 00 00")),
    ];
    let made = rebuilt(&hex(OBJECT), &odd.concat()).unwrap();
    assert_eq!(made.metadata, hex("11 02 00 01 02 61 63"));
    assert_eq!(made.value, hex("02 02 00 01 00 01 02 00 04"));
}

#[test]
fn a_missing_field_is_no_null_field() {
    assert_eq!(value(OBJECT, "42 03 00 50 00 00"), hex("02 00 00"));
    assert_eq!(value(OBJECT, "42 07 00 50 04 00 41 01 00 00"), hex("02 01 00 00 01 00"));
}
