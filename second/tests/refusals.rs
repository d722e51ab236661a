//! Every refusal number of every operation, their order, and what buffers hold afterwards.

mod common;

use common::{frame, hex, metadata_of, nested, number, over_two, string_of};
use second::operations::Span;
use second::operations::{
    cell, check, find, judge, lot_box, normalise, rebuild, rebuilt, shred, shredded,
};
use second::refusal::Refusal;

const EMPTY: &[u8] = &[0x01, 0x00, 0x00];
const ANY: &[u8] = &[0x00, 0x00, 0x00];
const NULL: &[u8] = &[0x00];
const TEXT_COLUMN: &[u8] = &[0x10, 1, 0, 16];

/// A schema of exactly this many bytes, one long name.
fn schema_of(length: usize) -> Vec<u8> {
    frame(0x30, &frame(0x31, &[frame(0x32, &vec![b's'; length - 12]), ANY.to_vec()].concat()))
}

/// A row of these place bytes under empty metadata.
fn row_of(place: &[u8]) -> Vec<u8> {
    [frame(0x40, EMPTY), frame(0x50, place)].concat()
}

/// A document that grows past the limit when normalised: one name is used again and again under
/// a small id, and gets a large one.
fn growing() -> (Vec<u8>, Vec<u8>) {
    let names: Vec<Vec<u8>> = (0..257u16).map(|i| i.to_be_bytes().to_vec()).collect();
    let list = [vec![b"zz".to_vec()], names].concat();
    let mut metadata = vec![0x41];
    metadata.extend((list.len() as u16).to_le_bytes());
    (0..=list.len() as u16).for_each(|i| metadata.extend((2 * i).to_le_bytes()));
    metadata.extend(list.concat());
    let mut wide = vec![0x56];
    wide.extend(257u32.to_le_bytes());
    (1..=257u16).for_each(|id| wide.extend(id.to_le_bytes()));
    (0..=257u16).for_each(|offset| wide.extend(offset.to_le_bytes()));
    wide.extend([0; 257]);
    let mut items = vec![wide];
    items.resize(1800, hex("02 01 00 00 01 00"));
    let mut value = vec![0x17];
    value.extend((items.len() as u32).to_le_bytes());
    let mut offset = 0u16;
    value.extend(offset.to_le_bytes());
    for item in &items {
        offset += item.len() as u16;
        value.extend(offset.to_le_bytes());
    }
    value.extend(items.concat());
    assert!(value.len() <= 16_384);
    (metadata, value)
}

fn normalise_number(metadata: &[u8], value: &[u8], rooms: [usize; 2]) -> u8 {
    number(over_two(rooms, |md, out| normalise(metadata, value, md, out)).0)
}

fn shred_number(schema: &[u8], metadata: &[u8], value: &[u8], room: usize) -> u8 {
    number(shred(schema, metadata, value, &mut vec![0; room]))
}

fn rebuild_number(schema: &[u8], row: &[u8], rooms: [usize; 2]) -> u8 {
    number(over_two(rooms, |md, out| rebuild(schema, row, md, out)).0)
}

#[test]
fn check_refuses() {
    assert_eq!(number(check(EMPTY, NULL)), 0);
    assert_eq!(number(check(&[], &string_of(16_385))), 1);
    assert_eq!(number(check(&metadata_of(16_385), &[])), 1);
    assert_eq!(number(check(&[], &[])), 2);
    assert_eq!(number(check(EMPTY, &[])), 3);
}

#[test]
fn find_refuses() {
    let long = |length: usize| frame(0x60, &vec![b'p'; length - 3]);
    assert_eq!(number(find(EMPTY, NULL, &long(1_024))), 0);
    assert_eq!(number(find(&[], &[], &long(1_025))), 1);
    assert_eq!(number(find(EMPTY, &string_of(16_385), &[0x62])), 1);
    assert_eq!(number(find(&[], &[], &[0x62])), 2);
    assert_eq!(number(find(EMPTY, &[], &[0x62])), 3);
    assert_eq!(number(find(EMPTY, NULL, &[0x62])), 5);
    assert_eq!(number(find(EMPTY, NULL, &hex("61 01 00 00"))), 5);
}

#[test]
fn find_answers() {
    let ba = hex("01 02 00 01 02 62 61");
    let value = hex("02 02 01 00 05 00 06 03 01 00 01 04 00");
    let found = |path: &str| find(&ba, &value, &hex(path)).unwrap();
    let span = |start, length| Some(Span { start, length });
    assert_eq!(found("-"), span(0, 13));
    assert_eq!(found("60 01 00 61"), span(12, 1));
    assert_eq!(found("60 01 00 62"), span(7, 5));
    assert_eq!(found("60 01 00 62 61 02 00 00 00"), span(11, 1));
    assert_eq!(found("60 01 00 62 61 02 00 01 00"), None, "past the end");
    assert_eq!(found("60 01 00 63"), None, "no such name");
    assert_eq!(found("61 02 00 00 00"), None, "an index into an object");
    assert_eq!(found("60 01 00 62 60 01 00 61"), None, "a name in an array");
    assert_eq!(found("60 01 00 61 60 00 00"), None, "a name in a null");
    assert_eq!(found(&"60 00 00".repeat(40)), None, "more steps than levels");
}

#[test]
fn normalise_refuses() {
    let (metadata, value) = growing();
    assert_eq!(normalise_number(EMPTY, NULL, [3, 1]), 0);
    assert_eq!(normalise_number(&[], &string_of(16_385), [0, 0]), 1);
    assert_eq!(normalise_number(&[], NULL, [0, 0]), 2);
    assert_eq!(normalise_number(EMPTY, &[0x54], [0, 0]), 3);
    assert_eq!(normalise_number(&metadata, &value, [0, 0]), 8);
    for rooms in [[2, 1], [3, 0], [0, 0]] {
        assert_eq!(normalise_number(EMPTY, NULL, rooms), 9);
    }
}

#[test]
fn shred_refuses() {
    let (metadata, value) = growing();
    assert_eq!(shred_number(ANY, EMPTY, NULL, 13), 0);
    assert_eq!(shred_number(&schema_of(4_096), EMPTY, NULL, 13), 0);
    assert_eq!(shred_number(&schema_of(4_097), &[], NULL, 0), 1);
    assert_eq!(shred_number(&[], &[], NULL, 0), 2);
    assert_eq!(shred_number(&[], EMPTY, &[], 0), 3);
    assert_eq!(shred_number(&[], EMPTY, NULL, 0), 4);
    assert_eq!(shred_number(&[], &metadata, &value, 0), 4);
    assert_eq!(shred_number(ANY, &metadata, &value, 0), 8);
    assert_eq!(shred_number(ANY, EMPTY, NULL, 12), 9);
}

#[test]
fn a_row_is_at_most_65535_bytes() {
    // A list of empty objects, ten fields each: a place of 36 bytes for each of them; and a string.
    let field = |i: u8| frame(0x31, &[frame(0x32, &[i]), ANY.to_vec()].concat());
    let schema = frame(0x20, &frame(0x30, &(0..10).flat_map(field).collect::<Vec<u8>>()));
    let array = |objects: usize, string: usize| {
        let mut value = vec![0x17];
        value.extend((objects as u32 + 1).to_le_bytes());
        (0..=objects).for_each(|i| value.extend((3 * i as u16).to_le_bytes()));
        value.extend((3 * objects as u16 + 1 + string as u16).to_le_bytes());
        value.extend(hex("02 00 00").repeat(objects));
        value.push(0x01 | (string as u8) << 2);
        value.extend(vec![b's'; string]);
        value
    };
    let row = shredded(&schema, EMPTY, &array(1_819, 32)).unwrap();
    assert_eq!(row.len(), 65_535);
    assert_eq!(rebuilt(&schema, &row).unwrap().value, array(1_819, 32));
    assert_eq!(shredded(&schema, EMPTY, &array(1_819, 33)), Err(Refusal::TooLarge));
    assert_eq!(shredded(&schema, EMPTY, &array(3_000, 0)), Err(Refusal::TooLarge));
}

#[test]
fn rebuild_refuses() {
    let null = row_of(&frame(0x41, NULL));
    let text = |length: usize| row_of(&frame(0x42, &vec![b't'; length]));
    assert_eq!(rebuild_number(ANY, &null, [3, 1]), 0);
    assert_eq!(rebuild_number(&schema_of(4_097), &[], [0, 0]), 1);
    assert_eq!(rebuild_number(&[], &vec![0; 65_536], [0, 0]), 1);
    assert_eq!(rebuild_number(&[], &[], [0, 0]), 4);
    assert_eq!(rebuild_number(ANY, &[], [0, 0]), 6);
    assert_eq!(rebuild_number(ANY, &vec![0; 65_535], [0, 0]), 6);
    let both = row_of(&[frame(0x41, NULL), frame(0x42, b"")].concat());
    assert_eq!(rebuild_number(TEXT_COLUMN, &both, [0, 0]), 7);
    assert_eq!(rebuild_number(TEXT_COLUMN, &text(16_379), [3, 16_384]), 0);
    assert_eq!(rebuild_number(TEXT_COLUMN, &text(16_380), [0, 0]), 8);
    assert_eq!(rebuild_number(TEXT_COLUMN, &text(65_523), [0, 0]), 8, "a row of 65,535");
    assert_eq!(rebuild_number(ANY, &null, [3, 0]), 9);
    assert_eq!(rebuild_number(ANY, &null, [2, 1]), 9);
}

#[test]
fn the_judge_refuses() {
    let judged = |schema: &[u8], row: &[u8]| number(judge(schema, row));
    let null = row_of(&frame(0x41, NULL));
    let text = |length: usize| row_of(&frame(0x42, &vec![b't'; length]));
    assert_eq!(judged(ANY, &null), 0);
    assert_eq!(judged(&schema_of(4_096), &null), 0);
    assert_eq!(judged(&schema_of(4_097), &null), 1);
    assert_eq!(judged(&schema_of(4_097), &[]), 1);
    assert_eq!(judged(&[], &vec![0; 65_536]), 1);
    assert_eq!(judged(&[], &[]), 4);
    assert_eq!(judged(ANY, &[]), 6);
    assert_eq!(judged(ANY, &vec![0; 65_535]), 6);
    let both = row_of(&[frame(0x41, NULL), frame(0x42, b"")].concat());
    assert_eq!(judged(TEXT_COLUMN, &both), 7);
    assert_eq!(judged(TEXT_COLUMN, &text(65_523)), 0, "no 8: a row of 65,535");
}

#[test]
fn the_cell_reader_refuses() {
    assert_eq!(number(cell(16, &vec![0; 16_384])), 0);
    assert_eq!(number(cell(16, &vec![0; 16_385])), 1);
    assert_eq!(number(cell(0, &vec![0; 16_385])), 1);
    let refused: Vec<u8> = (0..=255).filter(|&code| number(cell(code, &[])) == 4).collect();
    let expected: Vec<u8> = [0, 2, 8, 9, 10].into_iter().chain(21..=255).collect();
    assert_eq!(refused, expected);
    assert_eq!(number(cell(6, &[0; 7])), 6);
    assert_eq!(number(cell(1, &[2])), 6);
}

#[test]
fn the_box_reader_refuses() {
    assert_eq!(lot_box(EMPTY, NULL), Ok(None));
    assert_eq!(number(lot_box(&[], &string_of(16_385))), 1);
    assert_eq!(number(lot_box(&[], &[])), 2);
    assert_eq!(number(lot_box(EMPTY, &nested(16, NULL))), 3);
}

#[test]
fn done_answers_leave_the_rest_of_a_buffer() {
    let (answer, metadata, value) = over_two([5, 3], |md, out| normalise(EMPTY, NULL, md, out));
    assert_eq!(answer, Ok([3, 1]));
    assert_eq!((metadata, value), (hex("11 00 00 EE EE"), hex("00 EE EE")));
    let row = row_of(&frame(0x41, NULL));
    let (answer, metadata, value) = over_two([4, 2], |md, out| rebuild(ANY, &row, md, out));
    assert_eq!(answer, Ok([3, 1]));
    assert_eq!((metadata, value), (hex("11 00 00 EE"), hex("00 EE")));
    let mut out = vec![0xEE; 15];
    assert_eq!(shred(ANY, EMPTY, NULL, &mut out), Ok(13));
    assert_eq!(out, hex("40 03 00 11 00 00 50 04 00 41 01 00 00 EE EE"));
}

#[test]
fn refusals_change_no_buffer() {
    for rooms in [[9, 0], [2, 9]] {
        let (answer, metadata, value) = over_two(rooms, |md, out| normalise(EMPTY, NULL, md, out));
        assert_eq!(answer, Err(Refusal::Room([3, 1])));
        assert!(metadata.iter().chain(&value).all(|&byte| byte == 0xEE));
    }
    let row = row_of(&[]);
    let (answer, metadata, _) = over_two([3, 0], |md, out| rebuild(ANY, &row, md, out));
    assert_eq!((answer, metadata), (Err(Refusal::Room([3, 1])), vec![0xEE; 3]));
    let mut out = vec![0xEE; 12];
    assert_eq!(shred(ANY, EMPTY, NULL, &mut out), Err(Refusal::Room([13, 0])));
    assert_eq!(shred(ANY, EMPTY, &[0x54], &mut out), Err(Refusal::Value));
    assert_eq!(out, vec![0xEE; 12]);
}
