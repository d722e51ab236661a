//! The demands on rows and normal forms, over generated documents.

use second::doc::Doc;
use second::generate::docs::{changed, doc, Made};
use second::generate::schemas::{any, encoded, schema_for};
use second::generate::{good_variant, growing_variant, Rng, Variant};
use second::limits;
use second::normal::normal;
use second::operations::{document, normalised, rebuilt, shredded};

/// A document that is within the limits, and its normal form fits.
fn good_doc(rng: &mut Rng) -> Made {
    loop {
        let made = doc(rng);
        let Variant { metadata, value } = good_variant(rng, &made);
        if normalised(&metadata, &value).is_ok() {
            return made;
        }
    }
}

/// A good encoding within the limits; wider offsets may pass them.
fn encoding(rng: &mut Rng, doc: &Made) -> Variant {
    loop {
        let made = good_variant(rng, doc);
        if made.metadata.len() <= limits::METADATA && made.value.len() <= limits::VALUE {
            return made;
        }
    }
}

fn schema(rng: &mut Rng, doc: &Made) -> Vec<u8> {
    let node = if rng.percent(85) { schema_for(rng, doc) } else { any(rng, 1) };
    encoded(&node)
}

#[test]
fn odd_encodings_mean_their_document() {
    let mut rng = Rng::new(11);
    for _ in 0..1500 {
        let made = good_doc(&mut rng);
        let Variant { metadata, value } = encoding(&mut rng, &made);
        assert_eq!(document(&metadata, &value).unwrap(), made);
    }
}

#[test]
fn normal_form_is_one_for_a_meaning_and_stays() {
    let mut rng = Rng::new(12);
    for _ in 0..1500 {
        let made = good_doc(&mut rng);
        let one = encoding(&mut rng, &made);
        let other = encoding(&mut rng, &made);
        let normal = normalised(&one.metadata, &one.value).unwrap();
        assert_eq!(normalised(&other.metadata, &other.value).as_ref(), Ok(&normal));
        assert_eq!(normalised(&normal.metadata, &normal.value).as_ref(), Ok(&normal));
        assert_eq!(document(&normal.metadata, &normal.value).unwrap(), made);
    }
}

#[test]
fn rebuilding_a_shredded_row_gives_the_normal_form() {
    let mut rng = Rng::new(13);
    for _ in 0..1500 {
        let made = good_doc(&mut rng);
        let schema = schema(&mut rng, &made);
        let one = encoding(&mut rng, &made);
        let other = encoding(&mut rng, &made);
        let normal = normalised(&one.metadata, &one.value).unwrap();
        let row = shredded(&schema, &one.metadata, &one.value).unwrap();
        assert_eq!(rebuilt(&schema, &row).as_ref(), Ok(&normal));
        assert_eq!(shredded(&schema, &normal.metadata, &normal.value).as_ref(), Ok(&row));
        assert_eq!(shredded(&schema, &other.metadata, &other.value).as_ref(), Ok(&row));
    }
}

#[test]
fn rows_are_equal_only_for_equal_meanings() {
    let mut rng = Rng::new(14);
    let mut differing = 0;
    for _ in 0..1500 {
        let made = good_doc(&mut rng);
        let other = changed(&mut rng, &made);
        if normal(&other).value.len() > limits::VALUE {
            continue;
        }
        let schema = schema(&mut rng, &made);
        let row_of = |rng: &mut Rng, doc: &Made| {
            let Variant { metadata, value } = encoding(rng, doc);
            shredded(&schema, &metadata, &value).unwrap()
        };
        let rows = [row_of(&mut rng, &made), row_of(&mut rng, &other)];
        assert_eq!(rows[0] == rows[1], made == other);
        differing += usize::from(made != other);
    }
    assert!(differing > 1000, "the test must compare different documents");
}

#[test]
fn a_missing_field_and_a_null_field_give_different_rows() {
    let schema = [0x30, 10, 0, 0x31, 7, 0, 0x32, 1, 0, b'a', 0x00, 0, 0];
    let mut rng = Rng::new(15);
    let missing = encoding(&mut rng, &Doc::Object(vec![]));
    let null = encoding(&mut rng, &Doc::Object(vec![(b"a"[..].into(), Doc::Null)]));
    let rows = [missing, null].map(|made| shredded(&schema, &made.metadata, &made.value).unwrap());
    assert_ne!(rows[0], rows[1]);
}

#[test]
fn sorted_ids_may_need_more_bytes_than_the_inputs_did() {
    let mut rng = Rng::new(16);
    let (mut longer, mut refused) = (0, 0);
    for _ in 0..40 {
        let Variant { metadata, value } = growing_variant(&mut rng);
        match normalised(&metadata, &value) {
            Ok(made) => longer += usize::from(made.value.len() > value.len()),
            Err(refusal) => refused += usize::from(refusal.number() == 8),
        }
    }
    assert!(longer > 0 && refused > 0, "{longer} longer, {refused} refused");
}
