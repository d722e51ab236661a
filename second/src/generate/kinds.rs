//! Rows of every kind, each with its schema: lawful, unlawful, unparsed, harmed, at a limit and past it.

use super::damage::damage;
use super::docs;
use super::large;
use super::pieces::{harm, HARMS};
use super::places::{self, left, typed};
use super::rng::Rng;
use super::rows::{long_metadata, unparsed_and_unlawful, unparsed_plan, written, Side};
use super::rules::{Plan, RULES};
use super::schemas::{self, encoded, schema_for, MadeNode};
use super::{good_variant, many_places, Variant};
use crate::bytes::push_frame;
use crate::limits;
use crate::operations;
use crate::refusal::Rule;
use crate::row::{Typed, LEFTOVER, METADATA, PLACE, TYPED};
use crate::schema::Node;

/// A schema and a row as they are lent.
#[derive(Clone, Debug, PartialEq, Eq)]
pub struct Lent {
    pub schema: Vec<u8>,
    pub row: Vec<u8>,
}

/// How a row is made.
#[derive(Clone, Copy, Debug, PartialEq, Eq)]
pub enum Kind {
    /// Written by shredding a document: 0.
    Shredded,
    /// Lawful, in any legal encoding: 0.
    Lawful,
    /// Lawful, with a normal value of the greatest length or longer: 0, and rebuild may give 8.
    Large,
    /// With an input, a part or a nest as long or as deep as may be, or by one more.
    AtLimit,
    /// Breaking a rule: 7.
    Unlawful,
    /// With one fault: 6.
    Unparsed,
    /// With a fault before, inside or behind a place that breaks a rule: 6.
    Both,
    /// Of pieces of which one is harmed.
    Harmed,
    /// Of bytes of which a few are damaged.
    Damaged,
    /// Cut at any byte: 6.
    Cut,
    /// Under another schema than it was written for.
    OtherSchema,
    /// Under a schema that is broken, in most cases: 4.
    BrokenSchema,
    /// With an input that is too long: 1.
    TooLong,
}

/// Every kind, and how often of a hundred.
pub const KINDS: [(usize, Kind); 13] = [
    (14, Kind::Shredded),
    (21, Kind::Lawful),
    (2, Kind::Large),
    (2, Kind::AtLimit),
    (22, Kind::Unlawful),
    (9, Kind::Unparsed),
    (7, Kind::Both),
    (5, Kind::Harmed),
    (3, Kind::Damaged),
    (2, Kind::Cut),
    (1, Kind::OtherSchema),
    (8, Kind::BrokenSchema),
    (4, Kind::TooLong),
];

/// A row of any kind.
pub fn any(rng: &mut Rng) -> Lent {
    let kind = rng.weighted(&KINDS);
    of(kind, rng)
}

/// A row of this kind.
pub fn of(kind: Kind, rng: &mut Rng) -> Lent {
    match kind {
        Kind::Shredded => shredded(rng),
        Kind::Lawful => lawful(rng),
        Kind::Large => large::any(rng),
        Kind::AtLimit => at_limit(rng),
        Kind::Unlawful => {
            let rule = rng.pick(&RULES);
            let (plan, _) = unlawful(rng, rule);
            lent(rng, &plan)
        }
        Kind::Unparsed => {
            let plan = plan(rng);
            Lent { schema: encoded(&plan.node), row: unparsed_plan(rng, &plan) }
        }
        Kind::Both => {
            let side = rng.pick(&Side::ALL);
            both(rng, side)
        }
        Kind::OtherSchema => Lent { schema: encoded(&any_node(rng)), ..lawful(rng) },
        Kind::BrokenSchema => {
            let plan = plan(rng);
            let schema = schemas::broken(rng, &plan.node);
            Lent { schema, ..lent(rng, &plan) }
        }
        Kind::TooLong => too_long(rng),
        Kind::Harmed => spoiled(rng, |rng, row| {
            let how = rng.pick(&HARMS);
            harm(rng, how, row);
        }),
        Kind::Damaged => spoiled(rng, damage),
        Kind::Cut => spoiled(rng, |rng, row| row.truncate(rng.below(row.len()))),
    }
}

/// A lawful row that is then spoiled.
fn spoiled(rng: &mut Rng, spoil: impl FnOnce(&mut Rng, &mut Vec<u8>)) -> Lent {
    let mut lent = if rng.percent(30) { shredded(rng) } else { lawful(rng) };
    spoil(rng, &mut lent.row);
    lent
}

/// The schema of a plan, and a row of it.
pub fn lent(rng: &mut Rng, plan: &Plan) -> Lent {
    Lent { schema: encoded(&plan.node), row: written(rng, plan, None) }
}

/// The row of a document that can be shredded.
fn shredded(rng: &mut Rng) -> Lent {
    loop {
        let (schema, Variant { metadata, value }) = match rng.permille(8) {
            true => many_places(rng),
            false => {
                let doc = docs::doc(rng);
                (encoded(&schema_for(rng, &doc)), good_variant(rng, &doc))
            }
        };
        if let Ok(row) = operations::shredded(&schema, &metadata, &value) {
            return Lent { schema, row };
        }
    }
}

fn lawful(rng: &mut Rng) -> Lent {
    let plan = plan(rng);
    lent(rng, &plan)
}

/// A lawful plan: small, deep, of many fields, or of many elements.
fn plan(rng: &mut Rng) -> Plan {
    if rng.percent(35) {
        let doc = docs::tree(rng, 30);
        let node = schema_for(rng, &doc);
        let place = places::of_document(rng, &node, &doc);
        return Plan::new(node, place);
    }
    if rng.permille(15) {
        return many_elements(rng);
    }
    let node = any_node(rng);
    let mut most = rng.pick(&[8, 30, 60]);
    let place = match rng.permille(15) {
        true => places::empty(),
        false => places::of_schema(rng, &node, 1, &mut most),
    };
    Plan::new(node, place)
}

/// A schema: small in most cases, else of one node, deep, or of many fields.
fn any_node(rng: &mut Rng) -> MadeNode {
    within_limit(rng, |rng| match rng.below(100) {
        0..=5 => {
            let levels = rng.pick(&[8, 14, 15, 16, 16]);
            schemas::deep(rng, levels)
        }
        6..=8 => {
            let fields = rng.pick(&[40, 120, 255, 256, 257, 340, 400]);
            schemas::wide(rng, fields)
        }
        9..=14 => schemas::any(rng, limits::LEVELS),
        _ => {
            let mut most = rng.between(1, 8);
            schemas::branching(rng, 1, &mut most)
        }
    })
}

/// A list of up to thousands of elements, or of tens with hundreds of fields each.
fn many_elements(rng: &mut Rng) -> Plan {
    let element = within_limit(rng, |rng| match rng.below(4) {
        0 => Node::Leftover,
        1 => Node::Primitive(schemas::column_type(rng)),
        2 => {
            let fields = rng.pick(&[20, 100, 400]);
            schemas::wide(rng, fields)
        }
        _ => schemas::branching(rng, 2, &mut 4),
    });
    let length = rng.pick(&[5_000, 20_000, 50_000]);
    let place = places::long_list(rng, &element, length);
    Plan::new(Node::List(Box::new(element)), place)
}

/// A schema that is not too long, in a list neither.
fn within_limit(rng: &mut Rng, make: impl Fn(&mut Rng) -> MadeNode) -> MadeNode {
    loop {
        let node = make(rng);
        if encoded(&node).len() + 3 <= limits::SCHEMA {
            return node;
        }
    }
}

/// A plan that breaks this rule, and the number of the place that does.
fn unlawful(rng: &mut Rng, rule: Rule) -> (Plan, usize) {
    loop {
        let mut plan = plan(rng);
        if let Some(number) = plan.break_rule(rng, rule) {
            return (plan, number);
        }
    }
}

/// A row with a fault on this side of a place that breaks a rule.
fn both(rng: &mut Rng, side: Side) -> Lent {
    loop {
        let rule = rng.pick(&RULES);
        let (plan, number) = unlawful(rng, rule);
        if let Some(row) = unparsed_and_unlawful(rng, &plan, number, side) {
            return Lent { schema: encoded(&plan.node), row };
        }
    }
}

/// A row of this metadata and what its outermost place holds.
pub fn row_of(metadata: &[u8], place: &[u8]) -> Vec<u8> {
    let mut row = Vec::new();
    push_frame(&mut row, METADATA, metadata);
    push_frame(&mut row, PLACE, place);
    row
}

/// A row of which one part is at its limit, or one past it: the row, its metadata, a leftover, the
/// schema, or the levels.
fn at_limit(rng: &mut Rng) -> Lent {
    let more = rng.below(2);
    let mut schema = encoded(&Node::Leftover);
    let (mut metadata, mut place) = (vec![0x01, 0, 0], Vec::new());
    match rng.below(5) {
        0 => {
            schema = encoded(&Node::Primitive(16));
            push_frame(&mut place, TYPED, &vec![b'r'; limits::ROW + more - 12]);
        }
        1 => metadata = long_metadata(limits::METADATA + more),
        2 => {
            let length = limits::VALUE + more - 5;
            let leftover = [&[0x40], &(length as u32).to_le_bytes()[..], &vec![b'l'; length]];
            push_frame(&mut place, LEFTOVER, &leftover.concat());
        }
        3 => schema = schemas::of_length(limits::SCHEMA + more),
        _ => {
            let levels = limits::LEVELS + more;
            let inner = rng.below(limits::LEVELS);
            return deep_row(rng, inner, levels - inner);
        }
    }
    Lent { schema, row: row_of(&metadata, &place) }
}

/// Lists so many levels deep around a leftover, whose innermost value is so many levels deep again.
fn deep_row(rng: &mut Rng, lists: usize, levels: usize) -> Lent {
    let leftover = left(docs::nest(rng, levels));
    let (mut node, mut place) = (Node::Leftover, leftover);
    for _ in 0..lists {
        node = Node::List(Box::new(node));
        place = typed(Typed::List(vec![place]));
    }
    lent(rng, &Plan::new(node, place))
}

/// A schema or a row that is too long, or both; whatever else is wrong with them.
fn too_long(rng: &mut Rng) -> Lent {
    let kind = rng.pick(&[Kind::Lawful, Kind::Unlawful, Kind::Unparsed, Kind::BrokenSchema]);
    let mut lent = of(kind, rng);
    let which = rng.below(3);
    if which != 0 {
        lent.schema = schemas::of_length(limits::SCHEMA + rng.pick(&[1, 2, 3_000]));
        if rng.percent(20) {
            lent.schema[0] = 0xFF;
        }
    }
    if which != 1 {
        let length = limits::ROW + rng.pick(&[1, 2, 500]);
        lent.row.resize(length.max(lent.row.len()), rng.pick(&[0, 0x50]));
    }
    lent
}

#[cfg(test)]
mod tests {
    use super::*;
    use crate::generate::places::{sites, Stand};
    use crate::operations::judge;
    use crate::refusal::Refusal;
    use std::collections::BTreeSet;

    fn number(Lent { schema, row }: &Lent) -> u8 {
        judge(schema, row).err().map_or(0, |refusal| refusal.number())
    }

    /// How many of a hundred rows of this kind give this number; rows that are too long are passed.
    fn percent(kind: Kind, wanted: u8) -> usize {
        let always_too = matches!(kind, Kind::TooLong | Kind::AtLimit);
        let mut rng = Rng::new(31);
        let lents = (0..600).map(|_| of(kind, &mut rng));
        let numbers: Vec<_> = lents
            .filter(|lent| always_too || lent.row.len() <= limits::ROW)
            .map(|lent| number(&lent))
            .collect();
        100 * numbers.iter().filter(|&&number| number == wanted).count() / numbers.len()
    }

    #[test]
    fn every_kind_gives_its_number() {
        let always = [
            (Kind::Shredded, 0),
            (Kind::Lawful, 0),
            (Kind::Large, 0),
            (Kind::Unlawful, 7),
            (Kind::Both, 6),
            (Kind::Cut, 6),
            (Kind::TooLong, 1),
        ];
        for (kind, number) in always {
            assert_eq!(percent(kind, number), 100, "{kind:?}");
        }
        assert!(percent(Kind::Unparsed, 6) >= 97);
        assert!(percent(Kind::BrokenSchema, 4) >= 90);
        assert!((40..60).contains(&percent(Kind::AtLimit, 0)));
        for kind in [Kind::Harmed, Kind::Damaged, Kind::OtherSchema] {
            assert!((60..95).contains(&percent(kind, 6)), "{kind:?}");
        }
    }

    #[test]
    fn every_rule_is_broken_at_every_depth() {
        for rule in RULES {
            let mut rng = Rng::new(32);
            let mut stands = BTreeSet::new();
            for _ in 0..300 {
                let (plan, unlawful) = unlawful(&mut rng, rule);
                stands.insert(sites(&plan.node, &plan.place)[unlawful].stand);
                let Lent { schema, row } = lent(&mut rng, &plan);
                assert_eq!(judge(&schema, &row), Err(Refusal::Rule(rule)));
            }
            assert_eq!(stands, BTreeSet::from(Stand::ALL), "{rule:?}");
        }
    }

    #[test]
    fn what_does_not_parse_wins_on_every_side_of_a_broken_rule() {
        for side in Side::ALL {
            let mut rng = Rng::new(33);
            for _ in 0..200 {
                let lent = both(&mut rng, side);
                assert!(number(&lent) == 6 || lent.row.len() > limits::ROW, "{side:?}");
            }
        }
    }

    fn fields_of(node: &MadeNode) -> usize {
        match node {
            Node::Object(fields) => fields.iter().map(|(_, node)| 1 + fields_of(node)).sum(),
            Node::List(element) => fields_of(element),
            _ => 0,
        }
    }

    #[test]
    fn rows_are_full_size_too() {
        let mut rng = Rng::new(34);
        let (mut elements, mut fields, mut levels) = (0, 0, 0);
        for _ in 0..2_000 {
            let plan = plan(&mut rng);
            if let Some(Typed::List(places)) = &plan.place.typed {
                elements = elements.max(places.len());
            }
            fields = fields.max(fields_of(&plan.node));
            let all = sites(&plan.node, &plan.place);
            levels = levels.max(all.iter().map(|site| site.level).max().unwrap());
        }
        assert!(elements > 3_000, "{elements}");
        assert!(fields > 400, "{fields}");
        assert_eq!(levels, limits::LEVELS);
    }
}
