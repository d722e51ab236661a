//! Rows written from plans: lawful but not as shredding writes them, breaking a rule a to f, and not
//! parsing.

use super::damage::{damage, spoil_metadata};
use super::docs::Made;
use super::encode::{Encoder, Names, FAULTS};
use super::places::{self, names_left, names_present, sites, MadePlace, Site};
use super::rng::Rng;
use super::rules::{one_by_level, Plan, RULES};
use super::schemas::MadeNode;
use crate::bytes::push_frame;
use crate::cell::cell_of;
use crate::doc::{Bytes, Doc};
use crate::limits;
use crate::metadata::Dictionary;
use crate::row::{Typed, LEFTOVER, METADATA, PLACE, TYPED};
use crate::schema::Node;
use crate::value::check;

/// What makes a row not parse.
#[derive(Clone, Copy, Debug, PartialEq, Eq)]
pub enum Fault {
    TypedUnderLeftover,
    CellSize,
    BoolContent,
    PlaceMissing,
    PlaceTooMany,
    NoPlace,
    Order,
    Twice,
    Tag,
    EmptyLeftover,
    BrokenLeftover,
    DeepLeftover,
    LongLeftover,
    Behind,
}

/// All faults of rows.
pub const FAULTS_OF_ROWS: [Fault; 14] = [
    Fault::TypedUnderLeftover,
    Fault::CellSize,
    Fault::BoolContent,
    Fault::PlaceMissing,
    Fault::PlaceTooMany,
    Fault::NoPlace,
    Fault::Order,
    Fault::Twice,
    Fault::Tag,
    Fault::EmptyLeftover,
    Fault::BrokenLeftover,
    Fault::DeepLeftover,
    Fault::LongLeftover,
    Fault::Behind,
];

impl Fault {
    /// Whether a place can have it.
    fn fits(self, site: &Site) -> bool {
        let (leftover, typed) = (site.place.leftover.is_some(), site.place.typed.as_ref());
        match self {
            Fault::TypedUnderLeftover => matches!(site.node, Node::Leftover),
            Fault::CellSize => {
                typed.is_some()
                    && matches!(site.node, Node::Primitive(code) if !(15..17).contains(code))
            }
            Fault::BoolContent => typed.is_some() && matches!(site.node, Node::Primitive(1)),
            Fault::PlaceMissing | Fault::PlaceTooMany => matches!(typed, Some(Typed::Object(_))),
            Fault::NoPlace => matches!(typed, Some(Typed::List(_))),
            Fault::Order => leftover && typed.is_some(),
            Fault::Twice | Fault::Tag => leftover || typed.is_some(),
            Fault::EmptyLeftover
            | Fault::BrokenLeftover
            | Fault::DeepLeftover
            | Fault::LongLeftover => leftover,
            Fault::Behind => true,
        }
    }
}

/// Where what does not parse stands, seen from the place that breaks a rule.
#[derive(Clone, Copy, Debug, PartialEq, Eq, PartialOrd, Ord)]
pub enum Side {
    Before,
    Inside,
    Behind,
}

impl Side {
    pub const ALL: [Side; 3] = [Side::Before, Side::Inside, Side::Behind];

    fn has(self, site: &Site, unlawful: &Site) -> bool {
        match self {
            Side::Before => site.end <= unlawful.number,
            Side::Inside => (unlawful.number..unlawful.end).contains(&site.number),
            Side::Behind => site.number >= unlawful.end,
        }
    }
}

/// A lawful row of a document, with odd metadata and leftovers.
pub fn lawful(rng: &mut Rng, node: &MadeNode, doc: &Made) -> Vec<u8> {
    let plan = plan(rng, node, doc);
    written(rng, &plan, None)
}

/// A row that breaks one of the rules, where the document and the schema allow any.
pub fn unlawful(rng: &mut Rng, node: &MadeNode, doc: &Made) -> Vec<u8> {
    let mut plan = plan(rng, node, doc);
    let mut rules = RULES;
    rng.shuffle(&mut rules);
    rules.into_iter().find(|&rule| plan.break_rule(rng, rule).is_some());
    written(rng, &plan, None)
}

/// A row that does not parse.
pub fn unparsed(rng: &mut Rng, node: &MadeNode, doc: &Made) -> Vec<u8> {
    let plan = plan(rng, node, doc);
    unparsed_plan(rng, &plan)
}

/// A plan for a document; now and then its outermost place is empty.
fn plan(rng: &mut Rng, node: &MadeNode, doc: &Made) -> Plan {
    let place = match rng.permille(15) {
        true => places::empty(),
        false => places::of_document(rng, node, doc),
    };
    Plan::new(node.clone(), place)
}

/// A row with one fault, at any depth; its outer frames or its metadata may be what is wrong.
pub fn unparsed_plan(rng: &mut Rng, plan: &Plan) -> Vec<u8> {
    if rng.percent(20) {
        return broken_frame(rng, plan);
    }
    let fault = any_fault(rng, sites(&plan.node, &plan.place));
    written(rng, plan, fault)
}

/// A row with a fault before, inside or behind a place that breaks a rule. None where there is no
/// place on that side.
pub fn unparsed_and_unlawful(
    rng: &mut Rng,
    plan: &Plan,
    unlawful: usize,
    side: Side,
) -> Option<Vec<u8>> {
    let all = sites(&plan.node, &plan.place);
    let able = all.iter().filter(|site| side.has(site, &all[unlawful])).copied();
    let fault = any_fault(rng, able.collect())?;
    Some(written(rng, plan, Some(fault)))
}

/// A fault at one of these places, which can have it.
fn any_fault(rng: &mut Rng, sites: Vec<Site>) -> Option<(Fault, usize)> {
    let mut faults = FAULTS_OF_ROWS;
    rng.shuffle(&mut faults);
    faults.into_iter().find_map(|fault| {
        let able = sites.iter().filter(|site| fault.fits(site)).copied();
        Some((fault, one_by_level(rng, able.collect())?.number))
    })
}

/// A dictionary for a plan: with each name that it needs, and not with the one it must lack.
fn dictionary(rng: &mut Rng, plan: &Plan) -> Names {
    let all = sites(&plan.node, &plan.place);
    let mut list = names_left(&all);
    list.extend(all.iter().flat_map(|site| names_present(site.node, site.place)));
    if rng.permille(6) {
        let count = rng.pick(&[300, 1_000, 2_000]);
        list.extend((0..count).map(|number: u16| number.to_be_bytes().to_vec()));
    }
    list.retain(|name| Some(name) != plan.lacking.as_ref());
    loop {
        let names = Names::odd(rng, list.clone());
        if !plan.lacking.as_ref().is_some_and(|name| names.has(name)) {
            return names;
        }
    }
}

/// Writes a row, with a fault at the place of this number.
pub fn written(rng: &mut Rng, plan: &Plan, fault: Option<(Fault, usize)>) -> Vec<u8> {
    let names = dictionary(rng, plan);
    written_under(rng, &names, plan, fault)
}

/// Writes a row under a dictionary that has each name that the plan needs.
pub fn written_under(
    rng: &mut Rng,
    names: &Names,
    plan: &Plan,
    fault: Option<(Fault, usize)>,
) -> Vec<u8> {
    let (metadata, mut row) = (names.metadata(rng), Vec::new());
    push_short(&mut row, METADATA, &metadata);
    let dictionary = Dictionary::read(&metadata).expect("good metadata");
    let mut writer = Writer { names, dictionary, fault, next: 0 };
    writer.place(rng, &plan.node, &plan.place, 1, &mut row);
    row
}

/// A row whose outer frames are wrong, or whose metadata is.
fn broken_frame(rng: &mut Rng, plan: &Plan) -> Vec<u8> {
    let row = written(rng, plan, None);
    let end = 3 + usize::from(u16::from_le_bytes([row[1], row[2]]));
    let (mut metadata, mut body) = (row[3..end].to_vec(), row[end..].to_vec());
    match rng.below(8) {
        0 => spoil_metadata(rng, &mut metadata),
        1 => damage(rng, &mut metadata),
        2 if rng.percent(10) => metadata = long_metadata(limits::METADATA + 1),
        3 => body.extend_from_slice(&[PLACE, 0, 0]),
        4 => body[0] = rng.pick(&[METADATA, LEFTOVER, 0x51]),
        5 => body.clear(),
        6 => return [body, row[..end].to_vec()].concat(),
        _ => body[1] = body[1].wrapping_add(rng.pick(&[1, 0xFF])),
    }
    let mut row = Vec::new();
    push_short(&mut row, METADATA, &metadata);
    row.extend(body);
    row
}

/// Good metadata of so many bytes, one long name; at least 300.
pub fn long_metadata(length: usize) -> Vec<u8> {
    let name = length - 7;
    let mut out = vec![0x51, 1, 0, 0, 0, name as u8, (name >> 8) as u8];
    out.extend(std::iter::repeat_n(b'm', name));
    out
}

struct Writer<'n> {
    names: &'n Names,
    dictionary: Dictionary<'n>,
    /// The fault to be made, and the number of its place.
    fault: Option<(Fault, usize)>,
    /// The number of the next place.
    next: usize,
}

impl Writer<'_> {
    fn place(
        &mut self,
        rng: &mut Rng,
        node: &MadeNode,
        place: &MadePlace,
        level: usize,
        out: &mut Vec<u8>,
    ) {
        let fault = self.fault.filter(|(_, number)| *number == self.next).map(|(fault, _)| fault);
        self.next += 1;
        let leftover = place.leftover.as_ref().map(|doc| self.leftover(rng, doc, fault, level));
        let typed = self.typed(rng, node, place, fault, level);
        let mut parts: Vec<(u8, Vec<u8>)> = [(LEFTOVER, leftover), (TYPED, typed)]
            .into_iter()
            .filter_map(|(tag, part)| Some((tag, part?)))
            .collect();
        match fault {
            Some(Fault::Order) => parts.reverse(),
            Some(Fault::Twice) => {
                let at = rng.below(parts.len());
                parts.insert(at, parts[at].clone());
            }
            Some(Fault::Tag) => {
                let at = rng.below(parts.len());
                parts[at].0 = rng.pick(&[0x40, 0x43, 0x50, 0x00]);
            }
            _ => {}
        }
        let mut body = Vec::new();
        parts.iter().for_each(|(tag, part)| push_short(&mut body, *tag, part));
        if fault == Some(Fault::Behind) {
            body.extend_from_slice(rng.pick(&[&[0][..], &[0x43, 0, 0], &[PLACE, 0, 0]]));
        }
        push_short(out, PLACE, &body);
    }

    fn leftover(&self, rng: &mut Rng, doc: &Made, fault: Option<Fault>, level: usize) -> Vec<u8> {
        match fault {
            Some(Fault::EmptyLeftover) => vec![],
            Some(Fault::LongLeftover) => {
                let text = Doc::Text(vec![b'x'; limits::VALUE - 4].into());
                Encoder::plain(self.names).value(rng, &text)
            }
            Some(Fault::DeepLeftover) => {
                let deep = too_deep(rng, doc, level);
                Encoder::odd(self.names).value(rng, &deep)
            }
            Some(Fault::BrokenLeftover) => loop {
                let fault = rng.pick(&FAULTS);
                let mut value = Encoder::with_fault(self.names, fault, 0).value(rng, doc);
                if rng.percent(40) {
                    damage(rng, &mut value);
                }
                if check(&self.dictionary, &value, level).is_err() {
                    return value;
                }
            },
            _ => Encoder::odd(self.names).value(rng, doc),
        }
    }

    fn typed(
        &mut self,
        rng: &mut Rng,
        node: &MadeNode,
        place: &MadePlace,
        fault: Option<Fault>,
        level: usize,
    ) -> Option<Vec<u8>> {
        let mut body = Vec::new();
        match (&place.typed, node) {
            (Some(Typed::Primitive(doc)), Node::Primitive(code)) => {
                return Some(cell(rng, *code, doc, fault));
            }
            (Some(Typed::List(places)), Node::List(element)) => {
                for place in places {
                    self.place(rng, element, place, level + 1, &mut body);
                }
                if fault == Some(Fault::NoPlace) {
                    body.extend_from_slice(rng.pick(&[&[0][..], &[PLACE], &[TYPED, 1, 0, 1]]));
                }
            }
            (Some(Typed::Object(places)), Node::Object(nodes)) => {
                self.typed_object(rng, nodes, places, fault, level, &mut body);
            }
            _ if fault == Some(Fault::TypedUnderLeftover) => {
                body.extend_from_slice(rng.pick(&[&[][..], &[1], &[PLACE, 0, 0]]));
            }
            _ => return None,
        }
        Some(body)
    }

    fn typed_object(
        &mut self,
        rng: &mut Rng,
        nodes: &[(Bytes<'static>, MadeNode)],
        places: &[MadePlace],
        fault: Option<Fault>,
        level: usize,
        body: &mut Vec<u8>,
    ) {
        let missing = (fault == Some(Fault::PlaceMissing)).then(|| rng.below(places.len()));
        for (at, ((_, node), place)) in nodes.iter().zip(places).enumerate() {
            if missing != Some(at) {
                self.place(rng, node, place, level + 1, body);
            }
        }
        if fault == Some(Fault::PlaceTooMany) {
            body.extend_from_slice(&[PLACE, 0, 0]);
        }
    }
}

/// A leftover whose innermost value is one level too deep; an object stays one.
fn too_deep(rng: &mut Rng, doc: &Made, level: usize) -> Made {
    let innermost = [Doc::Null, Doc::Array(vec![]), Doc::Object(vec![])][rng.below(3)].clone();
    let nest =
        |level: usize| (level..=limits::LEVELS).fold(innermost, |inner, _| Doc::Array(vec![inner]));
    match doc {
        Doc::Object(fields) if !fields.is_empty() => {
            let (mut fields, at) = (fields.clone(), rng.below(fields.len()));
            fields[at].1 = nest(level + 1);
            Doc::Object(fields)
        }
        _ => nest(level),
    }
}

fn cell(rng: &mut Rng, code: u8, doc: &Made, fault: Option<Fault>) -> Vec<u8> {
    let mut body = cell_of(code, doc).expect("a typed place fits").into_owned();
    match fault {
        Some(Fault::BoolContent) => body[0] = rng.pick(&[2, 0x80, 0xFF]),
        Some(Fault::CellSize) if rng.percent(50) => body.push(0),
        Some(Fault::CellSize) => drop(body.pop()),
        _ => {}
    }
    body
}

/// A frame; a body too long for its length loses its end.
fn push_short(out: &mut Vec<u8>, tag: u8, body: &[u8]) {
    push_frame(out, tag, &body[..body.len().min(0xFFFF)]);
}

#[cfg(test)]
mod tests {
    use super::*;
    use crate::generate::docs;
    use crate::generate::places::Stand;
    use crate::generate::schemas::{any, branching, encoded, schema_for};
    use crate::operations::{judge, rebuilt};
    use crate::refusal::Refusal;
    use std::collections::BTreeSet;

    #[test]
    fn every_fault_is_refused_with_6_at_every_depth() {
        for fault in FAULTS_OF_ROWS {
            let mut rng = Rng::new(23);
            let mut stands = BTreeSet::new();
            for _ in 0..1_000 {
                let node = match rng.percent(15) {
                    true => any(&mut rng, limits::LEVELS),
                    false => branching(&mut rng, 1, &mut 5),
                };
                let place = places::of_schema(&mut rng, &node, 1, &mut 20);
                let plan = Plan::new(node, place);
                let able =
                    sites(&plan.node, &plan.place).into_iter().filter(|site| fault.fits(site));
                let Some(site) = one_by_level(&mut rng, able.collect()) else { continue };
                stands.insert(site.stand);
                let row = written(&mut rng, &plan, Some((fault, site.number)));
                assert_eq!(judge(&encoded(&plan.node), &row), Err(Refusal::Row), "{fault:?}");
            }
            assert_eq!(stands, BTreeSet::from(Stand::ALL), "{fault:?}");
        }
    }

    #[test]
    fn lawful_rows_mean_their_document() {
        let mut rng = Rng::new(24);
        for _ in 0..600 {
            let doc = docs::tree(&mut rng, 20);
            let node = schema_for(&mut rng, &doc);
            let plan = Plan::new(node.clone(), places::of_document(&mut rng, &node, &doc));
            let row = written(&mut rng, &plan, None);
            assert_eq!(rebuilt(&encoded(&node), &row), Ok(crate::normal::normal(&doc)));
        }
    }
}
