//! Lawful places before they are written, from a document or from a schema alone; and all places of
//! one, with the level of each.

use super::docs::{self, Made};
use super::encode::names_used;
use super::rng::Rng;
use super::schemas::MadeNode;
use crate::cell::cell_of;
use crate::doc::{Bytes, Doc};
use crate::limits;
use crate::normal::normal;
use crate::row::{Place, Typed};
use crate::schema::Node;

/// A generated place owns its bytes.
pub type MadePlace = Place<'static>;

type MadeField = (Bytes<'static>, MadeNode);

/// An empty place.
pub fn empty() -> MadePlace {
    Place { leftover: None, typed: None }
}

/// A place with a leftover alone.
pub fn left(doc: Made) -> MadePlace {
    Place { leftover: Some(doc), typed: None }
}

/// A place with a typed field alone.
pub fn typed(typed: Typed<'static>) -> MadePlace {
    Place { leftover: None, typed: Some(typed) }
}

/// A place for a document, lawful if the document may stand there. A value of the column's own type
/// may be left over.
pub fn of_document(rng: &mut Rng, node: &MadeNode, doc: &Made) -> MadePlace {
    match (node, doc) {
        (Node::Primitive(_), doc) if rng.percent(20) => left(doc.clone()),
        (Node::Primitive(code), doc) if cell_of(*code, doc).is_some() => {
            typed(Typed::Primitive(doc.clone()))
        }
        (Node::List(element), Doc::Array(items)) => {
            typed(Typed::List(items.iter().map(|item| of_document(rng, element, item)).collect()))
        }
        (Node::Object(nodes), Doc::Object(fields)) => of_object(rng, nodes, fields, doc),
        _ => left(doc.clone()),
    }
}

fn of_object(
    rng: &mut Rng,
    nodes: &[MadeField],
    fields: &[(Bytes<'static>, Made)],
    doc: &Made,
) -> MadePlace {
    let unnamed: Vec<_> = fields.iter().filter(|(name, _)| !named(nodes, name)).cloned().collect();
    let leftover = (!unnamed.is_empty() || rng.percent(10)).then_some(Doc::Object(unnamed));
    let mut places = Vec::new();
    for (name, node) in nodes {
        places.push(match doc.field(name) {
            Some(item) => of_document(rng, node, item),
            None => empty(),
        });
    }
    Place { leftover, typed: Some(Typed::Object(places)) }
}

fn named(nodes: &[MadeField], name: &[u8]) -> bool {
    nodes.binary_search_by(|(other, _)| other.as_ref().cmp(name)).is_ok()
}

/// A lawful place under a node that stands at this level, not empty, with about so many inside.
pub fn of_schema(rng: &mut Rng, node: &MadeNode, level: usize, most: &mut usize) -> MadePlace {
    *most = most.saturating_sub(1);
    match node {
        Node::Leftover => left(any_leftover(rng, node, level)),
        _ if rng.percent(15) => left(any_leftover(rng, node, level)),
        Node::Primitive(code) => typed(Typed::Primitive(docs::of_column(rng, *code))),
        Node::List(element) => {
            let count = rng.below(5).min(*most);
            let places = (0..count).map(|_| of_schema(rng, element, level + 1, most));
            typed(Typed::List(places.collect()))
        }
        Node::Object(nodes) => {
            let mut places = Vec::with_capacity(nodes.len());
            for (_, node) in nodes {
                places.push(match *most == 0 || rng.percent(25) {
                    true => empty(),
                    false => of_schema(rng, node, level + 1, most),
                });
            }
            let leftover = rng.percent(35).then(|| beside(rng, nodes, level));
            Place { leftover, typed: Some(Typed::Object(places)) }
        }
    }
}

/// A document that may stand at this level; now and then it goes down to the last one.
fn any_doc(rng: &mut Rng, level: usize) -> Made {
    match rng.percent(8) {
        true => docs::nest(rng, limits::LEVELS + 1 - level),
        false => docs::tree_at(rng, 6, level),
    }
}

/// A leftover that may stand alone under a node.
fn any_leftover(rng: &mut Rng, node: &MadeNode, level: usize) -> Made {
    loop {
        let doc = any_doc(rng, level);
        let pair = (node, &doc);
        if !matches!(pair, (Node::Object(_), Doc::Object(_)) | (Node::List(_), Doc::Array(_))) {
            return doc;
        }
    }
}

/// A leftover object that may stand beside a typed one; now and then it is empty.
fn beside(rng: &mut Rng, nodes: &[MadeField], level: usize) -> Made {
    let mut fields = Vec::new();
    for _ in 0..rng.below(4) {
        let name = docs::name(rng);
        if !named(nodes, &name) {
            fields.push((name, any_doc(rng, level + 1)));
        }
    }
    docs::object(fields)
}

/// A list with as many elements as make a row of about this length; half of the lists have short ones
/// in most cases, so that they are many.
pub fn long_list(rng: &mut Rng, element: &MadeNode, length: usize) -> MadePlace {
    let any = |rng: &mut Rng| {
        let mut most = rng.pick(&[2, 2, 20]);
        of_schema(rng, element, 2, &mut most)
    };
    let short = (0..6).map(|_| any(rng)).min_by_key(length_of).expect("one of six");
    let percent = rng.pick(&[0, 97]);
    let (mut places, mut sum) = (Vec::new(), 0);
    while sum < length {
        let place = if rng.percent(percent) { short.clone() } else { any(rng) };
        sum += length_of(&place);
        places.push(place);
    }
    typed(Typed::List(places))
}

/// About how many bytes a place takes.
fn length_of(place: &MadePlace) -> usize {
    let leftover = place.leftover.as_ref().map_or(0, |doc| 3 + normal(doc).value.len());
    let typed = place.typed.as_ref().map_or(0, |typed| match typed {
        Typed::Primitive(doc) => 3 + normal(doc).value.len(),
        Typed::List(places) | Typed::Object(places) => {
            3 + places.iter().map(length_of).sum::<usize>()
        }
    });
    3 + leftover + typed
}

/// Where a place stands.
#[derive(Clone, Copy, Debug, PartialEq, Eq, PartialOrd, Ord)]
pub enum Stand {
    Outermost,
    InList,
    InObject,
    InBoth,
}

impl Stand {
    pub const ALL: [Stand; 4] = [Stand::Outermost, Stand::InList, Stand::InObject, Stand::InBoth];

    fn below(self, node: &MadeNode) -> Stand {
        let below = if matches!(node, Node::List(_)) { Stand::InList } else { Stand::InObject };
        match self {
            Stand::Outermost => below,
            stand if stand == below => stand,
            _ => Stand::InBoth,
        }
    }
}

/// A place among all places of one, which are numbered with outer ones first.
#[derive(Clone, Copy)]
pub struct Site<'p> {
    pub number: usize,
    /// The number of the first place behind it that is not inside.
    pub end: usize,
    pub level: usize,
    pub stand: Stand,
    pub node: &'p MadeNode,
    pub place: &'p MadePlace,
}

/// All places of one, itself the first.
pub fn sites<'p>(node: &'p MadeNode, place: &'p MadePlace) -> Vec<Site<'p>> {
    let mut sites = Vec::new();
    add_sites(node, place, 1, Stand::Outermost, &mut sites);
    sites
}

fn add_sites<'p>(
    node: &'p MadeNode,
    place: &'p MadePlace,
    level: usize,
    stand: Stand,
    sites: &mut Vec<Site<'p>>,
) {
    let number = sites.len();
    sites.push(Site { number, end: 0, level, stand, node, place });
    for (inner, place) in inside(node, place) {
        add_sites(inner, place, level + 1, stand.below(node), sites);
    }
    sites[number].end = sites.len();
}

/// The places right inside of one, each with its node.
fn inside<'p>(node: &'p MadeNode, place: &'p MadePlace) -> Vec<(&'p MadeNode, &'p MadePlace)> {
    match (node, &place.typed) {
        (Node::List(element), Some(Typed::List(places))) => {
            places.iter().map(|place| (element.as_ref(), place)).collect()
        }
        (Node::Object(nodes), Some(Typed::Object(places))) => {
            nodes.iter().map(|(_, node)| node).zip(places).collect()
        }
        _ => vec![],
    }
}

/// The place of this number; the number falls as places are passed.
pub fn place_mut<'p>(place: &'p mut MadePlace, number: &mut usize) -> Option<&'p mut MadePlace> {
    if *number == 0 {
        return Some(place);
    }
    *number -= 1;
    match &mut place.typed {
        Some(Typed::List(places) | Typed::Object(places)) => {
            places.iter_mut().find_map(|place| place_mut(place, number))
        }
        _ => None,
    }
}

/// The names of the fields of a place that are present.
pub fn names_present(node: &MadeNode, place: &MadePlace) -> Vec<Vec<u8>> {
    match (node, &place.typed) {
        (Node::Object(nodes), Some(Typed::Object(places))) => {
            let fields = nodes.iter().zip(places).filter(|(_, place)| !place.is_empty());
            fields.map(|((name, _), _)| name.to_vec()).collect()
        }
        _ => vec![],
    }
}

/// The names used in the leftovers of these places.
pub fn names_left(sites: &[Site]) -> Vec<Vec<u8>> {
    let mut names = Vec::new();
    sites.iter().flat_map(|site| &site.place.leftover).for_each(|doc| names_used(doc, &mut names));
    names
}

#[cfg(test)]
mod tests {
    use super::*;
    use crate::generate::schemas::branching;

    #[test]
    fn a_number_finds_its_place() {
        let mut rng = Rng::new(28);
        let mut most = 0;
        for _ in 0..100 {
            let node = branching(&mut rng, 1, &mut 6);
            let mut place = of_schema(&mut rng, &node, 1, &mut 30);
            let all: Vec<_> = sites(&node, &place).iter().map(|site| site.place.clone()).collect();
            for (number, wanted) in all.iter().enumerate() {
                assert_eq!(place_mut(&mut place, &mut number.clone()), Some(&mut wanted.clone()));
            }
            most = most.max(all.len());
        }
        assert!(most > 20);
    }

    #[test]
    fn a_place_ends_behind_all_that_is_inside() {
        let mut rng = Rng::new(29);
        for _ in 0..100 {
            let node = branching(&mut rng, 1, &mut 6);
            let place = of_schema(&mut rng, &node, 1, &mut 30);
            for site in sites(&node, &place) {
                assert_eq!(site.end - site.number, sites(site.node, site.place).len());
            }
        }
    }
}
