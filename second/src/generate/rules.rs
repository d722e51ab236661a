//! Plans of rows, and how one breaks a rule a to f: at any depth that it has.

use super::docs;
use super::places::{empty, left, names_left, names_present, place_mut, sites, MadePlace, Site};
use super::rng::Rng;
use super::schemas::MadeNode;
use crate::doc::Doc;
use crate::refusal::Rule;
use crate::row::Typed;
use crate::schema::Node;
use std::collections::BTreeSet;

/// All rules.
pub const RULES: [Rule; 6] = [Rule::A, Rule::B, Rule::C, Rule::D, Rule::E, Rule::F];

/// What a row is written from.
pub struct Plan {
    pub node: MadeNode,
    pub place: MadePlace,
    /// A name that the row's dictionary must not have.
    pub lacking: Option<Vec<u8>>,
}

impl Plan {
    pub fn new(node: MadeNode, place: MadePlace) -> Self {
        Plan { node, place, lacking: None }
    }

    /// Breaks a rule at one place, at each level as likely as at another; the place's number. None
    /// where no place can break it.
    pub fn break_rule(&mut self, rng: &mut Rng, rule: Rule) -> Option<usize> {
        let all = sites(&self.node, &self.place);
        let left: BTreeSet<_> = names_left(&all).into_iter().collect();
        let able = all.into_iter().filter(|site| can_break(rule, site, &left));
        let Site { mut number, level, node, place, .. } = one_by_level(rng, able.collect())?;
        if rule == Rule::F {
            let names: Vec<_> = lackable(node, place, &left).collect();
            self.lacking = Some(names[rng.below(names.len())].clone());
            return Some(number);
        }
        let (found, node) = (number, node.clone());
        let place = place_mut(&mut self.place, &mut number).expect("a place of this number");
        break_at(rng, rule, &node, level, place);
        Some(found)
    }
}

/// One of these places, each level as often as another.
pub fn one_by_level<'p>(rng: &mut Rng, mut sites: Vec<Site<'p>>) -> Option<Site<'p>> {
    let levels: BTreeSet<usize> = sites.iter().map(|site| site.level).collect();
    let level = *levels.iter().nth(rng.below(levels.len().max(1)))?;
    sites.retain(|site| site.level == level);
    Some(sites[rng.below(sites.len())])
}

fn can_break(rule: Rule, site: &Site, left: &BTreeSet<Vec<u8>>) -> bool {
    let is_object = matches!(site.node, Node::Object(_));
    match rule {
        Rule::A => site.place.typed.is_some() && !is_object,
        Rule::B | Rule::C => site.place.typed.is_some() && is_object,
        Rule::D => is_object || matches!(site.node, Node::List(_)),
        Rule::E => matches!(site.place.typed, Some(Typed::List(_))),
        Rule::F => lackable(site.node, site.place, left).next().is_some(),
    }
}

/// The names of present fields that no leftover needs.
fn lackable<'l>(
    node: &MadeNode,
    place: &MadePlace,
    left: &'l BTreeSet<Vec<u8>>,
) -> impl Iterator<Item = Vec<u8>> + 'l {
    names_present(node, place).into_iter().filter(|name| !left.contains(name))
}

fn break_at(rng: &mut Rng, rule: Rule, node: &MadeNode, level: usize, place: &mut MadePlace) {
    match (rule, node, &mut place.typed) {
        (Rule::A, ..) => place.leftover = Some(docs::tree_at(rng, 4, level)),
        (Rule::B, ..) => {
            let other = [docs::scalar(rng), Doc::Array(vec![]), Doc::Null];
            place.leftover = Some(other[rng.below(3)].clone());
        }
        (Rule::C, Node::Object(nodes), _) => {
            let name = nodes[rng.below(nodes.len())].0.to_vec();
            let others = (0..rng.below(4)).map(|_| (docs::name(rng), docs::scalar(rng)));
            let mut fields: Vec<_> = others.collect();
            fields.push((name, docs::tree_at(rng, 3, level + 1)));
            place.leftover = Some(docs::object(fields));
        }
        (Rule::D, Node::List(_), _) => {
            let items = (0..rng.below(3)).map(|_| docs::tree_at(rng, 3, level + 1));
            *place = left(Doc::Array(items.collect()));
        }
        (Rule::D, ..) => {
            let fields = (0..rng.below(3))
                .map(|_| (docs::name(rng), docs::tree_at(rng, 3, level + 1)))
                .collect();
            *place = left(docs::object(fields));
        }
        (Rule::E, _, Some(Typed::List(places))) => {
            places.insert(rng.below(places.len() + 1), empty());
        }
        _ => {}
    }
}
