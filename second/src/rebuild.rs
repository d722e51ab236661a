//! Rebuilding: what a row means, unless it breaks a rule a to f.

use crate::doc::{Bytes, Doc};
use crate::refusal::Rule;
use crate::row::{Place, Row, Typed};
use crate::schema::Node;

/// The document of a row that parsed under this schema.
pub fn rebuild<'a>(schema: &Node<'a>, row: Row<'a>) -> Result<Doc<'a>, Rule> {
    if row.place.is_empty() {
        return Ok(Doc::Null);
    }
    let mut names = row.names.names().to_vec();
    names.sort_unstable();
    Rebuilder { names }.meaning(schema, row.place)
}

struct Rebuilder<'a> {
    /// The row's dictionary, sorted.
    names: Vec<&'a [u8]>,
}

impl<'a> Rebuilder<'a> {
    /// The meaning of a place that is not empty.
    fn meaning(&self, node: &Node<'a>, place: Place<'a>) -> Result<Doc<'a>, Rule> {
        match (place.typed, place.leftover) {
            (None, Some(leftover)) => alone(node, leftover),
            (Some(Typed::Object(places)), leftover) => {
                let Node::Object(nodes) = node else { unreachable!("a row parsed under its node") };
                self.object(nodes, places, leftover)
            }
            (Some(_), Some(_)) => Err(Rule::A),
            (Some(Typed::Primitive(doc)), None) => Ok(doc),
            (Some(Typed::List(places)), None) => {
                let Node::List(element) = node else { unreachable!("a row parsed under its node") };
                self.list(element, places)
            }
            (None, None) => unreachable!("an empty place has no meaning"),
        }
    }

    fn list(&self, element: &Node<'a>, places: Vec<Place<'a>>) -> Result<Doc<'a>, Rule> {
        let item = |place: Place<'a>| {
            if place.is_empty() {
                return Err(Rule::E);
            }
            self.meaning(element, place)
        };
        Ok(Doc::Array(places.into_iter().map(item).collect::<Result<_, _>>()?))
    }

    fn object(
        &self,
        nodes: &[(Bytes<'a>, Node<'a>)],
        places: Vec<Place<'a>>,
        leftover: Option<Doc<'a>>,
    ) -> Result<Doc<'a>, Rule> {
        let mut fields = match leftover {
            None => Vec::new(),
            Some(Doc::Object(fields)) => fields,
            Some(_) => return Err(Rule::B),
        };
        let named = |name: &Bytes| nodes.binary_search_by(|(other, _)| other.cmp(name)).is_ok();
        if fields.iter().any(|(name, _)| named(name)) {
            return Err(Rule::C);
        }
        for ((name, node), place) in nodes.iter().zip(places) {
            if place.is_empty() {
                continue;
            }
            if self.names.binary_search(&name.as_ref()).is_err() {
                return Err(Rule::F);
            }
            fields.push((name.clone(), self.meaning(node, place)?));
        }
        fields.sort_by(|one, other| one.0.cmp(&other.0));
        Ok(Doc::Object(fields))
    }
}

/// A leftover without a typed field beside it.
fn alone<'a>(node: &Node, leftover: Doc<'a>) -> Result<Doc<'a>, Rule> {
    match (node, &leftover) {
        (Node::Object(_), Doc::Object(_)) | (Node::List(_), Doc::Array(_)) => Err(Rule::D),
        _ => Ok(leftover),
    }
}
