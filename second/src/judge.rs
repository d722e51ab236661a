//! The judgement of a row by itself: whether it parses, and whether it keeps the rules a to f.
//!
//! One walk that keeps nothing of the row. `row` and `rebuild` judge in another way, as they make the
//! document; the tests see that both ways agree.

use crate::bytes::Reader;
use crate::cell;
use crate::doc::Bytes;
use crate::limits;
use crate::metadata::Dictionary;
use crate::refusal::{Broken, Rule};
use crate::row::{LEFTOVER, METADATA, PLACE, TYPED};
use crate::schema::Node;
use crate::value::{check, open, Shape};

/// Judges a row under a good schema: broken where it does not parse, else the first rule it breaks.
pub fn judge(schema: &Node, row: &[u8]) -> Result<Option<Rule>, Broken> {
    let mut reader = Reader::new(row);
    let metadata = reader.tagged(METADATA)?;
    let place = reader.tagged(PLACE)?;
    reader.end()?;
    if metadata.len() > limits::METADATA {
        return Err(Broken);
    }
    let mut walk = Walk { names: Dictionary::read(metadata)?, sorted: None, rule: None };
    walk.place(schema, place, 1)?;
    Ok(walk.rule)
}

/// The low two bits of an object's first byte.
const OBJECT: u8 = 2;
/// The low two bits of an array's first byte.
const ARRAY: u8 = 3;

struct Walk<'a> {
    names: Dictionary<'a>,
    /// The names sorted, once a schema field is looked for.
    sorted: Option<Vec<&'a [u8]>>,
    /// The first rule found broken. What does not parse may still follow, so the walk goes on.
    rule: Option<Rule>,
}

type Fields<'s> = [(Bytes<'s>, Node<'s>)];

impl<'a> Walk<'a> {
    fn place(&mut self, node: &Node, body: &'a [u8], level: usize) -> Result<(), Broken> {
        let mut reader = Reader::new(body);
        let leftover = optional(&mut reader, LEFTOVER)?;
        let typed = optional(&mut reader, TYPED)?;
        reader.end()?;
        if let Some(value) = leftover {
            self.leftover(node, value, typed.is_some(), level)?;
        }
        match typed {
            Some(body) => self.typed(node, body, level),
            None => Ok(()),
        }
    }

    /// Rules a to d, of a leftover that stands beside a typed field or alone.
    fn leftover(
        &mut self,
        node: &Node,
        value: &'a [u8],
        beside: bool,
        level: usize,
    ) -> Result<(), Broken> {
        if value.len() > limits::VALUE {
            return Err(Broken);
        }
        check(&self.names, value, level)?;
        let broken = match (node, value[0] & 3) {
            (Node::Object(fields), OBJECT) if beside => {
                self.clashes(fields, value).then_some(Rule::C)
            }
            (Node::Object(_), _) if beside => Some(Rule::B),
            _ if beside => Some(Rule::A),
            (Node::Object(_), OBJECT) | (Node::List(_), ARRAY) => Some(Rule::D),
            _ => None,
        };
        self.note(broken);
        Ok(())
    }

    /// Whether an object has a name that the node names.
    fn clashes(&self, fields: &Fields, value: &'a [u8]) -> bool {
        match open(&self.names, value) {
            Ok(Shape::Object(left)) => left.iter().any(|(name, _)| is_named(fields, name)),
            _ => false,
        }
    }

    fn typed(&mut self, node: &Node, body: &'a [u8], level: usize) -> Result<(), Broken> {
        match node {
            Node::Leftover => Err(Broken),
            Node::Primitive(code) => cell::judge(*code, body),
            Node::List(element) => self.list(element, body, level),
            Node::Object(fields) => self.object(fields, body, level),
        }
    }

    /// Rule e: no element is empty.
    fn list(&mut self, element: &Node, body: &'a [u8], level: usize) -> Result<(), Broken> {
        let mut reader = Reader::new(body);
        while !reader.is_done() {
            let place = reader.tagged(PLACE)?;
            self.note(place.is_empty().then_some(Rule::E));
            self.place(element, place, level + 1)?;
        }
        Ok(())
    }

    /// Rule f: a field that is present has its name in the dictionary.
    fn object(&mut self, fields: &Fields, body: &'a [u8], level: usize) -> Result<(), Broken> {
        let mut reader = Reader::new(body);
        for (name, node) in fields {
            let place = reader.tagged(PLACE)?;
            if !place.is_empty() && !self.knows(name) {
                self.note(Some(Rule::F));
            }
            self.place(node, place, level + 1)?;
        }
        reader.end()
    }

    fn knows(&mut self, name: &[u8]) -> bool {
        let sorted = self.sorted.get_or_insert_with(|| {
            let mut names = self.names.names().to_vec();
            names.sort_unstable();
            names
        });
        sorted.binary_search(&name).is_ok()
    }

    fn note(&mut self, rule: Option<Rule>) {
        self.rule = self.rule.or(rule);
    }
}

/// The body of the next frame, if it has this tag.
fn optional<'a>(reader: &mut Reader<'a>, tag: u8) -> Result<Option<&'a [u8]>, Broken> {
    match reader.peek() {
        Some(found) if found == tag => Ok(Some(reader.frame()?.1)),
        _ => Ok(None),
    }
}

fn is_named(fields: &Fields, name: &[u8]) -> bool {
    fields.binary_search_by(|(other, _)| other.as_ref().cmp(name)).is_ok()
}
