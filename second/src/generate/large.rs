//! Rows whose normal value is as long as may be, or longer.

use super::docs::{self, Made};
use super::encode::Names;
use super::kinds::{lent, row_of, Lent};
use super::places::{self, typed};
use super::rng::Rng;
use super::rows::written_under;
use super::rules::Plan;
use super::schemas::{self, encoded};
use super::{growing_variant, Variant};
use crate::bytes::push_frame;
use crate::doc::Doc;
use crate::limits;
use crate::normal::normal;
use crate::operations;
use crate::row::{Typed, LEFTOVER};
use crate::schema::Node;

fn text(length: usize) -> Made {
    Doc::Text(vec![b'l'; length].into())
}

/// A row whose normal value is too large, or nearly so: of one cell, of cells alone, of cells and
/// leftovers, or of leftovers that grow when they are normalised.
pub fn any(rng: &mut Rng) -> Lent {
    let column = || Node::Primitive(16);
    let length = limits::VALUE + rng.pick(&[0, 0, 1, 1, 2]);
    let (node, place) = match rng.below(7) {
        0 => (column(), typed(Typed::Primitive(text(length - 5)))),
        1 => (column(), typed(Typed::Primitive(text(rng.between(20_000, limits::ROW - 2_000))))),
        2 => {
            let items = (0..rng.between(15, 40)).map(|_| typed(Typed::Primitive(text(500))));
            (Node::List(Box::new(column())), typed(Typed::List(items.collect())))
        }
        3 => return full_list(rng, length),
        4 => return full_object(rng, length),
        5 => return growing(rng),
        _ => return growing_list(rng),
    };
    lent(rng, &Plan::new(node, place))
}

/// A list whose normal value has this length, its elements typed or left over.
fn full_list(rng: &mut Rng, length: usize) -> Lent {
    loop {
        let doc = docs::full(rng, length);
        let element = Box::new(schemas::any(rng, 2));
        let node = match doc {
            Doc::Array(_) => Node::List(element),
            _ => Node::Primitive(16),
        };
        let place = places::of_document(rng, &node, &doc);
        let lent = lent(rng, &Plan::new(node, place));
        if operations::judge(&lent.schema, &lent.row).is_ok() {
            return lent;
        }
    }
}

/// An object whose normal value has this length, of typed fields and left over ones by turns.
fn full_object(rng: &mut Rng, length: usize) -> Lent {
    let mut lengths = [(); 6].map(|()| rng.between(100, 2_000));
    let object = |lengths: [usize; 6]| {
        docs::object((0..).map(docs::numbered).zip(lengths.map(text)).collect())
    };
    lengths[0] += length - normal(&object(lengths)).value.len();
    let named = [0, 2, 4].map(|number| (docs::numbered(number).into(), Node::Primitive(16)));
    let node = Node::Object(named.into_iter().collect());
    let place = places::of_document(rng, &node, &object(lengths));
    lent(rng, &Plan::new(node, place))
}

/// A leftover that grows when it is normalised, below the limit and past it.
fn growing(rng: &mut Rng) -> Lent {
    let Variant { metadata, value } = growing_variant(rng);
    let (schema, mut place) = (encoded(&Node::Leftover), Vec::new());
    push_frame(&mut place, LEFTOVER, &value);
    Lent { schema, row: row_of(&metadata, &place) }
}

/// The same, an element a leftover or a place for its only field.
fn growing_list(rng: &mut Rng) -> Lent {
    let (doc, list) = docs::growing(rng);
    let element = match rng.below(2) {
        0 => Node::Leftover,
        _ => Node::Object(vec![(list[0].clone().into(), Node::Leftover)]),
    };
    let node = Node::List(Box::new(element));
    let plan = Plan::new(node.clone(), places::of_document(rng, &node, &doc));
    let row = written_under(rng, &Names::of(list), &plan, None);
    Lent { schema: encoded(&node), row }
}

#[cfg(test)]
mod tests {
    use super::*;
    use crate::refusal::Refusal;

    #[test]
    fn large_rows_are_on_both_sides_of_the_limit() {
        let mut rng = Rng::new(25);
        let refused = (0..60).filter(|_| {
            let Lent { schema, row } = any(&mut rng);
            operations::rebuilt(&schema, &row) == Err(Refusal::TooLarge)
        });
        assert!((10..50).contains(&refused.count()));
    }
}
