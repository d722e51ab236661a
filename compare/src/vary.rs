//! Systematic variations of a generated case: other encodings of what it means, damage, cuts, rooms.

use crate::loan::GUARD;
use crate::parts;
use second::doc::{Bytes, Doc};
use second::generate::damage::damage;
use second::generate::docs::Made;
use second::generate::pieces::{harm, HARMS};
use second::generate::schemas::{encoded, schema_for, MadeNode};
use second::generate::{good_variant, path_into, rows, Rng, Variant};
use second::normal::{normal, Normal};
use second::operations;
use second::refusal::Refusal;
use second::schema::Node;
use second::vectors::Case;
use std::collections::BTreeSet;
use std::fmt;

/// Longer than two bytes can say, by one.
const HUGE_ROOM: usize = 65_537;
/// Up to this length an input is cut at every byte.
const SHORT: usize = 8;

/// How a case was made.
#[derive(Clone, Copy, Debug, PartialEq, Eq, PartialOrd, Ord)]
pub enum How {
    Generated,
    Good,
    Odd,
    Damaged,
    Harmed,
    Cut,
    Longer,
    Rooms,
    Path,
    Code,
    Schema,
    Swept,
}

impl fmt::Display for How {
    fn fmt(&self, f: &mut fmt::Formatter) -> fmt::Result {
        f.write_str(match self {
            How::Generated => "as generated",
            How::Good => "its document in normal form",
            How::Odd => "its document encoded otherwise",
            How::Damaged => "an input damaged",
            How::Harmed => "a piece of an input harmed",
            How::Cut => "an input cut",
            How::Longer => "an input one byte longer",
            How::Rooms => "other rooms",
            How::Path => "another path",
            How::Code => "another type code",
            How::Schema => "another schema",
            How::Swept => "of the sweep that is in every run",
        })
    }
}

/// A case to be judged.
#[derive(Clone, Debug)]
pub struct Trial {
    pub how: How,
    pub case: Case,
    /// Bytes that stand behind each input.
    pub behind: Vec<u8>,
}

impl Trial {
    pub fn new(how: How, case: Case) -> Self {
        Trial { how, case, behind: Vec::new() }
    }
}

/// A case and its variations.
pub fn variations(case: &Case, rng: &mut Rng) -> Vec<Trial> {
    let mut trials = vec![Trial::new(How::Generated, case.clone())];
    match case {
        Case::Rebuild { schema, row, .. } | Case::Judge { schema, row } => {
            rows(case, schema, row, rng, &mut trials);
        }
        Case::Cell { code, .. } => codes(case, *code, rng, &mut trials),
        _ => encodings(case, rng, &mut trials),
    }
    for at in 0..trials.len() {
        rooms(&trials[at].case.clone(), &mut trials);
    }
    for at in 0..parts::inputs(case).len() {
        damaged(case, at, rng, &mut trials);
        cuts(case, at, rng, &mut trials);
    }
    if parts::has_row(case.op()) {
        harmed(case, rng, &mut trials);
    }
    trials
}

/// The same document in normal form and in another encoding; and other paths, another schema.
fn encodings(case: &Case, rng: &mut Rng, trials: &mut Vec<Trial>) {
    let Some(at) = parts::metadata_at(case.op()) else { return };
    let inputs = parts::inputs(case);
    let Ok(doc) = operations::document(inputs[at], inputs[at + 1]) else { return };
    let doc = owned(doc);
    let Normal { metadata, value } = normal(&doc);
    trials.push(Trial::new(How::Good, with_variant(case, at, metadata, value)));
    let Variant { metadata, value } = good_variant(rng, &doc);
    trials.push(Trial::new(How::Odd, with_variant(case, at, metadata, value)));
    match case {
        Case::Find { .. } => {
            let mut paths = vec![vec![]];
            paths.extend((0..3).map(|_| path_into(rng, &doc)));
            trials.extend(
                paths.into_iter().map(|path| Trial::new(How::Path, with_input(case, 2, path))),
            );
        }
        Case::Shred { .. } => {
            let schema = encoded(&schema_for(rng, &doc));
            trials.push(Trial::new(How::Schema, with_input(case, 0, schema)));
        }
        _ => {}
    }
}

/// Pieces of the row and of the schema harmed.
fn harmed(case: &Case, rng: &mut Rng, trials: &mut Vec<Trial>) {
    for at in [0, 1, 1, 1] {
        let mut bytes = parts::inputs(case)[at].clone();
        let how = rng.pick(&HARMS);
        harm(rng, how, &mut bytes);
        trials.push(Trial::new(How::Harmed, with_input(case, at, bytes)));
    }
}

/// The row that shredding writes, another one that means the same, an unlawful one and a broken one.
fn rows(case: &Case, schema: &[u8], row: &[u8], rng: &mut Rng, trials: &mut Vec<Trial>) {
    let (Ok(node), Ok(made)) = (Node::read(schema), operations::rebuilt(schema, row)) else {
        return;
    };
    let Ok(doc) = operations::document(&made.metadata, &made.value) else { return };
    let (node, doc) = (owned_node(node), owned(doc));
    if let Ok(row) = operations::shredded(schema, &made.metadata, &made.value) {
        trials.push(Trial::new(How::Good, with_input(case, 1, row)));
    }
    let odd = rows::lawful(rng, &node, &doc);
    trials.push(Trial::new(How::Odd, with_input(case, 1, odd)));
    for damaged in [rows::unlawful(rng, &node, &doc), rows::unparsed(rng, &node, &doc)] {
        trials.push(Trial::new(How::Damaged, with_input(case, 1, damaged)));
    }
}

/// The same cell under the codes beside its own, and under any.
fn codes(case: &Case, code: u8, rng: &mut Rng, trials: &mut Vec<Trial>) {
    let Case::Cell { bytes, .. } = case else { return };
    for code in [code.wrapping_sub(1), code.wrapping_add(1), rng.bits() as u8, rng.below(21) as u8]
    {
        trials.push(Trial::new(How::Code, Case::Cell { code, bytes: bytes.clone() }));
    }
}

/// Rooms that are exact, one short, none or ample, each buffer by itself and both at once.
fn rooms(case: &Case, trials: &mut Vec<Trial>) {
    let lists: Vec<Vec<usize>> = match needed(case)[..] {
        [] => vec![],
        [row] => {
            [row, row.saturating_sub(1), 0, row + 33, HUGE_ROOM].map(|room| vec![room]).to_vec()
        }
        [metadata, value, ..] => {
            let (short, other) = (metadata.saturating_sub(1), value.saturating_sub(1));
            let exact_or_short =
                [[metadata, value], [short, value], [metadata, other], [short, other]];
            let none = [[0, value], [metadata, 0], [0, 0]];
            let ample = [[metadata + 33, value + 33], [HUGE_ROOM, HUGE_ROOM]];
            let lists = exact_or_short.iter().chain(&none).chain(&ample);
            lists.map(|rooms| rooms.to_vec()).collect()
        }
    };
    let cases = lists.iter().map(|rooms| parts::with_rooms(case, rooms));
    trials.extend(cases.map(|case| Trial::new(How::Rooms, case)));
}

/// The lengths that an operation would write; ones where it refuses. None without buffers.
fn needed(case: &Case) -> Vec<usize> {
    fn lengths(made: Result<Normal, Refusal>) -> Vec<usize> {
        made.map_or(vec![1, 1], |made| vec![made.metadata.len(), made.value.len()])
    }
    match case {
        Case::Normalise { metadata, value, .. } => lengths(operations::normalised(metadata, value)),
        Case::Rebuild { schema, row, .. } => lengths(operations::rebuilt(schema, row)),
        Case::Shred { schema, metadata, value, .. } => {
            let row = operations::shredded(schema, metadata, value);
            vec![row.map_or(1, |row| row.len())]
        }
        _ => vec![],
    }
}

/// One input damaged anywhere, with one byte changed, and one byte longer.
fn damaged(case: &Case, at: usize, rng: &mut Rng, trials: &mut Vec<Trial>) {
    let input = parts::inputs(case)[at];
    let mut other = input.clone();
    damage(rng, &mut other);
    trials.push(Trial::new(How::Damaged, with_input(case, at, other)));
    if !input.is_empty() {
        let mut other = input.clone();
        let place = rng.below(other.len());
        other[place] ^= 1 << rng.below(8);
        trials.push(Trial::new(How::Damaged, with_input(case, at, other)));
    }
    let mut other = input.clone();
    other.push(rng.pick(&[0, 1, 0xFF]));
    trials.push(Trial::new(How::Longer, with_input(case, at, other)));
}

/// One input cut, with what was cut off standing behind it.
fn cuts(case: &Case, at: usize, rng: &mut Rng, trials: &mut Vec<Trial>) {
    let input = parts::inputs(case)[at];
    let places: BTreeSet<usize> = match input.len() {
        0 => return,
        length if length <= SHORT => (0..length).collect(),
        length => {
            let any = [rng.below(length), rng.below(length), rng.below(length.min(30))];
            [0, 1, 2, length / 2, length - 1].into_iter().chain(any).collect()
        }
    };
    for place in places {
        let (kept, behind) = input.split_at(place);
        let case = with_input(case, at, kept.to_vec());
        trials.push(Trial {
            how: How::Cut,
            case,
            behind: behind[..behind.len().min(GUARD)].to_vec(),
        });
    }
}

fn with_input(case: &Case, at: usize, bytes: Vec<u8>) -> Case {
    let mut case = case.clone();
    *parts::input_mut(&mut case, at) = bytes;
    case
}

fn with_variant(case: &Case, at: usize, metadata: Vec<u8>, value: Vec<u8>) -> Case {
    with_input(&with_input(case, at, metadata), at + 1, value)
}

fn owned(doc: Doc) -> Made {
    let bytes = |bytes: Bytes| Bytes::from(bytes.into_owned());
    match doc {
        Doc::Null => Doc::Null,
        Doc::Bool(truth) => Doc::Bool(truth),
        Doc::Payload(kind, payload) => Doc::Payload(kind, bytes(payload)),
        Doc::Text(text) => Doc::Text(bytes(text)),
        Doc::Array(items) => Doc::Array(items.into_iter().map(owned).collect()),
        Doc::Object(fields) => {
            let fields = fields.into_iter().map(|(name, item)| (bytes(name), owned(item)));
            Doc::Object(fields.collect())
        }
    }
}

fn owned_node(node: Node) -> MadeNode {
    match node {
        Node::Leftover => Node::Leftover,
        Node::Primitive(code) => Node::Primitive(code),
        Node::List(element) => Node::List(Box::new(owned_node(*element))),
        Node::Object(fields) => {
            let field = |(name, node): (Bytes, _)| (name.into_owned().into(), owned_node(node));
            Node::Object(fields.into_iter().map(field).collect())
        }
    }
}

#[cfg(test)]
mod tests {
    use super::*;
    use second::generate;
    use second::vectors::Op;

    fn trials(op: Op) -> Vec<Trial> {
        let mut rng = Rng::new(5);
        (0..200).flat_map(|_| variations(&generate::case(op, &mut rng), &mut Rng::new(6))).collect()
    }

    fn ways(op: Op) -> BTreeSet<How> {
        trials(op).iter().map(|trial| trial.how).collect()
    }

    #[test]
    fn every_operation_is_varied_in_its_ways() {
        use How::*;
        let always = [Generated, Damaged, Cut, Longer];
        let on = |others: &[How]| always.iter().chain(others).copied().collect::<BTreeSet<_>>();
        assert_eq!(ways(Op::Check), on(&[Good, Odd]));
        assert_eq!(ways(Op::Box), on(&[Good, Odd]));
        assert_eq!(ways(Op::Find), on(&[Good, Odd, Path]));
        assert_eq!(ways(Op::Normalise), on(&[Good, Odd, Rooms]));
        assert_eq!(ways(Op::Shred), on(&[Good, Odd, Schema, Rooms]));
        assert_eq!(ways(Op::Rebuild), on(&[Good, Odd, Harmed, Rooms]));
        assert_eq!(ways(Op::Judge), on(&[Good, Odd, Harmed]));
        assert_eq!(ways(Op::Cell), on(&[Code]));
    }

    #[test]
    fn good_and_odd_ones_mean_what_the_case_means() {
        let mut rng = Rng::new(7);
        for _ in 0..200 {
            let case = generate::case(Op::Check, &mut rng);
            for trial in variations(&case, &mut Rng::new(8)) {
                if matches!(trial.how, How::Good | How::Odd) {
                    let [one, other] = [&case, &trial.case].map(parts::inputs);
                    let made = operations::normalised(one[0], one[1]).map_err(|_| ());
                    assert_eq!(operations::normalised(other[0], other[1]).map_err(|_| ()), made);
                }
            }
        }
    }

    #[test]
    fn rooms_are_exact_short_none_and_ample() {
        let case = Case::parse("normalise 010000 00 0 0").unwrap();
        let mut trials = Vec::new();
        rooms(&case, &mut trials);
        let found: Vec<_> = trials.iter().map(|trial| parts::rooms(&trial.case)).collect();
        for wanted in [[3, 1], [2, 1], [3, 0], [2, 0], [0, 0], [36, 34], [HUGE_ROOM, HUGE_ROOM]] {
            assert!(found.contains(&wanted.to_vec()), "{wanted:?}");
        }
    }

    #[test]
    fn what_is_cut_off_stands_behind() {
        let case = Case::parse("check 010000 0d6e2f61").unwrap();
        let mut trials = Vec::new();
        cuts(&case, 1, &mut Rng::new(9), &mut trials);
        assert_eq!(trials.len(), 4);
        for trial in trials {
            let whole = [parts::inputs(&trial.case)[1].clone(), trial.behind].concat();
            assert_eq!(whole, [0x0D, 0x6E, 0x2F, 0x61]);
        }
    }
}
