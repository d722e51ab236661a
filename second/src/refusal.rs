//! "When the register says no": the refusals and their numbers.

/// Something breaks its own rules. Which number that is depends on the input it came from.
#[derive(Clone, Copy, Debug, PartialEq, Eq)]
pub struct Broken;

/// The rules that a row may parse and still break.
#[derive(Clone, Copy, Debug, PartialEq, Eq, PartialOrd, Ord)]
pub enum Rule {
    /// Both fields, node not an object.
    A,
    /// Both fields, leftover not an object.
    B,
    /// Both fields, leftover has a name that the node names.
    C,
    /// No typed field, leftover is the container that the node would type.
    D,
    /// An empty list element.
    E,
    /// A schema field present whose name is not in the row's dictionary.
    F,
}

/// The lengths that an answer would write; the second is 0 where there is one buffer only.
pub type Lengths = [usize; 2];

/// A refusal; `number` gives the statement's number.
#[derive(Clone, Copy, Debug, PartialEq, Eq)]
pub enum Refusal {
    /// 1: an input is longer than a register may hold.
    TooLong,
    /// 2: lent metadata breaks its rules.
    Metadata,
    /// 3: lent value breaks its rules under that metadata.
    Value,
    /// 4: schema, or a cell's type code, breaks its rules.
    Schema,
    /// 5: path breaks its rules.
    Path,
    /// 6: a row does not parse, or a cell has the wrong size or content.
    Row,
    /// 7: a row parses but breaks a rule; the first one met.
    Rule(Rule),
    /// 8: the normal value, or the row to be written, is too large.
    TooLarge,
    /// 9: an output buffer is too short; the lengths needed.
    Room(Lengths),
}

impl Refusal {
    /// The statement's number.
    pub fn number(&self) -> u8 {
        match self {
            Refusal::TooLong => 1,
            Refusal::Metadata => 2,
            Refusal::Value => 3,
            Refusal::Schema => 4,
            Refusal::Path => 5,
            Refusal::Row => 6,
            Refusal::Rule(_) => 7,
            Refusal::TooLarge => 8,
            Refusal::Room(_) => 9,
        }
    }
}
