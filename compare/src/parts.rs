//! The parts of a case, whatever its operation: its inputs in order, and its rooms.

use second::limits;
use second::vectors::{Case, Op};

/// The limits of an operation's inputs, in order.
pub fn input_limits(op: Op) -> &'static [usize] {
    match op {
        Op::Check | Op::Normalise | Op::Box => &[limits::METADATA, limits::VALUE],
        Op::Find => &[limits::METADATA, limits::VALUE, limits::PATH],
        Op::Shred => &[limits::SCHEMA, limits::METADATA, limits::VALUE],
        Op::Rebuild | Op::Judge => &[limits::SCHEMA, limits::ROW],
        Op::Cell => &[limits::CELL],
    }
}

/// The inputs.
pub fn inputs(case: &Case) -> Vec<&Vec<u8>> {
    match case {
        Case::Check { metadata, value }
        | Case::Normalise { metadata, value, .. }
        | Case::Box { metadata, value } => vec![metadata, value],
        Case::Find { metadata, value, path } => vec![metadata, value, path],
        Case::Shred { schema, metadata, value, .. } => vec![schema, metadata, value],
        Case::Rebuild { schema, row, .. } | Case::Judge { schema, row } => vec![schema, row],
        Case::Cell { bytes, .. } => vec![bytes],
    }
}

/// One input, to be changed.
pub fn input_mut(case: &mut Case, at: usize) -> &mut Vec<u8> {
    match (case, at) {
        (Case::Check { metadata, .. }, 0)
        | (Case::Normalise { metadata, .. }, 0)
        | (Case::Box { metadata, .. }, 0)
        | (Case::Find { metadata, .. }, 0)
        | (Case::Shred { metadata, .. }, 1) => metadata,
        (Case::Check { value, .. }, 1)
        | (Case::Normalise { value, .. }, 1)
        | (Case::Box { value, .. }, 1)
        | (Case::Find { value, .. }, 1)
        | (Case::Shred { value, .. }, 2) => value,
        (Case::Find { path, .. }, 2) => path,
        (Case::Shred { schema, .. }, 0)
        | (Case::Rebuild { schema, .. }, 0)
        | (Case::Judge { schema, .. }, 0) => schema,
        (Case::Rebuild { row, .. }, 1) | (Case::Judge { row, .. }, 1) => row,
        (Case::Cell { bytes, .. }, 0) => bytes,
        (case, at) => panic!("{} has no input {at}", case.op().name()),
    }
}

/// The lengths of the output buffers.
pub fn rooms(case: &Case) -> Vec<usize> {
    match case {
        Case::Normalise { rooms, .. } | Case::Rebuild { rooms, .. } => rooms.to_vec(),
        Case::Shred { room, .. } => vec![*room],
        _ => vec![],
    }
}

/// The same case with other rooms.
pub fn with_rooms(case: &Case, wanted: &[usize]) -> Case {
    let mut case = case.clone();
    match &mut case {
        Case::Normalise { rooms, .. } | Case::Rebuild { rooms, .. } => {
            rooms.copy_from_slice(wanted);
        }
        Case::Shred { room, .. } => *room = wanted[0],
        _ => {}
    }
    case
}

/// The code of a cell; 0 for other operations.
pub fn code(case: &Case) -> u8 {
    match case {
        Case::Cell { code, .. } => *code,
        _ => 0,
    }
}

/// Where metadata and then value are among the inputs, where there is a Variant.
pub fn metadata_at(op: Op) -> Option<usize> {
    match op {
        Op::Check | Op::Find | Op::Normalise | Op::Box => Some(0),
        Op::Shred => Some(1),
        Op::Rebuild | Op::Cell | Op::Judge => None,
    }
}

/// Whether the inputs are a schema and then a row.
pub fn has_row(op: Op) -> bool {
    matches!(op, Op::Rebuild | Op::Judge)
}

/// A case of an operation on a row, with ample rooms. None where the operation takes no row.
pub fn on_row(op: Op, schema: Vec<u8>, row: Vec<u8>) -> Option<Case> {
    Some(match op {
        Op::Rebuild => Case::Rebuild { schema, row, rooms: [20_000, 20_000] },
        Op::Judge => Case::Judge { schema, row },
        _ => return None,
    })
}

/// A case of an operation on a Variant: an empty path, a leftover schema, ample rooms. None where
/// the operation takes no Variant.
pub fn on_variant(op: Op, metadata: &[u8], value: &[u8]) -> Option<Case> {
    let (metadata, value) = (metadata.to_vec(), value.to_vec());
    Some(match op {
        Op::Check => Case::Check { metadata, value },
        Op::Find => Case::Find { metadata, value, path: vec![] },
        Op::Normalise => Case::Normalise { metadata, value, rooms: [300, 300] },
        Op::Shred => Case::Shred { schema: vec![0, 0, 0], metadata, value, room: 600 },
        Op::Box => Case::Box { metadata, value },
        Op::Rebuild | Op::Cell | Op::Judge => return None,
    })
}

#[cfg(test)]
mod tests {
    use super::*;
    use second::generate::{self, Rng};

    #[test]
    fn an_input_changes_alone() {
        for op in Op::ALL {
            let case = generate::case(op, &mut Rng::new(1));
            assert_eq!(inputs(&case).len(), input_limits(op).len());
            for at in 0..inputs(&case).len() {
                let mut other = case.clone();
                input_mut(&mut other, at).push(7);
                for (index, (before, after)) in
                    inputs(&case).into_iter().zip(inputs(&other)).enumerate()
                {
                    assert_eq!(before == after, index != at);
                }
            }
        }
    }

    #[test]
    fn rooms_change_alone() {
        for op in Op::ALL {
            let case = generate::case(op, &mut Rng::new(2));
            let wanted: Vec<usize> = rooms(&case).iter().map(|room| room + 3).collect();
            let other = with_rooms(&case, &wanted);
            assert_eq!(rooms(&other), wanted);
            assert_eq!(with_rooms(&other, &rooms(&case)), case);
        }
    }
}
