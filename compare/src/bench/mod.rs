//! Both programs timed on the same inputs, in one run, by turns.

pub mod rows;
pub mod shapes;

use crate::boundary;
use crate::judge::judge;
use crate::parts;
use second::generate::schemas::{encoded, schema_for};
use second::generate::Rng;
use second::limits;
use second::operations;
use second::vectors::{Case, Op};
use shapes::{middle, shapes, Shape};
use std::hint::black_box;
use std::time::{Duration, Instant};

/// About how long one program runs before it is the other's turn: so short that most turns are over
/// before the machine gives its time to something else.
const TURN: Duration = Duration::from_micros(200);
/// The rounds of a measurement, if no other number is asked for.
pub const ROUNDS: usize = 101;

/// One call that is timed.
pub struct Timed {
    pub shape: String,
    pub case: Case,
}

/// Times the operations and prints a table; false if the two programs differ on what is timed.
pub fn run(ops: &[Op], rounds: usize, tell: &mut dyn FnMut(&str)) -> Result<bool, String> {
    if rounds == 0 {
        return Err("no rounds, no median".to_string());
    }
    let mut worst = Vec::new();
    for &op in ops {
        let (op_name, bytes, library, second) = (op.name(), "bytes", "library ns", "second ns");
        tell(&format!("{op_name:<66} {bytes:>6} {library:>12} {second:>12} {:>7}", "ratio"));
        let mut ratios = Vec::new();
        for Timed { shape, case } in timed(op) {
            if let Err(difference) = judge(&boundary::call, &case, &[]) {
                tell(&format!("DIFFERENCE: {shape}\n{difference}"));
                return Ok(false);
            }
            let Measured { library, second, ratio } = measure(&case, rounds);
            let bytes = length(&case);
            tell(&format!("{shape:<66} {bytes:>6} {library:>12.1} {second:>12.1} {ratio:>7.2}"));
            ratios.push((ratio, format!("{op_name}, {shape}")));
        }
        tell("");
        worst.extend(ratios.into_iter().max_by(|one, other| one.0.total_cmp(&other.0)));
    }
    for (ratio, place) in &worst {
        tell(&format!("{ratio:.2} ({place})"));
    }
    if let Some((ratio, place)) = worst.iter().max_by(|one, other| one.0.total_cmp(&other.0)) {
        tell(&format!("worst ratio library/second: {ratio:.2} ({place})"));
    }
    Ok(true)
}

/// The length of the value, the row or the cell.
fn length(case: &Case) -> usize {
    let inputs = parts::inputs(case);
    let at = parts::metadata_at(case.op()).map_or(inputs.len() - 1, |at| at + 1);
    inputs[at].len()
}

/// The calls of an operation that are timed.
pub fn timed(op: Op) -> Vec<Timed> {
    match op {
        Op::Cell => cells(),
        Op::Judge | Op::Rebuild => {
            // Shredding writes one row for all layouts of a document.
            let documents = shapes().into_iter().filter(|shape| !shape.is_odd());
            documents.filter_map(|shape| on_shape(op, shape)).chain(rows::rows(op)).collect()
        }
        Op::Shred => {
            let documents = shapes().into_iter().filter_map(|shape| on_shape(op, shape));
            documents.chain(rows::documents()).collect()
        }
        _ => shapes().into_iter().filter_map(|shape| on_shape(op, shape)).collect(),
    }
}

fn on_shape(op: Op, Shape { name, doc, metadata, value, .. }: Shape) -> Option<Timed> {
    let rooms = [limits::ROW, limits::VALUE];
    let schema = || encoded(&schema_for(&mut Rng::new(1), &doc));
    let case = match op {
        Op::Check => Case::Check { metadata, value },
        Op::Find => Case::Find { metadata, value, path: middle(&doc) },
        Op::Normalise => Case::Normalise { metadata, value, rooms },
        Op::Shred => Case::Shred { schema: schema(), metadata, value, room: limits::ROW },
        Op::Rebuild | Op::Judge => {
            let schema = schema();
            let row = operations::shredded(&schema, &metadata, &value).ok()?;
            parts::on_row(op, schema, row)?
        }
        Op::Box => Case::Box { metadata, value },
        Op::Cell => return None,
    };
    Some(Timed { shape: name, case })
}

fn cells() -> Vec<Timed> {
    let cell = |shape: &str, code, bytes| Timed {
        shape: shape.to_string(),
        case: Case::Cell { code, bytes },
    };
    vec![
        cell("boolean", 1, vec![1]),
        cell("int8", 3, vec![0x80]),
        cell("int64", 6, vec![0xFF; 8]),
        cell("double", 7, vec![1; 8]),
        cell("string of 16,384 bytes", 16, vec![b's'; limits::CELL]),
        cell("uuid", 20, vec![2; 16]),
        cell("wrong size", 6, vec![2; 7]),
    ]
}

/// Nanoseconds for a call of each program, and how many times as long the library takes: medians of
/// all rounds.
struct Measured {
    library: f64,
    second: f64,
    ratio: f64,
}

/// In each round both programs have a turn. A ratio is that of one round, so that what slows down
/// both for a while does not count.
fn measure(case: &Case, rounds: usize) -> Measured {
    let mut buffers = [vec![0; limits::ROW], vec![0; limits::VALUE]];
    let mut others = buffers.clone();
    let mut library = || library(black_box(case), &mut buffers);
    let mut second = || second(black_box(case), &mut others);
    let calls = [calls_in_a_turn(&mut library), calls_in_a_turn(&mut second)];
    let mut times = [vec![], vec![], vec![]];
    for _ in 0..rounds {
        let library = turn(&mut library, calls[0]).as_nanos() as f64 / calls[0] as f64;
        let second = turn(&mut second, calls[1]).as_nanos() as f64 / calls[1] as f64;
        let round = [library, second, library / second];
        times.iter_mut().zip(round).for_each(|(times, time)| times.push(time));
    }
    let [library, second, ratio] = times.map(median);
    Measured { library, second, ratio }
}

fn turn(side: &mut dyn FnMut() -> u64, calls: usize) -> Duration {
    let start = Instant::now();
    for _ in 0..calls {
        black_box(side());
    }
    start.elapsed()
}

fn calls_in_a_turn(side: &mut dyn FnMut() -> u64) -> usize {
    let mut calls = 1;
    loop {
        let taken = turn(side, calls);
        if taken >= TURN / 4 {
            let wanted = calls as f64 * TURN.as_secs_f64() / taken.as_secs_f64();
            return (wanted as usize).max(1);
        }
        calls *= 2;
    }
}

fn median(mut times: Vec<f64>) -> f64 {
    times.sort_by(f64::total_cmp);
    times[times.len() / 2]
}

/// One call of the library. Of the readers, the call that judges.
#[allow(unused_variables)]
fn library(case: &Case, [first, last]: &mut [Vec<u8>; 2]) -> u64 {
    match case {
        #[cfg(linked = "check")]
        Case::Check { metadata, value } => boundary::check(metadata, value).0,
        #[cfg(linked = "find")]
        Case::Find { metadata, value, path } => boundary::find(metadata, value, path).0,
        #[cfg(linked = "normalise")]
        Case::Normalise { metadata, value, .. } => {
            boundary::normalise(metadata, value, first, last).0
        }
        #[cfg(linked = "shred")]
        Case::Shred { schema, metadata, value, .. } => {
            boundary::shred(schema, metadata, value, first).0
        }
        #[cfg(linked = "rebuild")]
        Case::Rebuild { schema, row, .. } => boundary::rebuild(schema, row, first, last).0,
        #[cfg(linked = "cell")]
        Case::Cell { code, bytes } => boundary::cell(*code, bytes).0,
        #[cfg(linked = "box")]
        Case::Box { metadata, value } => boundary::lot_box(metadata, value).0,
        #[cfg(linked = "judge")]
        Case::Judge { schema, row } => boundary::judge(schema, row).0,
        #[allow(unreachable_patterns)]
        case => panic!("{} is not linked", case.op().name()),
    }
}

/// One call of the second program.
fn second(case: &Case, [first, last]: &mut [Vec<u8>; 2]) -> u64 {
    match case {
        Case::Check { metadata, value } => of(operations::check(metadata, value)),
        Case::Find { metadata, value, path } => of(operations::find(metadata, value, path)),
        Case::Normalise { metadata, value, .. } => {
            of(operations::normalise(metadata, value, first, last))
        }
        Case::Shred { schema, metadata, value, .. } => {
            of(operations::shred(schema, metadata, value, first))
        }
        Case::Rebuild { schema, row, .. } => of(operations::rebuild(schema, row, first, last)),
        Case::Cell { code, bytes } => of(operations::cell(*code, bytes)),
        Case::Box { metadata, value } => of(operations::lot_box(metadata, value)),
        Case::Judge { schema, row } => of(operations::judge(schema, row)),
    }
}

/// All of an answer is made, and a word of it is given.
fn of<T, E>(answer: Result<T, E>) -> u64 {
    u64::from(black_box(&answer).is_ok())
}

#[cfg(test)]
mod tests {
    use super::*;
    use second::operations::answer;

    #[test]
    fn what_is_timed_is_done() {
        for op in Op::ALL {
            let all = timed(op);
            assert!(all.len() > 5, "{}", op.name());
            for Timed { shape, case } in all {
                let is_refused = shape.contains("wrong size") || shape.contains("refused");
                assert_eq!(answer(&case).number() != 0, is_refused, "{}, {shape}", op.name());
            }
        }
    }

    #[test]
    fn the_median_is_the_middle_one() {
        assert_eq!(median(vec![9.0, 1.0, 2.0]), 2.0);
    }
}
