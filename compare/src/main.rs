//! The command line of the comparison.

use compare::judge::Program;
use compare::loan::Loan;
use compare::{bench, boundary, run, vectors};
use second::vectors::Op;
use std::process::ExitCode;

const USAGE: &str = "usage:
  compare run --count N --seed S [--op OP] [--trace]
  compare vectors FILE
  compare bench [--op OP] [--rounds R]";

/// Whether all was well, or what hindered the program.
type Done = Result<bool, String>;

fn main() -> ExitCode {
    let args: Vec<String> = std::env::args().skip(1).collect();
    let words: Vec<&str> = args.iter().map(String::as_str).collect();
    let done = match words.as_slice() {
        ["run", options @ ..] => run_cases(options),
        ["vectors", file] => run_vectors(file),
        ["bench", options @ ..] => run_bench(options),
        _ => Err(USAGE.to_string()),
    };
    match done {
        Ok(true) => ExitCode::SUCCESS,
        Ok(false) => ExitCode::from(1),
        Err(message) => {
            eprintln!("{message}");
            ExitCode::from(2)
        }
    }
}

/// What a command is asked for.
struct Asked {
    ops: Vec<Op>,
    count: usize,
    seed: u64,
    rounds: usize,
    /// Whether each case is written down before it is called: the last one is where a call died.
    trace: bool,
}

/// Reads options, of which only some are known to a command.
fn asked(options: &[&str], known: &[&str]) -> Result<Asked, String> {
    let mut asked = Asked {
        ops: boundary::operations(),
        count: 1000,
        seed: 1,
        rounds: bench::ROUNDS,
        trace: false,
    };
    let mut words = options.iter();
    while let Some(&word) = words.next() {
        if !known.contains(&word) {
            return Err(USAGE.to_string());
        }
        if word == "--trace" {
            asked.trace = true;
            continue;
        }
        let argument = words.next().ok_or(USAGE)?;
        match word {
            "--op" => asked.ops = vec![existing(argument)?],
            "--count" => asked.count = argument.parse().map_err(|_| USAGE)?,
            "--seed" => asked.seed = argument.parse().map_err(|_| USAGE)?,
            _ => asked.rounds = argument.parse().map_err(|_| USAGE)?,
        }
    }
    if asked.ops.is_empty() {
        println!("no feature of an operation is on: nothing to compare");
    }
    Ok(asked)
}

fn existing(name: &str) -> Result<Op, String> {
    let op = Op::named(name).ok_or_else(|| format!("no operation: {name}"))?;
    match boundary::exists(op) {
        true => Ok(op),
        false => Err(format!("{name} is not compared: its feature is off")),
    }
}

fn tell(text: &str) {
    println!("{text}");
}

fn run_cases(options: &[&str]) -> Done {
    let known = ["--op", "--count", "--seed", "--trace"];
    let Asked { ops, count, seed, trace, .. } = asked(options, &known)?;
    let program: &Program = if trace { &traced } else { &boundary::call };
    let mut differences = 0;
    for op in ops {
        differences += run::run(program, op, count, seed, &mut tell).differences;
    }
    Ok(differences == 0)
}

/// The library, with each case told before it is called.
fn traced(loan: &mut Loan) -> Vec<u64> {
    eprintln!("{}", loan.line());
    boundary::call(loan)
}

fn run_vectors(file: &str) -> Done {
    let text = std::fs::read_to_string(file).map_err(|error| format!("{file}: {error}"))?;
    vectors::run(&boundary::call, &boundary::exists, &text, &mut tell)
}

fn run_bench(options: &[&str]) -> Done {
    let Asked { ops, rounds, .. } = asked(options, &["--op", "--rounds"])?;
    if !ops.is_empty() && !boundary::IS_LINKED {
        return Err(format!(
            "no timings: on this machine ({}) the library runs under an emulator, whose times say \
             nothing; `make bench` compiles it for this machine",
            std::env::consts::ARCH
        ));
    }
    if cfg!(debug_assertions) {
        return Err("the timings of a debug build say nothing: build with --release".to_string());
    }
    bench::run(&ops, rounds, &mut tell)
}
