//! The command line of the second program.

use second::generate::{self, Rng};
use second::operations::answer;
use second::published;
use second::refusal::{Refusal, Rule};
use second::vectors::{right_side, Answer, Case, Op};
use std::collections::BTreeMap;
use std::io::{self, BufRead, BufWriter, Write};
use std::path::Path;
use std::process::ExitCode;

const USAGE: &str = "usage:
  second answer < CASES
  second check-vectors FILE
  second cases --op OP --count N --seed S [--stats]
  second published DIR
  second make-published LIST DIR";

/// Whether all was well, or what hindered the program.
type Done = Result<bool, String>;

fn main() -> ExitCode {
    let args: Vec<String> = std::env::args().skip(1).collect();
    let words: Vec<&str> = args.iter().map(String::as_str).collect();
    let done = match words.as_slice() {
        ["answer"] => answer_lines(),
        ["check-vectors", file] => check_vectors(file),
        ["cases", options @ ..] => cases(options),
        ["published", dir] => published::run(Path::new(dir)),
        ["make-published", list, dir] => published::make(Path::new(list), Path::new(dir)),
        _ => Err(USAGE.to_string()),
    };
    match done {
        Ok(true) => ExitCode::SUCCESS,
        Ok(false) => ExitCode::from(1),
        Err(message) => {
            eprintln!("{message}");
            ExitCode::from(2)
        }
    }
}

/// Writes the right side of each line read.
fn answer_lines() -> Done {
    let mut out = BufWriter::new(io::stdout().lock());
    for line in io::stdin().lock().lines() {
        let case = Case::parse(&line.map_err(told)?)?;
        writeln!(out, "{}", answer(&case)).map_err(told)?;
    }
    out.flush().map_err(told)?;
    Ok(true)
}

/// Compares with the right sides of a file.
fn check_vectors(file: &str) -> Done {
    let text = std::fs::read_to_string(file).map_err(|error| format!("{file}: {error}"))?;
    let mut counts = BTreeMap::new();
    let mut differing = 0;
    for line in text.lines() {
        let case = Case::parse(line)?;
        let expected = right_side(line).ok_or_else(|| format!("no answer in: {line:.60}"))?;
        let found = answer(&case).to_string();
        let (agreed, all) = counts.entry(case.op()).or_insert((0, 0));
        *all += 1;
        if found == expected {
            *agreed += 1;
            continue;
        }
        differing += 1;
        if differing <= 20 {
            println!("{}\n  expected {expected}\n  found    {found}", case.line());
        }
    }
    for (op, (agreed, all)) in counts {
        println!("{}: {agreed} of {all} agree", op.name());
    }
    Ok(differing == 0)
}

/// What `cases` is asked for.
struct Asked {
    ops: Vec<Op>,
    count: usize,
    seed: u64,
    stats: bool,
}

fn asked(options: &[&str]) -> Option<Asked> {
    let mut asked = Asked { ops: Op::ALL.to_vec(), count: 100, seed: 1, stats: false };
    let mut words = options.iter();
    while let Some(&word) = words.next() {
        match word {
            "--stats" => asked.stats = true,
            "--op" => match *words.next()? {
                "all" => asked.ops = Op::ALL.to_vec(),
                name => asked.ops = vec![Op::named(name)?],
            },
            "--count" => asked.count = words.next()?.parse().ok()?,
            "--seed" => asked.seed = words.next()?.parse().ok()?,
            _ => return None,
        }
    }
    Some(asked)
}

/// Writes generated cases with their answers, or counts them by number.
fn cases(options: &[&str]) -> Done {
    let Asked { ops, count, seed, stats } = asked(options).ok_or(USAGE)?;
    let mut out = BufWriter::new(io::stdout().lock());
    for op in ops {
        let mut rng = Rng::new(seed);
        let mut counts: BTreeMap<String, usize> = BTreeMap::new();
        for _ in 0..count {
            let case = generate::case(op, &mut rng);
            let found = answer(&case);
            if stats {
                *counts.entry(class(&found)).or_default() += 1;
            } else {
                writeln!(out, "{} | {found}", case.line()).map_err(told)?;
            }
        }
        if stats {
            writeln!(out, "{}: {}", op.name(), shares(&counts, count)).map_err(told)?;
        }
    }
    out.flush().map_err(told)?;
    Ok(true)
}

/// How many answers there are of each class, and how many of a hundred.
fn shares(counts: &BTreeMap<String, usize>, all: usize) -> String {
    let share = |(class, &count): (&String, &usize)| {
        format!("{class}: {count} ({:.1} %)", 100.0 * count as f64 / all as f64)
    };
    counts.iter().map(share).collect::<Vec<_>>().join(", ")
}

/// The number of an answer; absent and the broken rule are told apart.
fn class(answer: &Answer) -> String {
    match answer {
        Answer::Find(Ok(None)) | Answer::Box(Ok(None)) => "0 absent".to_string(),
        Answer::Rebuild(Err(Refusal::Rule(rule))) | Answer::Judge(Err(Refusal::Rule(rule))) => {
            format!("7{}", letter(*rule))
        }
        _ => answer.number().to_string(),
    }
}

fn letter(rule: Rule) -> char {
    match rule {
        Rule::A => 'a',
        Rule::B => 'b',
        Rule::C => 'c',
        Rule::D => 'd',
        Rule::E => 'e',
        Rule::F => 'f',
    }
}

fn told(error: io::Error) -> String {
    error.to_string()
}
