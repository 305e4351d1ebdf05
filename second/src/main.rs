//! The command line of the second implementation of paper 01.
//!
//!     second vectors --seed S --cases N [--ops 1,2,3] [--small|--long] [--only R]
//!     second antt    --seed S --cases N [--ops 1,2,3] [--only R] [--each]
//!     second census  --seed S --cases N [--ops 1,2,3] [--small|--long]
//!     second check FILE [MODULE]
//!     second changed FILE
//!     second ordinary --seed S --cases N [--small|--long]
//!
//! With `--edges` the first three put the fixed cases of every rule's edges in
//! front; without a count, those are all, and with `--part NAME` one part of
//! them, with `--part NAME-turned` the same in the other byte order. `--large`
//! puts the fixed large tables before them, `--names` every byte at every place
//! of a name. With `--thin` fewer of the edges and the large are crossed with
//! each other. A seed's cases are of both orders and mostly small, with some at
//! the limits; with `--small` no limit is reached, with `--long` checks, joins,
//! members, pairs, joins taken apart, lists and sections are of long tables only.
//!
//! Without `--ops` there are cases of ops 1 to 4. Op 5, a member of a record, is
//! had with `--ops 5`, or with `--members N` behind all others: its edges and
//! large tables where those are asked for, and N of the seed's. Ops 9 to 11, a
//! module's table on its base, are had with `--ops 9,10,11`, or likewise with
//! `--leaning N` behind those, N of the seed's for each of the three; op 6, a
//! join taken apart, with `--ops 6`, or with `--apart N` behind all of these;
//! ops 7 and 8, a list read and a list written, with `--ops 7,8`, or with
//! `--listed N` behind those, N of the seed's for each of the two; ops 12 and 13,
//! a .BTF.ext section and a record of one, with `--ops 12,13`, or likewise with
//! `--ext N` behind everything.
//! `antt` has no op 5, ops 6 to 8, 12 and 13 with `--ops` alone, and without `--ops` the edges of ops 9 to 11 behind the others.
//!
//! `ordinary` has checks only, and compares both ordinary checkers with this
//! implementation; its last line is `N agreed, 0 differed`, or it is red.

use second::census::Census;
use second::changed::changed;
use second::generate::{cases_then, Behind, Scale, Wanted};
use second::limits::FULL_PLACES;
use second::report::meaning;
use second::vectors::{self, run, Case, OPS};
use second::{yardstick, LeaningRefusal, Report};
use std::io::Write;
use std::process::ExitCode;

const USAGE: &str = "\
second vectors --seed S --cases N [--ops 1,2,3] [--small|--long] [--only R]
second antt    --seed S --cases N [--ops 1,2,3] [--only R] [--each]
second census  --seed S --cases N [--ops 1,2,3] [--small|--long]
second check FILE [MODULE]
second changed FILE
second ordinary --seed S --cases N [--small|--long]
(ops are 1 to 13, without --ops 1 to 4; --members N: behind all, those of op 5, with N of the seed's;
--leaning N: behind those, ops 9 to 11, with N of the seed's of each; --apart N: behind those, op 6, with N of the seed's;
--listed N: behind those, ops 7 and 8, with N of the seed's of each; --ext N: behind those, ops 12 and 13, likewise;
--edges: the fixed cases of every rule's edges in front, and nothing else without --cases;
--part NAME: one part of them, NAME-turned: in the other byte order; --each: each case in a list of its own;
--large: the fixed large tables before them; --thin: fewer of both crossed with each other;
--names: every byte at every place of a name before the edges;
--small: no limit is reached; --long: checks, joins, members, pairs, joins taken apart, lists and sections of long tables only)";

fn main() -> ExitCode {
    let arguments: Vec<String> = std::env::args().skip(1).collect();
    match act(&arguments) {
        Ok(bytes) => match std::io::stdout().write_all(&bytes) {
            Ok(()) => ExitCode::SUCCESS,
            Err(_) => ExitCode::FAILURE,
        },
        Err(message) => {
            eprintln!("{message}");
            ExitCode::FAILURE
        }
    }
}

fn act(arguments: &[String]) -> Result<Vec<u8>, String> {
    let (command, rest) = arguments.split_first().ok_or(USAGE)?;
    match command.as_str() {
        "vectors" => Ok(vectors::file(&all_cases(rest)?)),
        "antt" => antt(rest),
        "census" => Ok(census(&all_cases(rest)?).into_bytes()),
        "check" => judge_files(rest),
        "changed" => changed_answers(rest.first().ok_or(USAGE)?),
        "ordinary" => yardstick::compare_all(&wanted(rest)?).map(String::into_bytes),
        _ => Err(USAGE.to_string()),
    }
}

/// Those that the words ask for; `--members`, `--leaning`, `--apart`, `--listed`,
/// `--ext` and their counts are taken out first.
fn all_cases(arguments: &[String]) -> Result<Vec<Case>, String> {
    let mut rest = arguments.to_vec();
    let mut behind = Vec::new();
    for (word, ops) in BEHIND {
        if let Some(at) = rest.iter().position(|other| other == word) {
            let count = rest.get(at + 1).and_then(|word| word.parse().ok());
            behind.push(ops(count.ok_or(USAGE)?));
            rest.drain(at..at + 2);
        }
    }
    Ok(cases_then(wanted(&rest)?, &behind))
}

type Ops = fn(usize) -> Behind;

/// What stands behind all others, in this order.
const BEHIND: [(&str, Ops); 5] = [
    ("--members", Behind::members),
    ("--leaning", Behind::leaning),
    ("--apart", Behind::apart),
    ("--listed", Behind::listed),
    ("--ext", Behind::ext),
];

/// Cases as text, in lists of 25, or with `--each` each by itself. The part
/// `limits` is those that the text builds itself.
fn antt(arguments: &[String]) -> Result<Vec<u8>, String> {
    let (each, rest): (Vec<String>, Vec<String>) =
        arguments.iter().cloned().partition(|word| word == "--each");
    let wanted = Wanted {
        scale: Scale::Tiny,
        ..wanted(&rest)?
    };
    if !wanted.ops.iter().all(|op| second::antt::has(*op)) {
        return Err("antt has ops 1 to 4 and 6 to 13".to_string());
    }
    // The edges of a pair are always with those of the ops of before.
    let without_ops = !rest.contains(&"--ops".to_string());
    let behind: &[Behind] = if without_ops {
        &[Behind::leaning(0)]
    } else {
        &[]
    };
    let in_a_list = if each.is_empty() { 25 } else { 1 };
    let with_limits = wanted.part.as_deref().is_none_or(|part| part == "limits");
    let found = cases_then(wanted, behind);
    Ok(second::antt::file(&found, in_a_list, with_limits).into_bytes())
}

fn wanted(arguments: &[String]) -> Result<Wanted, String> {
    let mut wanted = Wanted::default();
    let mut count = None;
    let mut rest = arguments.iter();
    while let Some(argument) = rest.next() {
        if is_flag(&mut wanted, argument) {
            continue;
        }
        let value = rest.next().ok_or(USAGE)?;
        if argument == "--part" {
            wanted.part = Some(value.clone());
            continue;
        }
        let numbers: Result<Vec<u64>, _> = value.split(',').map(str::parse).collect();
        let numbers = numbers.map_err(|_| format!("not a number: {value}"))?;
        match argument.as_str() {
            "--seed" => wanted.seed = numbers[0],
            "--cases" => count = Some(numbers[0] as usize),
            "--only" => wanted.only = Some(numbers[0] as u32),
            "--ops" => wanted.ops = numbers.iter().map(|op| *op as u32).collect(),
            _ => return Err(USAGE.to_string()),
        }
    }
    let fixed = wanted.edges || wanted.large || wanted.names;
    wanted.cases = count.unwrap_or(if fixed { 0 } else { 100 });
    if wanted.ops.is_empty() || !wanted.ops.iter().all(|op| OPS.contains(op)) {
        return Err("ops are 1 to 13".to_string());
    }
    Ok(wanted)
}

/// A word that stands by itself, and what it asks for.
fn is_flag(wanted: &mut Wanted, argument: &str) -> bool {
    match argument {
        "--small" => wanted.scale = Scale::Small,
        "--long" => wanted.scale = Scale::Long,
        "--edges" => wanted.edges = true,
        "--thin" => wanted.thin = true,
        "--large" => wanted.large = true,
        "--names" => wanted.names = true,
        _ => return false,
    }
    true
}

/// How many cases there are of each op and answer.
fn census(cases: &[Case]) -> String {
    let mut census = Census::default();
    for case in cases {
        census.add(case.op, &run(case));
    }
    census.text()
}

fn read(path: &str) -> Result<Vec<u8>, String> {
    std::fs::read(path).map_err(|error| format!("{path}: {error}"))
}

/// Which answers of a vector file are others by now.
fn changed_answers(path: &str) -> Result<Vec<u8>, String> {
    match changed(&read(path)?) {
        Ok(text) => Ok(text.into_bytes()),
        Err(case) => Err(format!("{path}: cut short at case {case}")),
    }
}

/// One line on the blob in a file, or on a module's table on that base.
fn judge_files(paths: &[String]) -> Result<Vec<u8>, String> {
    let blob = read(paths.first().ok_or(USAGE)?)?;
    let mut index = vec![0; FULL_PLACES as usize];
    let mut work = vec![0; FULL_PLACES as usize];
    let line = match paths.get(1) {
        None => in_words(second::check(&blob, &mut index, &mut work)),
        Some(path) => {
            let module = read(path)?;
            match second::check_leaning(&blob, &module, &mut index, &mut work) {
                Err(LeaningRefusal::Base(report)) => {
                    format!("the base is {}", in_words(Err(report)))
                }
                Err(LeaningRefusal::OrdersDiffer) => in_words(Err(Report::bare(26))),
                Err(LeaningRefusal::Module(report)) => in_words(Err(report)),
                Ok(count) => in_words(Ok(count)),
            }
        }
    };
    Ok(line.into_bytes())
}

fn in_words(answer: Result<u32, Report>) -> String {
    match answer {
        Ok(1) => "accepted, 1 type\n".to_string(),
        Ok(count) => format!("accepted, {count} types\n"),
        Err(report) => {
            let what = meaning(report.number);
            let at = match report.type_number {
                0 => String::new(),
                number => format!(", at type {number}, byte {}", report.place),
            };
            format!("refused, report {}: {what}{at}\n", report.number)
        }
    }
}
