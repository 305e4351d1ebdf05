//! A vector file that was made before the rules moved: which of its answers
//! the rules in force change.

use crate::census::in_words;
use crate::vectors::{numbers_of, places, run, Case};
use std::collections::BTreeMap;

/// What the seven numbers of an answer are, as the file's form names them.
const NUMBERS: [&str; 7] = [
    "number",
    "inner",
    "t",
    "p",
    "index sum",
    "work sum",
    "output sum",
];

/// A line for each op with its answer then and now, then one for all; or the
/// number of the case at which the file ends too early.
pub fn changed(file: &[u8]) -> Result<String, usize> {
    let head = file.get(..12).ok_or(0usize)?;
    let count = places(head)[2] as usize;
    let mut rest = &file[12..];
    let mut counts: BTreeMap<(String, String), usize> = BTreeMap::new();
    for number in 1..=count {
        let (case, then) = take_case(&mut rest).ok_or(number)?;
        let now = numbers_of(&run(&case));
        if then != now {
            let pair = (
                in_words(case.op, then[0], then[1]),
                answer_now(case.op, &then, &now),
            );
            *counts.entry(pair).or_default() += 1;
        }
    }
    let mut text = String::new();
    for ((then, now), many) in &counts {
        text += &format!("{many:6}  {then} -> {now}\n");
    }
    let all: usize = counts.values().sum();
    Ok(text + &format!("{all} of {count} answers changed\n"))
}

/// An answer that reads as before is told with the numbers that differ.
fn answer_now(op: u32, then: &[u32], now: &[u32]) -> String {
    let words = in_words(op, now[0], now[1]);
    if then[..2] != now[..2] {
        return words;
    }
    let differ = (0..NUMBERS.len()).filter(|at| then[*at] != now[*at]);
    let names: Vec<&str> = differ.map(|at| NUMBERS[at]).collect();
    format!("{words}, another {}", names.join(", "))
}

/// A case and its seven numbers, taken off the front of a file.
fn take_case(rest: &mut &[u8]) -> Option<(Case, Vec<u32>)> {
    let first = places(take(rest, 32)?);
    let case = Case {
        op: first[0],
        index_places: first[1],
        work_places: first[2],
        output_bytes: first[3],
        x: first[4],
        y: first[5],
        a: take(rest, first[6] as usize)?.to_vec(),
        b: take(rest, first[7] as usize)?.to_vec(),
    };
    Some((case, places(take(rest, 28)?)))
}

fn take<'a>(rest: &mut &'a [u8], length: usize) -> Option<&'a [u8]> {
    let (taken, left) = rest.split_at_checked(length)?;
    *rest = left;
    Some(taken)
}
