//! Tables to time, and how calls are timed: what the programs share that
//! measure the archive for C.

use crate::generate::heavy::Shape;
use crate::limits::{BYTE_LIMIT, TYPE_LIMIT};
use std::time::Instant;

/// Runs of each call; a run repeats a short call until it takes so long.
const MOST_RUNS: usize = 101;
const LEAST_NS: f64 = 50_000.0;
/// Calls that take turns have fewer runs where they would all take longer than
/// this, since some tables take a second for each.
const ALL_NS: f64 = 4e9;
const FEWEST_RUNS: usize = 5;

/// The same in words.
pub fn runs_in_words() -> String {
    format!(
        "A time is the median of {MOST_RUNS} runs, or of as many as make a row take {} s, but of {FEWEST_RUNS} at least; \
         a run repeats a short call until it takes {} µs.",
        ALL_NS / 1e9,
        LEAST_NS / 1e3
    )
}

/// A table, and two tables of its kind to join.
pub struct Subject {
    pub title: &'static str,
    pub blob: Vec<u8>,
    pub pair: (Vec<u8>, Vec<u8>),
    pub pair_title: &'static str,
}

/// A shape at this length. Its halves have 25 bytes in common, so that they
/// are joined to a table of this length or a byte less.
pub fn shaped(shape: &Shape, bytes: usize) -> Subject {
    let half = (bytes + 25) / 2;
    Subject {
        title: shape.title,
        blob: shape.blob(bytes),
        pair: (shape.blob(half), shape.blob(half)),
        pair_title: shape.title,
    }
}

/// The compiler's tables of example/.
pub fn example() -> Subject {
    let a = include_bytes!(concat!(
        env!("CARGO_MANIFEST_DIR"),
        "/../example/supplier_a.btf"
    ));
    let b = include_bytes!(concat!(
        env!("CARGO_MANIFEST_DIR"),
        "/../example/supplier_b.btf"
    ));
    Subject {
        title: "example/supplier_a.btf",
        blob: a.to_vec(),
        pair: (a.to_vec(), b.to_vec()),
        pair_title: "example/supplier_a.btf and supplier_b.btf",
    }
}

/// The median time of each call in nanoseconds. The calls take turns, so that
/// what else the machine does falls on all of them alike.
pub fn medians<const N: usize>(mut calls: [&mut dyn FnMut(); N]) -> [f64; N] {
    let once: Vec<f64> = calls
        .iter_mut()
        .map(|call| time(call, 1).min(time(call, 1)).max(1.0))
        .collect();
    let repeats: Vec<usize> = once
        .iter()
        .map(|once| (LEAST_NS / once).ceil() as usize)
        .collect();
    let turn: f64 = once.iter().map(|once| once.max(LEAST_NS)).sum();
    let runs = ((ALL_NS / turn) as usize).clamp(FEWEST_RUNS, MOST_RUNS);
    let mut times = [(); N].map(|()| Vec::new());
    for _ in 0..runs {
        for (at, call) in calls.iter_mut().enumerate() {
            times[at].push(time(call, repeats[at]));
        }
    }
    times.map(|mut of_call| {
        of_call.sort_by(f64::total_cmp);
        of_call[runs / 2]
    })
}

fn time(call: &mut dyn FnMut(), repeats: usize) -> f64 {
    let start = Instant::now();
    for _ in 0..repeats {
        call();
    }
    start.elapsed().as_nanos() as f64 / repeats as f64
}

/// What a call is lent.
pub struct Lent {
    pub index: Vec<u32>,
    pub work: Vec<u32>,
    pub out: Vec<u8>,
    pub answer: [u32; 4],
}

/// An output of so many bytes, and as many places as such a table may have
/// types, at the ratio of the limits, and one more.
pub fn lent(bytes: usize) -> Lent {
    let places = bytes / (BYTE_LIMIT / TYPE_LIMIT) as usize + 1;
    Lent {
        index: vec![0; places],
        work: vec![0; places],
        out: vec![0; bytes],
        answer: [0; 4],
    }
}

/// Three digits, or all before the point.
pub fn figure(number: f64) -> String {
    match number {
        n if n >= 100.0 => grouped(n.round() as usize),
        n if n >= 10.0 => format!("{n:.1}"),
        n if n >= 1.0 => format!("{n:.2}"),
        n => format!("{n:.3}"),
    }
}

/// With commas, as the papers write numbers.
pub fn grouped(number: usize) -> String {
    let digits = number.to_string();
    let mut text = String::new();
    for (at, digit) in digits.chars().enumerate() {
        if at > 0 && (digits.len() - at) % 3 == 0 {
            text.push(',');
        }
        text.push(digit);
    }
    text
}
