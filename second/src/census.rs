//! How many cases there are of each op and answer.

use crate::vectors::{Seen, APART, CHECK, EXT, EXT_RECORD, JOIN};
use crate::vectors::{
    LEANING, LEANING_NAME, LEANING_SIZE, LIST_READ, LIST_WRITTEN, MEMBER, NAME, SIZE,
};
use std::collections::BTreeMap;

#[derive(Default)]
pub struct Census {
    counts: BTreeMap<(u32, u32, u32), usize>,
}

impl Census {
    pub fn add(&mut self, op: u32, seen: &Seen) {
        *self
            .counts
            .entry((op, seen.number, seen.inner))
            .or_default() += 1;
    }

    /// How many cases of an op there are, with this number or with any.
    pub fn count(&self, op: u32, number: Option<u32>) -> usize {
        let fits = |key: &(u32, u32, u32)| key.0 == op && number.is_none_or(|n| n == key.1);
        let found = self.counts.iter().filter(|(key, _)| fits(key));
        found.map(|(_, count)| count).sum()
    }

    /// A line for each op and answer, then one for all.
    pub fn text(&self) -> String {
        let mut text = String::new();
        for ((op, number, inner), count) in &self.counts {
            text += &format!("{count:6}  {}\n", in_words(*op, *number, *inner));
        }
        let all: usize = self.counts.values().sum();
        text + &format!("{all:6}  cases\n")
    }
}

/// What the size question answers by the numbers 0 to 2.
const SIZES: [&str; 3] = ["exact", "no size", "overflow"];

/// An op and its answer: the number, and the one inside.
pub fn in_words(op: u32, number: u32, inner: u32) -> String {
    let (call, answer) = match (op, number) {
        (CHECK, 0) => ("check", "accepted"),
        (LEANING, 0) => ("leaning check", "accepted"),
        (SIZE, 0..=2) => ("size", SIZES[number as usize]),
        (LEANING_SIZE, 0..=2) => ("leaning size", SIZES[number as usize]),
        (NAME, 0) => ("name", "part of the blob"),
        (NAME, _) => ("name", "no name there"),
        (JOIN, 0) => ("join", "joined"),
        (APART, 0) => ("apart", "both tables"),
        (LIST_READ, 0) => ("list read", "table"),
        (LIST_WRITTEN, 0) => ("list written", "list"),
        (EXT, 0) => ("section", "accepted"),
        (EXT_RECORD, 0) => ("section's record", "record"),
        (EXT_RECORD, _) => ("section's record", "none there"),
        (MEMBER, 0) => ("member", "unsigned"),
        (MEMBER, 1) => ("member", "signed"),
        (MEMBER, 2) => ("member", "longer span"),
        (LEANING_NAME, _) => ("leaning name", "part of either, or none"),
        (CHECK, _) => ("check", "report"),
        (LEANING, _) => ("leaning check", "report"),
        (LEANING_SIZE, _) => ("leaning size", "report"),
        (SIZE, _) => ("size", "report"),
        (MEMBER, _) => ("member", "report"),
        (APART, _) => ("apart", "report"),
        (LIST_READ, _) => ("list read", "report"),
        (LIST_WRITTEN, _) => ("list written", "report"),
        (EXT, _) => ("section", "report"),
        _ => ("join", "report"),
    };
    let inside = if inner == 0 {
        String::new()
    } else {
        format!(" with {inner} inside")
    };
    format!("op {op} {call}: {number:2} {answer}{inside}")
}
