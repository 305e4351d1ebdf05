//! The goals of request 13, judged by the times of one run.

use crate::timing::{figure, grouped};

/// What a table of the figures is there for.
#[derive(Clone, Copy, PartialEq, Eq, Debug)]
pub enum Sort {
    /// Deep struct nesting, as the request has it.
    Nested,
    /// Made to be slow.
    Slow,
    Other,
}

/// A table and the median times of its check, in nanoseconds.
#[derive(Clone, Copy, Debug)]
pub struct Row {
    pub title: &'static str,
    pub sort: Sort,
    pub types: u32,
    pub bytes: usize,
    pub archive: f64,
    pub tuned: f64,
    pub plain: f64,
}

/// The request's own table has so many bytes.
pub const ASKED_BYTES: usize = 65_536;
/// Goals 1 to 4: a goal's number and the largest ratio that meets it.
const TO_TUNED: [(u32, f64); 2] = [(1, 2.0), (2, 1.0)];
const TO_NESTED: f64 = 4.0;
const GROWTH: f64 = 4.3;

/// A ratio, and what it is of.
type Found = (f64, String);

/// One line for each goal.
pub fn verdicts(rows: &[Row]) -> String {
    let mut text = String::new();
    let asked = to_tuned(rows);
    for (goal, most) in TO_TUNED {
        let words = format!(
            "the nested table of {} bytes in at most {most:.1} times the tuned checker's time",
            grouped(ASKED_BYTES)
        );
        text += &verdict(goal, most, &words, &asked);
    }
    let words = format!("no slow table over {TO_NESTED} times the nested one of its length");
    text += &verdict(3, TO_NESTED, &words, &[largest(to_nested(rows))]);
    let words = format!("four times the table in at most {GROWTH} times the time");
    text + &verdict(4, GROWTH, &words, &[largest(growth(rows))])
}

/// The goal is met if all that was found is small enough.
fn verdict(goal: u32, most: f64, words: &str, found: &[Found]) -> String {
    let met = found.iter().all(|(ratio, _)| *ratio <= most);
    let of: Vec<String> = found
        .iter()
        .map(|(ratio, of)| format!("{} ({of})", figure(*ratio)))
        .collect();
    let end = if met { "met" } else { "not met" };
    format!("- Goal {goal}, {words}: {}; **{end}**.\n", of.join(", "))
}

/// Of the request's own table, in both directions.
fn to_tuned(rows: &[Row]) -> Vec<Found> {
    let asked = rows
        .iter()
        .filter(|row| row.sort == Sort::Nested && row.bytes == ASKED_BYTES);
    asked
        .map(|row| (row.archive / row.tuned, row.title.to_string()))
        .collect()
}

/// The archive's time for a table, to its time for the first nested one of its
/// length; none for a length that has none.
pub fn ratio_to_nested(rows: &[Row], row: &Row) -> Option<f64> {
    let mut same = rows.iter().filter(|other| other.bytes == row.bytes);
    let nested = same.find(|other| other.sort == Sort::Nested)?;
    Some(row.archive / nested.archive)
}

fn to_nested(rows: &[Row]) -> Vec<Found> {
    let slow = rows.iter().filter(|row| row.sort == Sort::Slow);
    slow.filter_map(|row| Some((ratio_to_nested(rows, row)?, of_length(row))))
        .collect()
}

/// Of each table that there is at four times another's length.
fn growth(rows: &[Row]) -> Vec<Found> {
    let pairs = rows.iter().flat_map(|short| {
        let is_long = |long: &&Row| long.title == short.title && long.bytes == 4 * short.bytes;
        rows.iter()
            .find(is_long)
            .map(|long| (long.archive / short.archive, long.title.to_string()))
    });
    pairs.collect()
}

fn of_length(row: &Row) -> String {
    format!("{}, {} bytes", row.title, grouped(row.bytes))
}

fn largest(found: Vec<Found>) -> Found {
    let by_ratio = |a: &Found, b: &Found| a.0.total_cmp(&b.0);
    let none = (0.0, "there is none".to_string());
    found.into_iter().max_by(by_ratio).unwrap_or(none)
}
