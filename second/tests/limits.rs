//! The limits by their numbers, wherever `second` says them.

mod common;

use common::*;
use second::generate::large::pointers;
use second::generate::large_fixed::{self, of_bytes};
use second::generate::large_joins;
use second::limits::{BYTE_LIMIT, FULL_PLACES, TYPE_LIMIT};
use second::order::Order;
use second::report::meaning;
use second::vectors::{run, CHECK, JOIN, MOST_BYTES, MOST_PLACES};

#[test]
fn each_limit() {
    assert_eq!([TYPE_LIMIT, BYTE_LIMIT], [16_384, 262_144]);
    assert_eq!(FULL_PLACES, 16_385);
    assert_eq!([MOST_PLACES, MOST_BYTES], [20_000, 280_000]);
}

#[test]
fn limits_in_words() {
    for (number, limit) in [
        (1, "262,144"),
        (8, "16,384"),
        (18, "16,384"),
        (19, "262,144"),
    ] {
        assert!(meaning(number).contains(limit), "{number}");
    }
}

/// What was too large before the limits were raised no longer is.
#[test]
fn beyond_the_first_limits() {
    assert_eq!(judged(&pointers(4_097)), Ok(4_097));
    assert_eq!(gate(&of_bytes(65_537)), Ok(1));
    assert_eq!(
        joined(&of_bytes(40_000), &of_bytes(40_000)).len(),
        2 * 40_000 - 25
    );
}

/// What the file of vectors that is kept has at the limits and one past them:
/// op, order and bytes of a, and of the answer its number, t and p.
#[test]
fn limits_among_the_thinned() {
    let thin = large_fixed::cases(true).into_iter();
    let seen: Vec<(Order, [u32; 5])> = thin
        .chain(large_joins::cases(true))
        .map(|case| {
            let seen = run(&case);
            let bytes = case.a.len() as u32;
            let numbers = [case.op, bytes, seen.number, seen.t, seen.p];
            (Order::of(&case.a), numbers)
        })
        .collect();
    use Order::{Big, Little};
    for wanted in [
        (Little, [CHECK, 196_633, 0, 16_384, 0]),
        (Little, [CHECK, 196_645, 8, 16_385, 196_632]),
        (Little, [CHECK, 262_144, 0, 1, 0]),
        (Little, [CHECK, 262_145, 1, 0, 0]),
        // one type and 16,383, then 16,384 and one
        (Little, [JOIN, 37, 0, 0, 196_633]),
        (Little, [JOIN, 196_633, 18, 0, 0]),
        // with 142,169 bytes, then with one more
        (Little, [JOIN, 120_000, 0, 0, 262_144]),
        (Little, [JOIN, 120_000, 19, 0, 0]),
        // the same, with both limits in one table
        (Big, [CHECK, 262_144, 0, 16_384, 0]),
        (Big, [CHECK, 262_145, 1, 0, 0]),
        (Big, [JOIN, 196_645, 16, 16_385, 196_632]),
        (Big, [JOIN, 120_000, 0, 0, 262_144]),
        (Big, [JOIN, 196_633, 18, 0, 0]),
        (Big, [JOIN, 120_000, 19, 0, 0]),
        // the second table is of the other order
        (Little, [JOIN, 25, 17, 16_385, 196_632]),
        (Little, [JOIN, 120_000, 24, 0, 0]),
    ] {
        assert!(seen.contains(&wanted), "{wanted:?}");
    }
}
