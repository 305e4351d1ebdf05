//! The parts of the edges: those that second/wrong.txt leans on are there, and
//! some of their answers by hand.

mod common;

use common::*;
use second::generate::edges::in_parts;
use second::make::{blob_of, put_word, Make};
use second::table::Kind;
use second::vectors::run;
use std::collections::HashSet;

/// "limits" is built by the checker and has no cases here.
#[test]
fn every_wrong_definition_has_cases_to_tell_it() {
    let all = in_parts(false);
    let there: HashSet<(&str, u32)> = all
        .iter()
        .map(|(part, case)| (part.as_str(), run(case).number))
        .collect();
    let mut lines = 0;
    for line in include_str!("../wrong.txt").lines() {
        let Some(told) = line.strip_prefix("told: ") else {
            continue;
        };
        let (answer, part) = told.split_once(" in ").expect("answer in part");
        let answer = answer.parse().expect("a number");
        assert!(
            part == "limits" || there.contains(&(part, answer)),
            "{line}"
        );
        lines += 1;
    }
    assert!(lines > 100, "{lines}");
}

/// A section of three bytes with a variable of none.
#[test]
fn entries_of_no_bytes_keep_their_place() {
    let with = |places: &[[u32; 2]]| {
        let mut m = Make::new();
        m.string("n");
        m.union(0, false, &[]);
        m.var(1, 1);
        let entries: Vec<[u32; 3]> = places.iter().map(|[at, size]| [2, *at, *size]).collect();
        m.section(1, 3, &entries);
        judged(&m)
    };
    let broken = refused(15, 3, 52);
    // At the end of the one before, of the section, and beside each other.
    assert_eq!(with(&[[0, 2], [2, 0], [2, 0], [2, 1], [3, 0]]), Ok(3));
    // Before the end of the one before; before an empty one.
    assert_eq!(with(&[[0, 2], [1, 0]]), broken);
    assert_eq!(with(&[[2, 0], [1, 1]]), broken);
    assert_eq!(with(&[[2, 0], [1, 0]]), broken);
    // Outside.
    assert_eq!(with(&[[4, 0]]), broken);
}

#[test]
fn none_of_a_type_without_size_has_none() {
    let with = |count: u32, bytes: u32| {
        let mut m = Make::new();
        m.string("n");
        m.structure(bytes, false, &[[1, 3, 0]]);
        m.int(4);
        m.array(4, 2, count);
        m.bare(Kind::Fwd, 1, 0, &[]);
        judged(&m)
    };
    // The struct asks for a size, and so does the array behind it.
    assert_eq!(with(0, 0), refused(15, 1, 24));
    assert_eq!(with(1, 8), refused(15, 1, 24));
}

#[test]
fn a_sum_that_wraps_is_report_4() {
    let mut blob = blob_of(&[], &[0; 9]);
    for (place, word) in [(12, 1 << 31), (16, 1 << 31), (20, (1 << 31) + 9)] {
        put_word(&mut blob, place, word);
    }
    assert_eq!(gate(&blob), refused(4, 0, 0));
}

#[test]
fn spans_count_in_more_than_32_bits() {
    let with = |bytes: u32, offset: u32| {
        let mut m = Make::new();
        m.string("n");
        m.int(1);
        m.structure(bytes, false, &[[1, 1, offset]]);
        judged(&m)
    };
    assert_eq!(with(1 << 29, u32::MAX - 7), Ok(2));
    assert_eq!(with((1 << 29) - 1, u32::MAX - 7), refused(15, 2, 40));
    assert_eq!(with(1, u32::MAX - 7), refused(15, 2, 40));
    assert_eq!(with(1 << 29, 1 << 24), Ok(2));
    assert_eq!(with(1, 1 << 24), refused(15, 2, 40));
}
