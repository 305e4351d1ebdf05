//! Words that lead across a cut or keep to their side of it, without chance:
//! every kind behind every other, every reference, every name.

use crate::apart::Cut;
use crate::generate::edges::{each_kind, one_of, Part};
use crate::generate::edges_apart::add;
use crate::generate::edges_joins::second_tables;
use crate::generate::joined::Joined;
use crate::generate::large::pointers;
use crate::generate::pieces::table_of;
use crate::join::name_words;
use crate::make::Make;
use crate::reference::references;
use crate::table::{Kind, Record, ALL_KINDS};
use crate::vectors::Case;

pub const PARTS: &[Part] = &[
    ("apart-kinds", kinds),
    ("apart-roles", |found, _| roles(found)),
    ("apart-references", across_types),
    ("apart-names", |found, _| each_kind(found, across_names)),
];

/// Every kind behind every other, cut where they meet. Thinned, each behind
/// one other.
fn kinds(found: &mut Vec<Case>, thin: bool) {
    for (at, first) in ALL_KINDS.into_iter().enumerate() {
        for (behind, second) in ALL_KINDS.into_iter().enumerate() {
            if !thin || (at + 7) % ALL_KINDS.len() == behind {
                let joined = Joined::of(&[one_of(first), one_of(second)]);
                add(found, &joined.whole, joined.cuts[0]);
            }
        }
    }
}

/// Each word that was raised beside those that look alike and were not: behind
/// the empty table, types without strings, strings without types, and both.
fn roles(found: &mut Vec<Case>) {
    let mut texts = Make::new();
    texts.string("n");
    let firsts = [Make::new(), pointers(2), texts, one_of(Kind::Array)];
    for second in second_tables() {
        for first in &firsts {
            let joined = Joined::of(&[first.clone(), second.clone()]);
            add(found, &joined.whole, joined.cuts[0]);
        }
    }
}

/// Two tables alike behind each other: the last types of both are of the kind.
fn twice(kind: Kind) -> (Make, Cut) {
    let joined = Joined::of(&[one_of(kind), one_of(kind)]);
    (joined.whole, joined.cuts[0])
}

/// Each word at such a place of those two types, led to each of some numbers.
fn turn_each(found: &mut Vec<Case>, kind: Kind, words: fn(&Record) -> Vec<usize>, numbers: &[u32]) {
    let (m, cut) = twice(kind);
    let Some(table) = table_of(&m) else {
        return;
    };
    for number in [5, 10] {
        let record = &table.records[number as usize - 1];
        for at in words(record) {
            for to in numbers {
                let mut other = m.clone();
                other.at(number).put(at, *to);
                add(found, &other, cut);
            }
        }
    }
}

fn reference_words(record: &Record) -> Vec<usize> {
    references(record).iter().map(|one| one.word).collect()
}

/// Every reference to every type of both. Thinned, to those that are of a
/// fitting kind in most cases, on either side, and to those beside the cut.
fn across_types(found: &mut Vec<Case>, thin: bool) {
    let all: Vec<u32> = (0..=11).collect();
    let few = [1, 4, 5, 6, 9];
    let numbers = if thin { &few[..] } else { &all };
    for kind in ALL_KINDS {
        turn_each(found, kind, reference_words, numbers);
    }
    // The kinds that only one kind may be referred to by.
    for (kind, to) in [(Kind::Func, [2, 7]), (Kind::Datasec, [3, 8])] {
        turn_each(found, kind, reference_words, &to);
    }
}

/// Every name to every offset, empty strings on both sides of the cut too.
fn across_names(found: &mut Vec<Case>, kind: Kind) {
    turn_each(found, kind, name_words, &[0, 1, 2, 3, 4, 5, 6]);
}
