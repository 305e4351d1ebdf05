//! Two faults in one table, without chance: which of them speaks.

use crate::generate::edges::{add, add_blob, each_kind, one_of, Part};
use crate::generate::edges_pointers::named;
use crate::make::{blob_of, info, int_word, put_word, Make};
use crate::table::Kind;
use crate::vectors::Case;

pub const PARTS: &[Part] = &[
    ("two-headers", |found, _| two_headers(found)),
    ("two-types", |found, _| two_types(found)),
    ("one-type", |found, _| one_type(found)),
    ("before-the-end", |found, _| before_the_end(found)),
    ("spare-and-cut", |found, _| each_kind(found, spare_and_cut)),
    ("unknown-tails", |found, _| unknown_tails(found)),
];

/// Damages a blob so that it gets this report of phase 1.
pub fn damage(blob: &mut Vec<u8>, report: u32) {
    let last = blob.len() - 1;
    match report {
        1 => blob.truncate(23),
        2 => blob[3] = 1,
        3 => put_word(blob, 4, 25),
        4 => put_word(blob, 8, 4),
        _ => blob[last] = 1,
    }
}

/// Each two reports of phase 1, of which the smaller speaks.
fn two_headers(found: &mut Vec<Case>) {
    for larger in 2..=5 {
        for smaller in 1..larger {
            let mut blob = one_of(Kind::Ptr).blob();
            damage(&mut blob, larger);
            damage(&mut blob, smaller);
            add_blob(found, blob, 6);
        }
    }
}

/// A record with this report, where type 1 is an INT of four bytes.
pub fn add_fault(m: &mut Make, report: u32) {
    let this = m.count() + 1;
    match report {
        10 => m.int(3),
        11 => m.structure(4, false, &[[9, 1, 0]]),
        12 => m.odd_int(2, 0, 17),
        13 => m.ptr(9),
        14 => m.constant(this),
        _ => m.structure(3, false, &[[1, 1, 0]]),
    };
}

/// An INT, then a record with this report.
fn with_fault(report: u32) -> Make {
    let mut m = named();
    m.int(4);
    add_fault(&mut m, report);
    m
}

/// Each report of a type behind each: the earlier phase speaks, in one phase
/// the smaller type.
fn two_types(found: &mut Vec<Case>) {
    for first in 10..=15 {
        for second in 10..=15 {
            let mut m = with_fault(first);
            add_fault(&mut m, second);
            add(found, &m);
        }
    }
}

/// Two reports of one type, of which the smaller speaks.
fn one_type(found: &mut Vec<Case>) {
    let faults: [fn(&mut Make) -> u32; 6] = [
        |m| m.bare(Kind::Float, 9, 3, &[]),
        |m| m.bare(Kind::Int, 0, 3, &[int_word(0, 0, 33)]),
        |m| m.bare(Kind::Var, 0, 1, &[3]),
        |m| m.bare(Kind::Var, 1, 9, &[3]),
        |m| m.structure(3, false, &[[1, 2, 0], [1, 1, 0]]),
        |m| m.structure(3, false, &[[1, 9, 0], [1, 1, 0]]),
    ];
    for add_record in faults {
        let mut m = named();
        m.int(4);
        add_record(&mut m);
        add(found, &m);
    }
}

/// Each report of a type before a record that is cut short or of no known
/// kind, and with too few places: phase 2 speaks.
fn before_the_end(found: &mut Vec<Case>) {
    for report in 10..=15 {
        let mut m = with_fault(report);
        add_blob(found, m.blob(), 2);
        m.ptr(0);
        let words = m.type_words();
        add_blob(found, blob_of(&words[..words.len() - 1], &m.strings), 4);
        m.at(3).info = 20 << 24;
        add(found, &m);
    }
}

/// A record with a spare bit whose last words are not there: the tail goes by
/// kind and vlen as read, and phase 2 speaks.
fn spare_and_cut(found: &mut Vec<Case>, kind: Kind) {
    for bit in [16, 23, 29, 30] {
        let mut m = one_of(kind);
        m.at(5).info |= 1 << bit;
        let words = m.type_words();
        add_blob(found, blob_of(&words[..words.len() - 1], &m.strings), 6);
    }
    // the kinds that ask for vlen 0 have the same tail whatever vlen is
    for vlen in [1, 2, 3, 0xFFFF] {
        let mut m = one_of(kind);
        m.at(5).info = info(kind, false, vlen);
        add(found, &m);
        m.ptr(0);
        add(found, &m);
    }
}

/// Kinds that nobody knows have no tail, so none is missed.
fn unknown_tails(found: &mut Vec<Case>) {
    for kind in [0, 20, 31] {
        for vlen in [0, 1, 3, 0xFFFF] {
            for words in 0..3 {
                let mut m = Make::new();
                m.raw(0, (kind << 24) | vlen, 0, &vec![0; words]);
                add(found, &m);
            }
        }
    }
}
