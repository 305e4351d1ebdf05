//! The check of a module's table on its base at its edges, without chance: the
//! header, the strings, the walk and the slices.

use crate::generate::edges::{add_one, each_kind, four_types, one_of, Part};
use crate::generate::edges_faults::{add_fault, damage};
use crate::generate::leaning_cases::lend;
use crate::generate::pair::Pair;
use crate::make::{blob_of, put_word, word_at, Make};
use crate::table::{Kind, ALL_KINDS};
use crate::vectors::Case;

pub const PARTS: &[Part] = &[
    ("leaning-kinds", |found, _| kinds(found)),
    ("leaning-headers", |found, _| headers(found)),
    ("leaning-strings", |found, _| strings(found)),
    ("leaning-heads", |found, thin| heads(found, thin)),
    ("leaning-cut", |found, _| each_kind(found, cut_tails)),
    ("leaning-slices", |found, _| slices(found)),
    ("leaning-faults", |found, _| faults(found)),
];

/// A pair with just as many places as it needs.
pub fn add_pair(found: &mut Vec<Case>, pair: &Pair) {
    let (a, b) = pair.blobs();
    add_blobs(found, &a, &b, pair.count() + 1);
}

pub fn add_blobs(found: &mut Vec<Case>, a: &[u8], b: &[u8], places: u32) {
    found.push(lend(a.to_vec(), b.to_vec(), (places, places)));
}

/// A base of four types and four bytes of strings, and a module's table with
/// one record of the kind, type 5, that refers to the base's.
pub fn one_on(kind: Kind) -> Pair {
    let mut pair = Pair::on(four_types());
    add_one(&mut pair.whole, kind);
    pair
}

/// Every kind in the module on a base that has one of it too; the same with
/// each name at 1 in the module's strings, and behind types of the module.
fn kinds(found: &mut Vec<Case>) {
    for kind in ALL_KINDS {
        add_pair(found, &one_on(kind));
        let mut pair = Pair::on(one_of(kind));
        add_one(&mut pair.whole, kind);
        add_pair(found, &pair);
        let mut pair = one_on(kind);
        let mark = pair.whole.string("own");
        let record = pair.whole.at(5);
        let listed = Kind::Datasec != kind && kind.entry_words().is_some();
        if record.name == 1 {
            record.name = mark;
        }
        if listed && record.tail[0] == 1 {
            record.tail[0] = mark;
        }
        add_pair(found, &pair);
    }
}

/// Each header word of the module, a little and a lot off; each length up to
/// 25; lengths whose sum is right in 32 bits only.
fn headers(found: &mut Vec<Case>) {
    let (a, b) = one_on(Kind::Ptr).blobs();
    for place in (0..24).step_by(4) {
        for shift in [1, 2, 4, 1 << 8, 1 << 16, 1 << 24, 1 << 31, u32::MAX] {
            let mut turned = b.clone();
            put_word(&mut turned, place, word_at(&b, place).wrapping_add(shift));
            add_blobs(found, &a, &turned, 6);
        }
    }
    let empty = blob_of(&[], &[0]);
    for length in 0..=25 {
        add_blobs(found, &a, &empty[..length], 5);
    }
    for type_len in [1 << 31, u32::MAX - 23, u32::MAX - 3, 128] {
        let mut turned = b.clone();
        let left = (b.len() as u32 - 24).wrapping_sub(type_len);
        for (place, word) in [(12, type_len), (16, type_len), (20, left)] {
            put_word(&mut turned, place, word);
        }
        add_blobs(found, &a, &turned, 6);
    }
    // Each two reports of phase 1, of which the smaller speaks.
    for larger in 2..=5 {
        for smaller in 1..=larger {
            let mut b = blob_of(&[], b"own\0");
            damage(&mut b, larger);
            damage(&mut b, smaller);
            add_blobs(found, &a, &b, 5);
        }
    }
}

/// Strings that begin and end with any byte, and none at all, on a base with
/// types and on the empty one.
fn strings(found: &mut Vec<Case>) {
    for base in [four_types(), Make::new()] {
        for strings in [
            &[][..],
            &[0],
            &[1],
            &[0, 0],
            &[1, 0],
            &[0, 1],
            &[1, 1],
            &[0, 1, 0],
            &[1, 0, 1],
            &[1, 0, 1, 0],
        ] {
            add_blobs(found, &base.blob(), &blob_of(&[], strings), 5);
        }
    }
}

/// Every bit of the info word turned, and many third words.
fn heads(found: &mut Vec<Case>, thin: bool) {
    let bits: Vec<u32> = match thin {
        true => vec![0, 1, 15, 16, 23, 28, 29, 30, 31],
        false => (0..32).collect(),
    };
    for kind in ALL_KINDS {
        for bit in &bits {
            let mut pair = one_on(kind);
            pair.whole.at(5).info ^= 1 << bit;
            add_pair(found, &pair);
        }
        for third in [0, 1, 2, 3, 4, 5, 6, 8, 12, 16, 17, 1 << 31, u32::MAX] {
            let mut pair = one_on(kind);
            pair.whole.at(5).third = third;
            add_pair(found, &pair);
        }
    }
}

/// The module's types end after each word of its last record, and its kind is
/// unknown: the number goes on from the base's.
fn cut_tails(found: &mut Vec<Case>, kind: Kind) {
    let pair = one_on(kind);
    let (base, module) = (pair.base().blob(), pair.module());
    let words = module.type_words();
    for cut in 1..=words.len() {
        let b = blob_of(&words[..words.len() - cut], &module.strings);
        add_blobs(found, &base, &b, 6);
    }
    for unknown in [0, 20, 31] {
        let mut pair = pair.clone();
        add_one(&mut pair.whole, kind);
        pair.whole.at(6).set_kind_number(unknown);
        add_pair(found, &pair);
    }
}

/// Each slice with no place, with too few for the base, with too few for both
/// and with enough; of empty ones on either side too.
fn slices(found: &mut Vec<Case>) {
    let mut two = Pair::on(four_types());
    two.whole.ptr(1);
    two.whole.ptr(5);
    let mut on_empty = Pair::on(Make::new());
    on_empty.whole.ptr(0);
    let pairs = [two, Pair::on(four_types()), Pair::on(Make::new()), on_empty];
    for pair in pairs {
        let (a, b) = pair.blobs();
        for few in 0..10 {
            for places in [(few, 9), (9, few), (few, few)] {
                found.push(lend(a.clone(), b.clone(), places));
            }
        }
    }
}

/// Each report of a module's type behind each, with slices of enough places and
/// of too few: the earlier phase speaks, in one phase the smaller type.
fn faults(found: &mut Vec<Case>) {
    for first in 10..=15 {
        for second in 10..=15 {
            let mut pair = Pair::on(four_types());
            add_fault(&mut pair.whole, first);
            add_fault(&mut pair.whole, second);
            let (a, b) = pair.blobs();
            for places in [4, 5, 6, 7] {
                add_blobs(found, &a, &b, places);
            }
        }
    }
    // Before the reports of phase 3: a record that is cut, and an unknown kind.
    for report in 10..=15 {
        let mut pair = Pair::on(four_types());
        add_fault(&mut pair.whole, report);
        pair.whole.raw(0, 20 << 24, 0, &[]);
        let (a, module) = (pair.base().blob(), pair.module());
        let words = module.type_words();
        for cut in 0..2 {
            let b = blob_of(&words[..words.len() - cut], &module.strings);
            add_blobs(found, &a, &b, 7);
        }
    }
}
