//! Both byte orders at their edges, without chance: openings, words that stand
//! in the other order, and names. Each part has tables of both.

use crate::generate::edges::{add_blob, each_kind, one_of, Part};
use crate::generate::edges_questions::ask_name;
use crate::generate::pieces::index_of;
use crate::generate::turn::both;
use crate::make::Make;
use crate::table::{Kind, HEADER_BYTES};
use crate::vectors::Case;

pub const PARTS: &[Part] = &[
    ("orders", |found, _| orders(found)),
    ("order-words", |found, _| each_kind(found, record_words)),
    ("order-names", |found, _| names(found)),
];

/// The paper's T, with a longer name.
pub fn bench() -> Make {
    let mut m = Make::new();
    let name = m.string("turned");
    m.raw(name, 1 << 24, 2, &[0x0100_0010]);
    m
}

fn orders(found: &mut Vec<Case>) {
    for blob in both(&bench().blob()) {
        add_blob(found, blob.clone(), 2);
        for opening in openings() {
            let mut other = blob.clone();
            other[..4].copy_from_slice(&opening);
            add_blob(found, other, 2);
        }
        for bit in 0..32 {
            let mut other = blob.clone();
            other[bit / 8] ^= 1 << (bit % 8);
            add_blob(found, other, 2);
        }
    }
    for m in [Make::new(), bench(), one_of(Kind::Ptr)] {
        for blob in both(&m.blob()) {
            for places in TOGETHER {
                add_blob(found, with_reversed(&blob, places), m.count() + 1);
            }
        }
    }
}

/// Either byte of the magic, or none, at both places, before version and flags
/// as they should be, turned round and wrong; and the whole word turned round.
fn openings() -> Vec<[u8; 4]> {
    let mut found = Vec::new();
    for first in [0x9F, 0xEB, 0] {
        for second in [0x9F, 0xEB, 0] {
            for [version, flags] in [[1, 0], [0, 1], [0, 0], [1, 1], [2, 0]] {
                found.push([first, second, version, flags]);
            }
        }
    }
    found.extend([[0, 1, 0xEB, 0x9F], [0, 1, 0x9F, 0xEB]]);
    found
}

/// Words of the header that stand in the other order together.
const TOGETHER: [&[usize]; 8] = [
    &[4],
    &[12],
    &[16],
    &[20],
    &[12, 16],
    &[12, 16, 20],
    &[4, 12, 16],
    &[4, 12, 16, 20],
];

/// A blob with the words at these places in the order that it has not.
fn with_reversed(blob: &[u8], places: &[usize]) -> Vec<u8> {
    let mut other = blob.to_vec();
    for place in places {
        other[*place..place + 4].reverse();
    }
    other
}

/// Each word of a record by itself in the other order, and the whole of the
/// types, behind a header in the table's own.
fn record_words(found: &mut Vec<Case>, kind: Kind) {
    let m = one_of(kind);
    let record = index_of(&m)[5] as usize;
    let strings = m.blob().len() - m.strings.len();
    for blob in both(&m.blob()) {
        for place in (record..strings).step_by(4) {
            add_blob(found, with_reversed(&blob, &[place]), 6);
        }
        let all: Vec<usize> = (HEADER_BYTES..strings).step_by(4).collect();
        add_blob(found, with_reversed(&blob, &all), 6);
    }
}

/// Every offset of a table in each order; then no name can be had, where an
/// opening or a word of the header is in the other order.
fn names(found: &mut Vec<Case>) {
    let mut m = bench();
    m.string("order_");
    let length = m.strings.len() as u32;
    for blob in both(&m.blob()) {
        for offset in (0..length + 2).chain([length << 24, 1 << 31, u32::MAX]) {
            ask_name(found, &blob, offset);
        }
        for opening in openings() {
            let mut other = blob.clone();
            other[..4].copy_from_slice(&opening);
            ask_name(found, &other, 1);
        }
        for places in TOGETHER {
            for offset in [0, 1, length] {
                ask_name(found, &with_reversed(&blob, places), offset);
            }
        }
    }
}
