//! The size question over a base and a module's table at its edges, without
//! chance: counts that are wrong, places of either blob, and each blob's order.

use crate::generate::edges::Part;
use crate::generate::leaning_questions::ask_size;
use crate::generate::pair::Pair;
use crate::generate::turn::both;
use crate::make::Make;
use crate::vectors::Case;

pub const PARTS: &[Part] = &[
    ("leaning-counts", |found, thin| counts(found, thin)),
    ("leaning-index-lengths", |found, _| index_lengths(found)),
    ("leaning-places", |found, _| places(found)),
    ("leaning-size-orders", |found, _| orders(found)),
    ("leaning-products", |found, _| products(found)),
];

/// An INT of two bytes, a CONST of it and a pointer in the base; an array, a
/// CONST of it and a struct in the module. Records of both stand at 24.
fn pair() -> Pair {
    let mut base = Make::new();
    base.int(2);
    base.constant(1);
    base.ptr(0);
    let mut pair = Pair::on(base);
    pair.whole.array(2, 1, 5);
    pair.whole.constant(4);
    pair.whole.structure(7, false, &[]);
    pair
}

/// Every count with every number, also such as only wrong signs would take.
fn counts(found: &mut Vec<Case>, thin: bool) {
    let pair = pair();
    let (base, module) = pair.blobs();
    let further = [1 << 16, (1 << 31) - 1, 1 << 31, u32::MAX - 1, u32::MAX];
    let numbers: Vec<u32> = (0..9).chain(further).collect();
    for count in &numbers {
        for number in numbers.iter().take(if thin { 8 } else { 14 }) {
            found.push(ask_size(&base, *count, &module, &pair.index(), *number));
        }
    }
    // Blobs of no bytes: nothing is read for void, else 21.
    for number in 0..3 {
        found.push(ask_size(&[], 1, &module, &[0, 24, 24], number));
        found.push(ask_size(&base, 1, &[], &[0, 24, 24], number));
    }
}

/// A walk from the module through the base, and a ring, with indexes that are
/// shortened and lengthened.
fn index_lengths(found: &mut Vec<Case>) {
    for last in [0, 1, 4, 5, 6] {
        let mut pair = pair();
        pair.whole.at(4).tail[0] = 6;
        *pair.whole.at(6) = pair.whole.records[4].clone();
        pair.whole.at(6).third = last;
        let (base, module) = pair.blobs();
        let mut index = pair.index();
        index.extend([24, 36]);
        for places in 0..=index.len() {
            for number in (0..8).chain([1 << 31, u32::MAX]) {
                found.push(ask_size(&base, 3, &module, &index[..places], number));
            }
        }
    }
}

/// Places around 24 and around the end of each blob, which have different
/// lengths, read of the base and of the module.
fn places(found: &mut Vec<Case>) {
    let (base, module) = pair().blobs();
    let ends = [base.len(), module.len()].map(|end| end as u32);
    let near_ends = ends.into_iter().flat_map(|end| (end - 25)..=end);
    let fixed = [0, 1, 22, 23, 24, 25, 26, 1 << 31, u32::MAX - 11, u32::MAX];
    for place in fixed.into_iter().chain(near_ends) {
        for count in [0, 1] {
            found.push(ask_size(&base, count, &module, &[0, place, 24], 1));
            found.push(ask_size(&module, count, &base, &[0, place, 24], 1));
        }
    }
}

/// Either order of each blob, and beginnings that are nearly EB 9F, before
/// records that are something else in each order.
fn orders(found: &mut Vec<Case>) {
    let pair = pair();
    let (base, module) = pair.blobs();
    for base in both(&base) {
        for module in both(&module) {
            for number in 0..8 {
                found.push(ask_size(&base, 3, &module, &pair.index(), number));
            }
        }
    }
    // An INT of seven bytes, or a pointer.
    let begun = |magic: [u8; 2]| {
        let mut blob = vec![0; 24];
        blob[..2].copy_from_slice(&magic);
        blob.extend([0, 0, 0, 0, 2, 0, 0, 1, 7, 0, 0, 0]);
        blob
    };
    let beginnings = [[0xEB, 0x9F], [0x9F, 0xEB], [0xEB, 0], [0, 0x9F], [0, 0]];
    for first in beginnings {
        for second in beginnings {
            for number in [1, 2] {
                let (base, module) = (begun(first), begun(second));
                found.push(ask_size(&base, 1, &module, &[0, 24, 24], number));
            }
        }
    }
}

/// Arrays of the module over arrays of the base, around the limit, with zero and
/// with a type that has no size.
fn products(found: &mut Vec<Case>) {
    let counts = [0, 1, 2, 65_535, 65_536, 65_537, u32::MAX];
    for inner in counts {
        for outer in counts {
            for bytes in [0, 1, u32::MAX] {
                let mut base = Make::new();
                base.structure(bytes, false, &[]);
                base.int(1);
                base.array(1, 2, inner);
                let mut pair = Pair::on(base);
                pair.whole.array(3, 2, outer);
                let (a, b) = pair.blobs();
                found.push(ask_size(&a, 3, &b, &pair.index(), 4));
            }
            let mut base = Make::new();
            base.constant(0);
            base.array(1, 1, inner);
            let mut pair = Pair::on(base);
            pair.whole.array(2, 1, outer);
            let (a, b) = pair.blobs();
            found.push(ask_size(&a, 2, &b, &pair.index(), 3));
        }
    }
}
