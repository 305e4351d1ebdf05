//! The rules on tail words, report 12, at their edges, without chance.

use crate::generate::edges::{add, one_of, Part};
use crate::make::{int_word, Make};
use crate::table::Kind;
use crate::vectors::Case;

pub const PARTS: &[Part] = &[
    ("int", |found, _| int_tails(found)),
    ("parameters", |found, _| linkages_and_parameters(found)),
];

/// Where `one_of` has a name.
const NAME: u32 = 1;

/// Every bit, every encoding, and offset and width around each limit.
fn int_tails(found: &mut Vec<Case>) {
    let mut with = |bytes: u32, word: u32| {
        let mut m = Make::new();
        m.bare(Kind::Int, 0, bytes, &[word]);
        add(found, &m);
    };
    for bit in 0..32 {
        with(4, int_word(0, 0, 32) ^ (1 << bit));
    }
    for encoding in 0..16 {
        with(2, int_word(encoding, 0, 16));
    }
    for bytes in [1, 2, 4, 8, 16] {
        for offset in [0, 1, 4 * bytes, 8 * bytes - 1, 8 * bytes] {
            let rest: u32 = 8 * bytes - offset;
            for width in [0, 1, rest.saturating_sub(1), rest, rest + 1, 255] {
                with(bytes, int_word(1, offset, width));
            }
        }
    }
}

fn linkages_and_parameters(found: &mut Vec<Case>) {
    for linkage in [0, 1, 2, 3, 4, 256, 1 << 16, 1 << 31, u32::MAX] {
        let mut m = one_of(Kind::Var);
        m.at(5).tail[0] = linkage;
        add(found, &m);
    }
    let choices = [
        [0, 0],
        [NAME, 0],
        [3, 0],
        [4, 0],
        [0, 1],
        [NAME, 1],
        [9, 0],
        [0, 9],
    ];
    for first in choices {
        for last in choices {
            for with_func in [false, true] {
                let mut m = one_of(Kind::Int);
                let prototype = m.proto(0, &[first, last]);
                if with_func {
                    m.func(NAME, prototype);
                }
                add(found, &m);
            }
        }
    }
}
