//! Large tables for the limits of types and bytes.

use crate::generate::random::Random;
use crate::limits::{BYTE_LIMIT, TYPE_LIMIT};
use crate::make::{blob_of, Make};
use crate::table::Kind;

/// So many records without a tail, all pointers to void.
pub fn pointers(count: u32) -> Make {
    let mut m = Make::new();
    for _ in 0..count {
        m.ptr(0);
    }
    m
}

/// Around the type limit, with or without a piece of one more.
pub fn around_type_limit(r: &mut Random) -> Vec<u8> {
    let most = TYPE_LIMIT;
    let m = pointers(r.pick(&[most - 1, most, most, most, most + 1]));
    let mut words = m.type_words();
    words.extend(vec![r.word(); r.pick(&[0, 0, 1, 1, 2, 3])]);
    blob_of(&words, &m.strings)
}

/// Pads the strings until the blob has so many bytes.
pub fn padded(m: &Make, bytes: usize) -> Vec<u8> {
    let mut m = m.clone();
    let missing = bytes.saturating_sub(m.blob().len());
    m.strings.extend(vec![0; missing]);
    m.blob()
}

/// Around the byte limit.
pub fn around_byte_limit(r: &mut Random, m: &Make) -> Vec<u8> {
    let bytes = r.pick(&[BYTE_LIMIT - 1, BYTE_LIMIT, BYTE_LIMIT + 1, BYTE_LIMIT + 64]);
    padded(m, bytes as usize)
}

/// A long chain that ends in a size, in void or in a ring, be it of pointers.
pub fn chain(r: &mut Random) -> Make {
    let mut m = Make::new();
    let count = r.pick(&[1_000, 16_000, TYPE_LIMIT - 1, TYPE_LIMIT]);
    for number in 1..count {
        m.constant(number + 1);
    }
    match r.below(5) {
        0 => m.ptr(0),
        1 => m.constant(0),
        2 => m.constant(count),
        3 => m.ptr(r.between(1, count)),
        _ => m.constant(r.between(1, count)),
    };
    m
}

/// Arrays of arrays, deep enough for a product of any magnitude.
pub fn deep_arrays(r: &mut Random) -> Make {
    let mut m = Make::new();
    let index = m.int(1);
    let levels = r.between(100, 8_000);
    let zero = r.one_in(2).then(|| r.below(levels));
    let mut element = if r.one_in(4) {
        m.structure(0, false, &[])
    } else {
        index
    };
    let count = r.pick(&[1, 2, u32::MAX]);
    for level in 0..levels {
        let count = if zero == Some(level) { 0 } else { count };
        element = m.array(element, index, count);
    }
    m
}

/// A struct of thousands of members, perhaps with one bad one late.
pub fn many_members(r: &mut Random) -> Make {
    let mut m = Make::new();
    let name = m.string("m");
    let of = m.int(1);
    let count = r.between(8_000, 21_600);
    let mut members: Vec<[u32; 3]> = (0..count).map(|k| [name, of, 8 * k]).collect();
    if r.one_in(2) {
        let late = r.between(count / 2, count - 1) as usize;
        let at = r.below(3) as usize;
        members[late][at] = r.pick(&[0, 1, 3, 8, u32::MAX]);
    }
    m.structure(count, false, &members);
    m
}

/// A section of thousands of entries.
pub fn many_entries(r: &mut Random) -> Make {
    let mut m = Make::new();
    let name = m.string("v");
    let of = m.int(4);
    let var = m.var(name, of);
    let count = r.between(8_000, 20_000);
    let entries: Vec<[u32; 3]> = (0..count).map(|k| [var, 4 * k, 4]).collect();
    m.section(name, 4 * count - r.below(2), &entries);
    m
}

/// Any of the large tables that keep the limits.
pub fn table(r: &mut Random) -> Make {
    match r.below(5) {
        0 => chain(r),
        1 => deep_arrays(r),
        2 => many_members(r),
        3 => many_entries(r),
        _ => {
            let mut m = pointers(r.between(16_000, TYPE_LIMIT));
            let last = m.count();
            m.at(last).set_kind_number(Kind::Const as u32);
            m
        }
    }
}
