//! Cases of the size question: true indexes, cut ones, and false ones.

use crate::generate::check_cases::{damage, random_bytes, random_words};
use crate::generate::damage_layout::overflowing;
use crate::generate::grow::grow;
use crate::generate::pieces::index_of;
use crate::generate::random::Random;
use crate::generate::{large, valid, Scale};
use crate::make::Make;
use crate::order::ORDERS;
use crate::table::Kind;
use crate::vectors::{bytes_of, run, Case, SIZE};

pub fn case(r: &mut Random, scale: Scale) -> Case {
    let aim = r.pick(&[0, 1, 2, 21, 22]);
    if scale == Scale::Full && r.one_in(60) {
        return large_case(r);
    }
    loop {
        let case = attempt(r, scale, aim);
        if run(&case).number == aim || r.one_in(20) {
            return case;
        }
    }
}

fn question(blob: Vec<u8>, index: &[u32], number: u32) -> Case {
    Case {
        op: SIZE,
        x: number,
        a: blob,
        b: bytes_of(index),
        ..Case::default()
    }
}

fn attempt(r: &mut Random, scale: Scale, aim: u32) -> Case {
    let mut m = valid::table(r, scale);
    match (aim, r.below(4)) {
        (22, _) => damage(r, &mut m, 14),
        (2, 0 | 1) | (_, 0) => {
            overflowing(r, &mut m);
        }
        (_, 1) => {
            let number = r.pick(&[13, 14, 15]);
            damage(r, &mut m, number);
        }
        (_, 2) => add_deeper(r, &mut m),
        _ => {}
    }
    let blob = match r.below(10) {
        0 => random_words(r),
        1 => begun_bytes(r),
        _ => m.blob(),
    };
    let index = turned_index(r, index_of(&m), &blob);
    let last = m.count();
    let number = match r.below(8) {
        0 => index.len() as u32,
        1 => r.pick(&[0, 1, u32::MAX, 1 << 31, index.len() as u32 + 1]),
        2 | 3 => last.saturating_sub(r.below(2)),
        _ => r.below(index.len() as u32 + 1),
    };
    question(blob, &index, number)
}

/// Bytes that mean nothing, half of them behind the magic of an order.
pub fn begun_bytes(r: &mut Random) -> Vec<u8> {
    let mut bytes = random_bytes(r);
    if r.one_in(2) && bytes.len() >= 2 {
        bytes[..2].copy_from_slice(&r.pick(&ORDERS).magic());
    }
    bytes
}

/// A walk of a few steps to a type without size, to zero elements, to more.
pub fn add_deeper(r: &mut Random, m: &mut Make) {
    let index = m.int(2);
    let mut element = match r.below(4) {
        0 => grow(r, m, Kind::Fwd),
        1 => m.constant(0),
        2 => m.array(index, index, 0),
        _ => overflowing(r, m),
    };
    for _ in 0..r.between(1, 3) {
        element = m.array(element, index, r.pick(&[0, 1, 65_536, u32::MAX]));
    }
}

/// The true index, or one that is shorter, longer or false.
pub fn turned_index(r: &mut Random, mut index: Vec<u32>, blob: &[u8]) -> Vec<u32> {
    match r.below(6) {
        0 => index.truncate(r.below(index.len() as u32 + 1) as usize),
        1 => index.extend(vec![r.pick(&[0, 24, 36]); r.between(1, 3) as usize]),
        2 => {
            let length = r.below(6);
            index = (0..length).map(|_| false_place(r, blob)).collect();
        }
        3 | 4 => {
            let at = r.below(index.len() as u32) as usize;
            index[at] = false_place(r, blob);
        }
        _ => {}
    }
    index
}

/// Places under 24, unaligned, in the strings, and at the end of the blob,
/// where a head of 12 or an array of 24 bytes just fits or just does not.
fn false_place(r: &mut Random, blob: &[u8]) -> u32 {
    let end = blob.len() as u32;
    match r.below(8) {
        0 => r.pick(&[0, 12, 20, 23, 24, 25]),
        1 => r.pick(&[u32::MAX, u32::MAX - 11, u32::MAX - 23, 1 << 31]),
        2 => end.saturating_sub(r.pick(&[11, 12, 13])),
        3 => end.saturating_sub(r.pick(&[23, 24, 25])),
        4 => r.below(end + 1),
        _ => 24 + 4 * r.below(end / 4 + 1),
    }
}

/// Deep walks, with an index just long enough or a place too short.
fn large_case(r: &mut Random) -> Case {
    let m = if r.one_in(2) {
        large::chain(r)
    } else {
        large::deep_arrays(r)
    };
    let mut index = index_of(&m);
    if r.one_in(3) {
        index.pop();
    }
    let number = r.pick(&[1, m.count(), m.count(), m.count() - 1]);
    question(m.blob(), &index, number)
}
