//! Cases of the size and the name question over a base and a module's table.

use crate::generate::check_cases::{self, damage, random_words};
use crate::generate::damage_layout::overflowing;
use crate::generate::leaning_cases::damaged;
use crate::generate::pair::{self, Pair};
use crate::generate::random::Random;
use crate::generate::size_cases::{add_deeper, begun_bytes, turned_index};
use crate::generate::turn::{in_order, turned};
use crate::generate::{fits, large_leaning, until, Scale};
use crate::make::word_at;
use crate::order::ORDERS;
use crate::vectors::{bytes_of, run, Case, LEANING_NAME, LEANING_SIZE};

/// Of any orders, so that it need not be turned.
pub fn size(r: &mut Random, scale: Scale) -> Case {
    if scale == Scale::Full && r.one_in(60) {
        return large_leaning::size(r);
    }
    let aim = r.pick(&[0, 1, 2, 21, 22]);
    let hits = |case: &Case| run(case).number == aim;
    until(r, scale, 20, hits, |r| attempt(r, scale, aim))
}

/// A size question: the base, its count, the module's table, the index and the
/// number.
pub fn ask_size(base: &[u8], count: u32, module: &[u8], index: &[u32], number: u32) -> Case {
    Case {
        op: LEANING_SIZE,
        x: number,
        y: count,
        output_bytes: index.len() as u32,
        a: base.to_vec(),
        b: [module, &bytes_of(index)].concat(),
        ..Case::default()
    }
}

fn attempt(r: &mut Random, scale: Scale, aim: u32) -> Case {
    let mut pair = pair::accepted(r, scale);
    match (aim, r.below(4)) {
        (22, _) => damage(r, &mut pair.whole, 14),
        (2, 0 | 1) | (_, 0) => {
            overflowing(r, &mut pair.whole);
        }
        (_, 1) => {
            let number = r.pick(&[13, 14, 15]);
            damage(r, &mut pair.whole, number);
        }
        (_, 2) => add_deeper(r, &mut pair.whole),
        _ => {}
    }
    let (mut base, mut module) = pair.blobs();
    match r.below(12) {
        0 => module = random_words(r),
        1 => module = begun_bytes(r),
        2 => base = begun_bytes(r),
        _ => {}
    }
    let (base, module) = (in_any_order(r, base), in_any_order(r, module));
    // Places of either blob, whichever is read for the number.
    let blob = if r.one_in(2) { &base } else { &module };
    let index = turned_index(r, pair.index(), blob);
    let count = base_count(r, &pair);
    let number = type_number(r, &pair, index.len() as u32);
    ask_size(&base, count, &module, &index, number)
}

fn in_any_order(r: &mut Random, blob: Vec<u8>) -> Vec<u8> {
    in_order(&blob, r.pick(&ORDERS))
}

/// The true count, mostly.
fn base_count(r: &mut Random, pair: &Pair) -> u32 {
    match r.below(12) {
        0 => pair.types + 1,
        1 => pair.types.saturating_sub(1),
        2 => r.pick(&[0, pair.count(), u32::MAX, 1 << 31]),
        3 => r.below(pair.count() + 2),
        _ => pair.types,
    }
}

fn type_number(r: &mut Random, pair: &Pair, places: u32) -> u32 {
    match r.below(8) {
        0 => places,
        1 => r.pick(&[0, 1, u32::MAX, 1 << 31, places + 1]),
        2 | 3 => pair.count().saturating_sub(r.below(2)),
        4 => pair.types + r.below(2),
        _ => r.below(places + 1),
    }
}

pub fn name(r: &mut Random, scale: Scale) -> Case {
    loop {
        let case = any_name(r, scale);
        if fits(&case, scale) {
            return case;
        }
    }
}

fn any_name(r: &mut Random, scale: Scale) -> Case {
    let pair = pair::accepted(r, scale);
    let (mut a, mut b) = pair.blobs();
    match r.below(8) {
        0 => {
            // The names still stand where a later phase would refuse.
            let number = r.pick(&[6, 7]);
            b = damaged(r, &pair, number);
        }
        1 => {
            let number = r.between(1, 5);
            b = damaged(r, &pair, number);
        }
        2 => {
            let number = r.pick(&[1, 2, 3, 4, 5, 6, 7, 10, 13, 15]);
            a = check_cases::aimed(r, scale, number).blob;
        }
        3 if r.one_in(2) => b = turned(&b),
        _ => {}
    }
    let x = offset(r, &a, &b);
    Case {
        op: LEANING_NAME,
        x,
        a,
        b,
        ..Case::default()
    }
}

/// Around 0, around the end of the base's strings and of the module's, and
/// where 32 bits would wrap.
fn offset(r: &mut Random, base: &[u8], module: &[u8]) -> u32 {
    if base.len() < 24 || module.len() < 24 {
        return r.pick(&[0, 1, u32::MAX]);
    }
    let mark = word_at(base, 20);
    let end = mark.wrapping_add(word_at(module, 20));
    let near = r.pick(&[0, u32::MAX, 1]);
    match r.below(10) {
        0 => 0,
        1 | 2 => mark.wrapping_add(near),
        3 | 4 => end.wrapping_add(near),
        5 => r.pick(&[u32::MAX, 1 << 31, u32::MAX - 23, 0u32.wrapping_sub(mark)]),
        6 => r.below(mark),
        _ => r.below(end),
    }
}
