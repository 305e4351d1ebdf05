//! Long joins of every kind and shape, taken apart.

use crate::generate::apart_cases::{bad_cut, outputs};
use crate::generate::joined::{ask, lengths, Joined};
use crate::generate::long::{damaged, pair, pair_of_types};
use crate::generate::random::Random;
use crate::limits::{BYTE_LIMIT, FULL_PLACES, TYPE_LIMIT};
use crate::make::Make;
use crate::vectors::{Case, MOST_PLACES};

const BYTES: usize = BYTE_LIMIT as usize;

/// Any report of a long table but those that have an aim of their own.
const DAMAGED: u32 = 10;

const AIMS: [u32; 18] = [
    0, 0, 0, 0, 0, 60, 60, 60, 60, 61, 61, 61, 1, 8, 9, DAMAGED, DAMAGED, DAMAGED,
];

pub fn case(r: &mut Random) -> Case {
    let aim = r.pick(&AIMS);
    let mut joined = joined(r, aim);
    let cut = match aim {
        60 => bad_cut(r, &mut joined),
        _ => r.pick(&joined.own_cuts()),
    };
    let whole = joined.whole;
    let outputs = outputs(r, lengths(&whole, cut), aim);
    let count = whole.count();
    let places = match aim {
        9 => count,
        _ => r.pick(&[count + 1, count + 40, FULL_PLACES, MOST_PLACES]),
    };
    let blob = match aim {
        DAMAGED => damaged(r, whole),
        _ => whole.blob(),
    };
    ask(blob, cut, (places, places), outputs)
}

/// Of any length; some have as many types or bytes as may be, or one more.
fn joined(r: &mut Random, aim: u32) -> Joined {
    let (a, b) = match (aim, r.below(6)) {
        (8, _) => pair_of_types(r, TYPE_LIMIT + 1),
        (1, _) => of_bytes(r, BYTES + 1),
        (_, 0) => pair_of_types(r, TYPE_LIMIT),
        (_, 1) => of_bytes(r, BYTES),
        _ => {
            let together = r.between(30_000, BYTE_LIMIT) as usize;
            pair(r, together)
        }
    };
    Joined::of(&[a, b])
}

/// Strings of either fill up to this joined length.
fn of_bytes(r: &mut Random, together: usize) -> (Make, Make) {
    let (mut a, mut b) = pair(r, BYTES);
    let missing = together + 25 - a.blob().len() - b.blob().len();
    let filled = if r.one_in(2) { &mut a } else { &mut b };
    filled.strings.extend(vec![0; missing]);
    (a, b)
}
