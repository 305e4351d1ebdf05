//! Long pairs of a base and a module's table, of every kind and shape, and
//! checks of them.

use crate::generate::grow::grow;
use crate::generate::leaning_cases::{damage_module, damaged, lend};
use crate::generate::long;
use crate::generate::pair::Pair;
use crate::generate::random::Random;
use crate::generate::turn::turned;
use crate::generate::{valid, Scale};
use crate::limits::{BYTE_LIMIT, FULL_PLACES, TYPE_LIMIT};
use crate::table::ALL_KINDS;
use crate::vectors::{Case, MOST_PLACES};

const BYTES: usize = BYTE_LIMIT as usize;

/// A long pair, accepted or refused on one of the grounds.
pub fn check(r: &mut Random) -> Case {
    let aim = r.pick(&[
        0, 0, 0, 0, 0, 0, 1, 6, 7, 8, 9, 10, 11, 12, 13, 14, 15, 25, 26,
    ]);
    let mut pair = match aim {
        1 => around_byte_limit(r),
        8 => around_type_limit(r),
        _ => pair(r, BYTES),
    };
    if (10..=15).contains(&aim) {
        damage_module(r, &mut pair, aim);
    }
    let (mut base, mut module) = pair.blobs();
    match aim {
        6 | 7 => module = damaged(r, &pair, aim),
        25 => {
            let at = r.below(400.min(base.len() as u32 - 20)) as usize;
            base[20 + at] ^= 1 << r.below(8);
        }
        26 => module = turned(&module),
        _ => {}
    }
    let places = match aim {
        9 => r.pick(&[pair.types, pair.types + 1, pair.count()]),
        _ => r.pick(&[
            pair.count() + 1,
            pair.count() + 40,
            FULL_PLACES,
            MOST_PLACES,
        ]),
    };
    lend(base, module, (places, places))
}

/// A base and a module's table of at most so many bytes together. The module's
/// types are small tables behind each other, whose pointers lead anywhere, and
/// a few that refer to any type by value too.
fn pair(r: &mut Random, together: usize) -> Pair {
    let share = r.between(1_000, together as u32 - 2_000) as usize;
    let mut pair = Pair::on(long::table(r, share));
    let mut length = pair.base().blob().len() + pair.module().blob().len();
    // What grows last has room behind the rest.
    while length + 1_500 < together {
        let part = valid::table(r, Scale::Small);
        length += part.blob().len() - 25;
        long::put_behind(&mut pair.whole, &part);
        if r.one_in(400) {
            break;
        }
    }
    valid::turn_pointers_behind(r, &mut pair.whole, pair.types);
    for _ in 0..r.below(8) {
        let kind = r.pick(&ALL_KINDS);
        grow(r, &mut pair.whole, kind);
    }
    if r.one_in(2) {
        valid::shuffle_behind(r, &mut pair.whole, pair.types);
    }
    pair
}

/// Strings of the module fill up to the limit or to a byte or two past it.
fn around_byte_limit(r: &mut Random) -> Pair {
    let mut pair = pair(r, BYTES);
    let (a, b) = pair.blobs();
    let together = BYTES + r.pick(&[0, 0, 1, 1, 2]);
    let missing = together.saturating_sub(a.len() + b.len());
    pair.whole.strings.extend(vec![0; missing]);
    pair
}

/// Pointers of the module fill up to the limit of types, or to a few more.
fn around_type_limit(r: &mut Random) -> Pair {
    let mut pair = pair(r, 48_000);
    let together = TYPE_LIMIT - 1 + r.pick(&[0, 1, 1, 2, 2, 3]);
    for _ in pair.count()..together {
        long::add_pointer(r, &mut pair.whole);
    }
    pair
}
