//! Cases of the check of a module's table on its base: pairs aimed at each
//! report, of the base's inside 25 and of the module's own, and wild ones.

use crate::generate::check_cases::{self, damage, random_bytes, random_words, slices, WILD};
use crate::generate::pair::{self, Pair};
use crate::generate::random::Random;
use crate::generate::turn::turned;
use crate::generate::{damage_bytes, large_leaning, until, Scale};
use crate::make::Make;
use crate::order::ORDERS;
use crate::vectors::{run, Case, LEANING};

/// Pairs that are accepted come oftener, as do those on a refused base, since
/// there are many of them. 8 and sums of lengths are for large pairs.
const AIMS: [u32; 26] = [
    0, 0, 0, 0, 0, 0, 1, 2, 3, 4, 5, 6, 7, 9, 10, 11, 12, 13, 14, 15, 25, 25, 25, 26, 26, WILD,
];

pub fn case(r: &mut Random, scale: Scale) -> Case {
    if scale == Scale::Full && r.one_in(60) {
        return large_leaning::case(r);
    }
    let aim = r.pick(&AIMS);
    let hits = |case: &Case| aim == WILD || run(case).number == aim;
    until(r, scale, 12, hits, |r| attempt(r, scale, aim))
}

/// The check of a pair with so many places lent.
pub fn lend(a: Vec<u8>, b: Vec<u8>, (index_places, work_places): (u32, u32)) -> Case {
    Case {
        op: LEANING,
        index_places,
        work_places,
        a,
        b,
        ..Case::default()
    }
}

fn attempt(r: &mut Random, scale: Scale, aim: u32) -> Case {
    let mut pair = pair::accepted(r, scale);
    if (10..=15).contains(&aim) {
        damage_module(r, &mut pair, aim);
    } else if aim != 0 && r.one_in(4) {
        let number = r.between(10, 15);
        damage_module(r, &mut pair, number);
    }
    let (base, module) = pair.blobs();
    let places = pair.count() + 1;
    let enough = slices(r, places, false);
    match aim {
        1..=7 => lend(base, damaged(r, &pair, aim), enough),
        9 => {
            let few = few_places(r, pair.types + 1, places);
            lend(base, module, few)
        }
        25 => on_refused_base(r, scale, module),
        26 => {
            let other = of_other_order(r, module);
            lend(base, other, enough)
        }
        WILD => {
            let (base, module) = wild(r, base, module);
            lend(base, module, slices(r, places + 3, false))
        }
        _ => lend(base, module, enough),
    }
}

/// Damage of one of the reports 10 to 15. Some goes to the base; the names and
/// references around the marks are the module's.
pub fn damage_module(r: &mut Random, pair: &mut Pair, number: u32) {
    let (last, types, mark) = (pair.count(), pair.types, pair.strings as u32);
    if last == types || !r.one_in(3) {
        return damage(r, &mut pair.whole, number);
    }
    let record = pair.whole.at(r.between(types + 1, last));
    match number {
        11 => record.name = r.pick(&[mark - 1, mark, mark, mark + 1]),
        13 => record.third = r.pick(&[types, types + 1, last, last + 1]),
        _ => damage(r, &mut pair.whole, number),
    }
}

/// The module's blob with damage of one of the reports 1 to 7.
pub fn damaged(r: &mut Random, pair: &Pair, number: u32) -> Vec<u8> {
    let mut module = pair.module();
    match number {
        6 => damage_bytes::cut_records(r, &mut module),
        7 => damage_bytes::unknown_kind(r, &mut module),
        _ => {
            let mut blob = module.blob();
            if r.one_in(4) {
                let other = r.between(2, 5);
                damage_bytes::phase_1(r, &mut blob, other);
            }
            damage_bytes::phase_1(r, &mut blob, number);
            blob
        }
    }
}

/// Enough for the base and too few for both, in either slice.
fn few_places(r: &mut Random, base: u32, both: u32) -> (u32, u32) {
    let any = r.between(base, both);
    let few = r.pick(&[base, both - 1, both - 1, any]);
    let enough = both + r.below(2);
    r.pick(&[(few, enough), (enough, few), (few, few)])
}

/// A base with any report, also 9 by short slices, before a module's table that
/// would be accepted or not.
fn on_refused_base(r: &mut Random, scale: Scale, module: Vec<u8>) -> Case {
    let mut number = check_cases::aim(r, scale);
    while number == 0 || number > WILD {
        number = check_cases::aim(r, scale);
    }
    let aimed = check_cases::aimed(r, scale, number);
    let module = match r.below(6) {
        0 => random_bytes(r),
        1 => turned(&module),
        2 => Vec::new(),
        _ => module,
    };
    let places = slices(r, aimed.places, number == 9);
    lend(aimed.blob, module, places)
}

/// The module's table turned round, whole or cut, or no more than two bytes.
fn of_other_order(r: &mut Random, module: Vec<u8>) -> Vec<u8> {
    let mut other = turned(&module);
    match r.below(4) {
        0 => other.truncate(r.pick(&[0, 1, 2, 2, 3, 4, 23])),
        1 => {
            // The words stay as they are.
            other = module;
            other.swap(0, 1);
        }
        _ => (),
    }
    other
}

/// Bytes that mean nothing, and bits that are turned in either blob.
fn wild(r: &mut Random, base: Vec<u8>, module: Vec<u8>) -> (Vec<u8>, Vec<u8>) {
    match r.below(6) {
        0 => (base, random_words(r)),
        1 => {
            let mut bytes = random_bytes(r);
            if bytes.len() >= 2 {
                bytes[..2].copy_from_slice(&r.pick(&ORDERS).magic());
            }
            (base, bytes)
        }
        2 => (Make::new().blob(), module),
        3 => (module, base),
        _ => {
            let mut turned = module;
            for _ in 0..r.between(1, 3) {
                let at = r.below(turned.len() as u32) as usize;
                turned[at] ^= 1 << r.below(8);
            }
            (base, turned)
        }
    }
}
