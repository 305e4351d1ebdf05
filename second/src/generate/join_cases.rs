//! Cases of the join: pairs that fit, pairs refused on each ground.

use crate::generate::check_cases::{aim, aimed, slices, Aimed, ACCEPTED, WILD};
use crate::generate::random::Random;
use crate::generate::turn::mixed;
use crate::generate::{large, until, valid, Scale};
use crate::limits::{BYTE_LIMIT, FULL_PLACES, TYPE_LIMIT};
use crate::make::Make;
use crate::vectors::{run, Case, JOIN, MOST_BYTES};

/// One in six is of two orders, whatever other ground there is.
pub fn case(r: &mut Random, scale: Scale) -> Case {
    let case = of_one_order(r, scale);
    if r.one_in(6) {
        mixed(r, case)
    } else {
        case
    }
}

fn of_one_order(r: &mut Random, scale: Scale) -> Case {
    let ground = r.pick(&[0, 0, 0, 0, 0, 16, 16, 17, 17, 18, 19, 20]);
    if ground == 18 || ground == 19 {
        if scale != Scale::Full || !r.one_in(3) {
            return of_one_order(r, scale);
        }
        return large_pair(r, ground);
    }
    let hits = |case: &Case| run(case).number == ground;
    until(r, scale, 8, hits, |r| pair(r, scale, ground))
}

/// An accepted table, at times the empty one.
fn good(r: &mut Random, scale: Scale) -> Aimed {
    let m = if r.one_in(6) {
        Make::new()
    } else {
        valid::table(r, scale)
    };
    Aimed {
        blob: m.blob(),
        places: m.count() + 1,
    }
}

/// A table aimed at a report that needs no limits.
fn bad(r: &mut Random, scale: Scale) -> (Aimed, bool) {
    let mut number = aim(r, scale);
    while number == ACCEPTED || number > WILD {
        number = aim(r, scale);
    }
    (aimed(r, scale, number), number == 9)
}

fn pair(r: &mut Random, scale: Scale, ground: u32) -> Case {
    let mut short = false;
    let mut refused = |r: &mut Random| {
        let (table, is_short) = bad(r, scale);
        short = is_short;
        table
    };
    let (a, b) = match ground {
        16 if r.one_in(4) => (refused(r), refused(r)),
        16 => (refused(r), good(r, scale)),
        17 => (good(r, scale), refused(r)),
        _ => (good(r, scale), good(r, scale)),
    };
    let (index_places, work_places) = if short && ground == 17 && a.places < b.places {
        // Enough for the first table and too few for the second.
        let few = r.between(a.places, b.places - 1);
        r.pick(&[(few, b.places), (b.places, few), (few, few)])
    } else {
        // Places for the larger of the two are enough.
        slices(r, a.places.max(b.places), short)
    };
    lend(r, a.blob, b.blob, index_places, work_places, ground)
}

/// Adds an output of fitting length, or a shorter one for report 20.
fn lend(r: &mut Random, a: Vec<u8>, b: Vec<u8>, index: u32, work: u32, ground: u32) -> Case {
    let joined = (a.len() + b.len()).saturating_sub(25) as u32;
    let output_bytes = match ground {
        20 => r.pick(&[
            0,
            24,
            joined.saturating_sub(1),
            joined.saturating_sub(1),
            joined / 2,
        ]),
        0 => joined + r.pick(&[0, 0, 1, 5, 20]),
        _ => r.pick(&[0, 8, joined, joined + 3]),
    };
    Case {
        op: JOIN,
        index_places: index,
        work_places: work,
        output_bytes: output_bytes.min(MOST_BYTES),
        a,
        b,
        ..Case::default()
    }
}

/// Pairs around the type limit or around the byte limit together.
fn large_pair(r: &mut Random, ground: u32) -> Case {
    let (a, b) = if ground == 18 {
        let first = r.pick(&[1, 100, TYPE_LIMIT / 2, 16_000, TYPE_LIMIT]);
        let together = TYPE_LIMIT + r.pick(&[0, 1, 1, 2, 4]);
        (
            large::pointers(first).blob(),
            large::pointers(together - first).blob(),
        )
    } else {
        let a = valid::table(r, Scale::Small).blob();
        let b = valid::table(r, Scale::Small);
        let together = BYTE_LIMIT as usize + r.pick(&[0, 1, 1, 2, 4]);
        let length = (together + 25 - a.len()).min(BYTE_LIMIT as usize);
        (a, large::padded(&b, length))
    };
    let output = r.pick(&[0, 19, 19, 19, 20]);
    lend(r, a, b, FULL_PLACES, FULL_PLACES, output)
}
