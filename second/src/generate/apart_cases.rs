//! Cases of taking a table apart: joins cut where they were joined and
//! elsewhere, what crosses the cut, outputs around their lengths, and blobs
//! with each report.

use crate::apart::{is_good, Cut};
use crate::generate::check_cases::{aimed, broken, slices, ACCEPTED, WILD};
use crate::generate::crossing::{crossed, fused};
use crate::generate::joined::{ask, end_of, lengths, Joined};
use crate::generate::pieces::table_of;
use crate::generate::random::Random;
use crate::generate::{long_apart, until, valid, Scale};
use crate::make::Make;
use crate::table::Kind;
use crate::vectors::{run, Case};

/// Both tables and 60 come oftest, since there are most ways to them. 8 is for
/// long tables.
const AIMS: [u32; 36] = [
    0, 0, 0, 0, 0, 0, 0, 0, 0, 60, 60, 60, 60, 60, 60, 60, 60, 61, 61, 61, 61, 1, 2, 3, 4, 5, 6, 7,
    9, 10, 11, 12, 13, 14, 15, WILD,
];

pub fn case(r: &mut Random, scale: Scale) -> Case {
    if scale == Scale::Full && r.one_in(60) {
        return long_apart::case(r);
    }
    let aim = r.pick(&AIMS);
    let hits = |case: &Case| aim == WILD || run(case).number == aim;
    until(r, scale, 12, hits, |r| attempt(r, scale, aim))
}

fn attempt(r: &mut Random, scale: Scale, aim: u32) -> Case {
    let mut joined = joined(r, scale);
    let cut = match aim {
        60 => bad_cut(r, &mut joined),
        _ => good_cut(r, &joined),
    };
    let outputs = outputs(r, lengths(&joined.whole, cut), aim);
    let aimed = match aim {
        WILD => aimed(r, scale, WILD),
        60 | 61 => broken(r, scale, joined.whole, ACCEPTED),
        _ => broken(r, scale, joined.whole, aim),
    };
    let places = slices(r, aimed.places, aim == 9);
    ask(aimed.blob, cut, places, outputs)
}

/// Two tables, and at times a third.
fn joined(r: &mut Random, scale: Scale) -> Joined {
    let count = r.pick(&[2, 2, 3]);
    let tables: Vec<Make> = (0..count).map(|_| one(r, scale)).collect();
    Joined::of(&tables)
}

/// An accepted table, at times the empty one; some with an empty string in
/// front of all others or behind them, and a name that leads there.
fn one(r: &mut Random, scale: Scale) -> Make {
    let mut m = match r.below(8) {
        0 => Make::new(),
        1 => {
            let mut m = Make::new();
            add_empty(r, &mut m);
            m
        }
        _ => valid::table(r, scale),
    };
    if r.one_in(4) {
        add_empty(r, &mut m);
    }
    m
}

fn add_empty(r: &mut Random, m: &mut Make) {
    let name = m.string("");
    if !r.one_in(3) {
        m.bare(Kind::Float, name, 4, &[]);
    }
}

/// Where tables were joined, in front of all, behind all, or any other place
/// that is good too.
fn good_cut(r: &mut Random, joined: &Joined) -> Cut {
    if r.one_in(2) {
        return r.pick(&joined.cuts);
    }
    let own = r.pick(&joined.own_cuts());
    let Some(table) = table_of(&joined.whole) else {
        return own;
    };
    let types = r.below(table.count() + 1);
    let all = (1..=table.strings.len() as u32).map(|strings| Cut { types, strings });
    let good: Vec<Cut> = all.filter(|cut| is_good(&table, *cut)).collect();
    match r.pick_any(&good) {
        Some(cut) if !r.one_in(3) => cut,
        _ => own,
    }
}

/// A cut that is most likely not good, or a table that nothing but the cut was
/// good for.
pub fn bad_cut(r: &mut Random, joined: &mut Joined) -> Cut {
    let cut = r.pick(&joined.own_cuts());
    let end = end_of(&joined.whole);
    let Cut { types, strings } = cut;
    match r.below(9) {
        0 => Cut {
            types: types.wrapping_add(r.pick(&[1, u32::MAX])),
            strings,
        },
        1 | 2 => Cut {
            types,
            strings: strings.wrapping_add(r.pick(&[1, u32::MAX])),
        },
        3 => Cut {
            types: r.below(end.types + 2),
            strings: r.below(end.strings + 2),
        },
        4 => outside(r, cut, end),
        5 => {
            fused(r, joined, cut);
            cut
        }
        _ => {
            crossed(r, joined, cut);
            cut
        }
    }
}

/// Just past the end in either number or far past it, or no strings at all.
fn outside(r: &mut Random, cut: Cut, end: Cut) -> Cut {
    let past =
        |r: &mut Random, last: u32| r.pick(&[last + 1, last + 1, 1 << 16, 1 << 31, u32::MAX]);
    let (types, strings) = (past(r, end.types), past(r, end.strings));
    match r.below(4) {
        0 => Cut { types, ..cut },
        1 => Cut { strings, ..cut },
        2 => Cut { strings: 0, ..cut },
        _ => Cut { types, strings },
    }
}

/// Bytes lent in each output, for tables of so many: enough for both, too few
/// for 61, and any where another ground comes before that.
pub fn outputs(r: &mut Random, exact: [u32; 2], aim: u32) -> [u32; 2] {
    match (aim, r.below(3)) {
        (0, _) | (1..=60, 0) => exact.map(|bytes| bytes + r.pick(&[0, 0, 1, 5, 20])),
        (1..=60, 1) => [0, 0],
        _ => short(r, exact),
    }
}

/// One output or both too short, or each as long as the other should be.
fn short(r: &mut Random, exact: [u32; 2]) -> [u32; 2] {
    let less = exact.map(|bytes| {
        let any = r.below(bytes);
        r.pick(&[0, 24, bytes - 1, bytes - 1, any])
    });
    let longer = exact.map(|bytes| bytes + r.pick(&[0, 0, 3, 100]));
    match r.below(4) {
        0 => [less[0], longer[1]],
        1 => [longer[0], less[1]],
        2 => less,
        _ => [exact[1], exact[0]],
    }
}
