//! Tables at the limits of types and bytes, taken apart, without chance.

use crate::apart::Cut;
use crate::generate::joined::{ask, end_of, lengths, Joined, FRONT};
use crate::generate::large::pointers;
use crate::generate::large_fixed::{
    chain_down, chain_up, entries, nest, parameters, pointers_down, pointers_up,
};
use crate::generate::turn::turned_case;
use crate::limits::{BYTE_LIMIT, FULL_PLACES, TYPE_LIMIT};
use crate::make::Make;
use crate::vectors::Case;

/// All of them, in both orders. Thinned, a table at both limits is cut in the
/// middle, in front and, one byte too short, at the end.
pub fn cases(thin: bool) -> Vec<Case> {
    let mut found = Vec::new();
    if thin {
        let m = at_limits(TYPE_LIMIT, BYTE_LIMIT);
        found.push(exact(&m, MIDDLE));
        found.push(turned_case(&exact(&m, FRONT)));
        found.push(shorter(&m, end_of(&m), [1, 0]));
        return found;
    }
    limits(&mut found);
    crossing(&mut found);
    long_tables(&mut found);
    many_names(&mut found);
    found.extend(found.clone().iter().map(turned_case));
    found
}

/// Cut with both outputs just as long as their tables.
fn exact(m: &Make, cut: Cut) -> Case {
    shorter(m, cut, [0, 0])
}

/// The same with so many bytes fewer in each output.
fn shorter(m: &Make, cut: Cut, [first, second]: [u32; 2]) -> Case {
    let [a, b] = lengths(m, cut);
    let outputs = [a - first, b - second];
    ask(m.blob(), cut, (FULL_PLACES, FULL_PLACES), outputs)
}

/// Half of the types, and a cut between two of the empty strings.
const MIDDLE: Cut = Cut {
    types: TYPE_LIMIT / 2,
    strings: 30_000,
};

/// Pointers, and empty strings up to so many bytes: each cut is good.
fn at_limits(types: u32, bytes: u32) -> Make {
    let mut m = pointers(types);
    let missing = bytes as usize - m.blob().len();
    m.strings.extend(vec![0; missing]);
    m
}

/// At both limits and one past each, cut in front, in the middle and behind,
/// and one past the end; each output one byte too short.
fn limits(found: &mut Vec<Case>) {
    let m = at_limits(TYPE_LIMIT, BYTE_LIMIT);
    for cut in [FRONT, MIDDLE, end_of(&m)] {
        found.push(exact(&m, cut));
        found.push(shorter(&m, cut, [1, 0]));
        found.push(shorter(&m, cut, [0, 1]));
        found.push(exact(&at_limits(TYPE_LIMIT + 1, BYTE_LIMIT), cut));
        found.push(exact(&at_limits(TYPE_LIMIT, BYTE_LIMIT + 1), cut));
    }
    let end = end_of(&m);
    for (types, strings) in [(1, 0), (0, 1), (1, 1)] {
        let past = Cut {
            types: end.types + types,
            strings: end.strings + strings,
        };
        found.push(exact(&m, past));
    }
}

/// At the limit, the first or the last record is what crosses the cut.
fn crossing(found: &mut Vec<Case>) {
    let m = at_limits(TYPE_LIMIT, BYTE_LIMIT - 48);
    let half = MIDDLE.types;
    for (number, to) in [
        (1, half),
        (1, half + 1),
        (1, TYPE_LIMIT),
        (TYPE_LIMIT, half + 1),
        (TYPE_LIMIT, half),
        (TYPE_LIMIT, 1),
    ] {
        let mut other = m.clone();
        other.at(number).third = to;
        found.push(exact(&other, MIDDLE));
    }
}

/// Chains, nests, sections and prototypes behind each other, cut where they
/// meet and one type off.
fn long_tables(found: &mut Vec<Case>) {
    let tables = [
        chain_up(5_000),
        chain_down(5_000),
        nest(1_500),
        pointers_up(5_000),
        pointers_down(5_000),
        entries(6_000, 24_000),
        parameters(9_000, 9_000, 8_999),
    ];
    for (at, first) in tables.iter().enumerate() {
        let second = &tables[(at + 1) % tables.len()];
        let joined = Joined::of(&[first.clone(), second.clone(), first.clone()]);
        for cut in joined.cuts {
            found.push(exact(&joined.whole, cut));
            for types in [cut.types - 1, cut.types + 1] {
                found.push(exact(&joined.whole, Cut { types, ..cut }));
            }
        }
    }
}

/// Names of thousands of types: each has its own, so that cuts are good
/// between any two of them.
fn many_names(found: &mut Vec<Case>) {
    let mut m = Make::new();
    let mut cuts = Vec::new();
    for number in 0..7_000 {
        let name = m.string(format!("name_{number}"));
        m.typedef(name, 0);
        cuts.push(end_of(&m));
    }
    for at in [0, 1, 3_499, 6_998, 6_999] {
        let Cut { types, strings } = cuts[at];
        for strings in [strings - 1, strings, strings + 1] {
            found.push(exact(&m, Cut { types, strings }));
        }
        for types in [types - 1, types + 1] {
            found.push(exact(&m, Cut { types, strings }));
        }
    }
}
