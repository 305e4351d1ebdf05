//! Taking tables apart at the edges of what may be asked, without chance: every
//! cut of small joins, each length of both outputs, every ground before others.

use crate::apart::Cut;
use crate::generate::edges::{one_of, Part};
use crate::generate::edges_joins::{refused, SMALL_REPORTS};
use crate::generate::joined::{ask, end_of, lengths, Joined, FRONT};
use crate::generate::large::pointers;
use crate::make::Make;
use crate::table::Kind;
use crate::vectors::Case;

pub const PARTS: &[Part] = &[
    ("apart-cuts", |found, _| cuts(found)),
    ("apart-numbers", |found, _| numbers(found)),
    ("apart-outputs", |found, _| outputs(found)),
    ("apart-slices", |found, _| slices(found)),
    ("apart-reports", |found, _| reports(found)),
    ("apart-filled", |found, _| filled(found)),
];

/// A cut with just as many places and bytes as it needs.
pub fn add(found: &mut Vec<Case>, m: &Make, cut: Cut) {
    let places = m.count() + 1;
    let outputs = lengths(m, cut);
    found.push(ask(m.blob(), cut, (places, places), outputs));
}

/// The paper's T.
fn bench() -> Make {
    let mut m = Make::new();
    let name = m.string("t");
    m.raw(name, 1 << 24, 2, &[0x0100_0010]);
    m
}

/// Every cut of a table, and one past it in both numbers.
fn every_cut(found: &mut Vec<Case>, m: &Make) {
    let end = end_of(m);
    for types in 0..=end.types + 1 {
        for strings in 0..=end.strings + 1 {
            add(found, m, Cut { types, strings });
        }
    }
}

fn cuts(found: &mut Vec<Case>) {
    let (e, t) = (Make::new(), bench());
    let mut texts = pointers(2);
    texts.string("ab");
    texts.string("c");
    let zeros = Make {
        strings: vec![0; 4],
        ..pointers(2)
    };
    let [first, second] = empty_strings();
    for tables in [
        [&e, &e, &e],
        [&t, &t, &e],
        [&e, &t, &e],
        [&t, &t, &t],
        [&t, &texts, &t],
        [&texts, &e, &texts],
        [&zeros, &t, &zeros],
        [&first, &second, &e],
        [&second, &first, &e],
        [&first, &first, &second],
    ] {
        let tables = tables.map(Make::clone);
        every_cut(found, &Joined::of(&tables).whole);
    }
}

/// Names that lead to an empty string, in front of all others and behind them.
fn empty_strings() -> [Make; 2] {
    [["a", ""], ["", "b"]].map(|texts| {
        let mut m = Make::new();
        for text in texts {
            let name = m.string(text);
            m.bare(Kind::Float, name, 4, &[]);
        }
        m
    })
}

/// Numbers far outside, some of them right in their low bits.
fn numbers(found: &mut Vec<Case>) {
    let m = Joined::of(&[bench(), bench()]).whole;
    let far = [1 << 8, 1 << 16, 1 << 24, 1 << 31, u32::MAX - 4];
    let numbers = |right: u32| far.map(|more| right + more).into_iter().chain([u32::MAX]);
    for types in numbers(1).chain([1]) {
        for strings in numbers(0).chain(numbers(1)).chain([3]) {
            add(found, &m, Cut { types, strings });
        }
    }
    for types in numbers(1).chain(numbers(0)) {
        add(found, &m, Cut { types, ..FRONT });
        add(found, &m, Cut { types, strings: 0 });
    }
    for strings in numbers(3).chain(numbers(2)) {
        add(found, &m, Cut { types: 1, strings });
        add(found, &m, Cut { types: 0, strings });
    }
}

/// Two tables of different lengths, cut where they meet, in front of both,
/// behind both, and where nothing is good, into outputs around both lengths.
fn outputs(found: &mut Vec<Case>) {
    let joined = Joined::of(&[bench(), one_of(Kind::Struct)]);
    let m = &joined.whole;
    let mut all = joined.own_cuts();
    all.push(Cut {
        types: 2,
        strings: 3,
    });
    for cut in all {
        let [a, b] = lengths(m, cut);
        for first in [0, 24, a - 1, a, a + 1, a + 40, b] {
            for second in [0, 24, b - 1, b, b + 1, b + 40, a] {
                let places = (m.count() + 1, m.count() + 3);
                found.push(ask(m.blob(), cut, places, [first, second]));
            }
        }
    }
}

/// Each slice with no place, with too few and with enough: of the whole, not of
/// either part. 9 comes before 60 and 61.
fn slices(found: &mut Vec<Case>) {
    let whole = Joined::of(&[bench(), bench(), Make::new()]).whole;
    for m in [whole, Make::new()] {
        let end = end_of(&m);
        let past = Cut {
            types: end.types + 1,
            ..end
        };
        for (cut, outputs) in [(end, lengths(&m, end)), (end, [0, 0]), (past, [0, 0])] {
            for places in 0..6 {
                for places in [(places, 5), (5, places)] {
                    found.push(ask(m.blob(), cut, places, outputs));
                }
            }
        }
    }
}

/// Each report, and none, with every other ground beside it.
fn reports(found: &mut Vec<Case>) {
    let end = Cut {
        types: 3,
        strings: 4,
    };
    let past = Cut {
        types: 4,
        strings: 4,
    };
    for report in SMALL_REPORTS.into_iter().chain([0]) {
        for cut in [FRONT, end, past] {
            for outputs in [[0, 0], [300, 300], [0, 300], [300, 0]] {
                found.push(ask(refused(report), cut, (4, 4), outputs));
            }
        }
    }
}

/// What b holds does not matter.
fn filled(found: &mut Vec<Case>) {
    let joined = Joined::of(&[bench(), one_of(Kind::Enum)]);
    let mut cases = Vec::new();
    for cut in joined.own_cuts() {
        add(&mut cases, &joined.whole, cut);
        let types = cut.types + 1;
        add(&mut cases, &joined.whole, Cut { types, ..cut });
    }
    for case in cases {
        let short = case.b.len() - 1;
        for bytes in [vec![0; case.b.len()], vec![0xFF; short + 9], vec![7; short]] {
            found.push(Case {
                b: bytes,
                ..case.clone()
            });
        }
    }
}
