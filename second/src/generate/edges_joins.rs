//! Joins at their edges, without chance: every kind behind every other, each
//! word by its role, every report inside 16 and 17, each length of the output.

use crate::generate::edges::{one_of, Part};
use crate::make::{blob_of, field, info, put_word, Make};
use crate::table::{Kind, ALL_KINDS};
use crate::vectors::{run, Case, JOIN};

/// Every report that a table of a few types can get by itself.
pub const SMALL_REPORTS: [u32; 13] = [1, 2, 3, 4, 5, 6, 7, 10, 11, 12, 13, 14, 15];

pub const PARTS: &[Part] = &[
    ("joined-kinds", |found, _| kinds(found)),
    ("roles", |found, _| roles(found)),
    ("refusals", |found, _| refusals(found)),
    ("short-slices", |found, _| short_slices(found)),
    ("outputs", |found, _| outputs(found)),
    ("groups", |found, _| groups(found)),
];

fn groups(found: &mut Vec<Case>) {
    for [a, b, c] in triples() {
        found.extend(grouped(&a, &b, &c, 12));
    }
}

/// A join with so many places lent in each u32 slice.
pub fn call(a: &[u8], b: &[u8], places: u32, output_bytes: u32) -> Case {
    Case {
        op: JOIN,
        index_places: places,
        work_places: places,
        output_bytes,
        a: a.to_vec(),
        b: b.to_vec(),
        ..Case::default()
    }
}

/// The joined length of two tables: one header and one zero byte are shared.
pub fn length(a: &[u8], b: &[u8]) -> u32 {
    (a.len() + b.len()).saturating_sub(25) as u32
}

/// Every kind behind every other.
fn kinds(found: &mut Vec<Case>) {
    for first in ALL_KINDS {
        for second in ALL_KINDS {
            let (a, b) = (one_of(first).blob(), one_of(second).blob());
            found.push(call(&a, &b, 6, length(&a, &b) + 2));
        }
    }
}

/// A name at 1 and an empty string at 3.
fn with_strings() -> Make {
    let mut m = Make::new();
    m.string("n");
    m.string("");
    m
}

/// Second tables with each word that rises, and beside it words that look
/// alike and stay: void, offset 0, counts, values, bit offsets, components.
pub fn second_tables() -> Vec<Make> {
    let builders: [fn(&mut Make); 8] = [
        arrays, bare, any_names, functions, tags, members, values, sections,
    ];
    let mut found = Vec::new();
    for build in builders {
        let mut m = with_strings();
        m.int(4);
        m.odd_int(2, 0, 16);
        build(&mut m);
        found.push(m);
    }
    found
}

/// Element and index are different types, and counts are type numbers.
fn arrays(m: &mut Make) {
    m.array(2, 1, 1);
    m.array(1, 1, 2);
    m.array(4, 1, 0);
}

/// Void and types behind the kinds without a tail.
fn bare(m: &mut Make) {
    for kind in [Kind::Ptr, Kind::Volatile, Kind::Const, Kind::Restrict] {
        m.bare(kind, 0, 0, &[]);
        m.bare(kind, 0, 2, &[]);
    }
    for kind in [Kind::Typedef, Kind::TypeTag] {
        m.bare(kind, 1, 0, &[]);
        m.bare(kind, 1, 1, &[]);
    }
    m.raw(1, info(Kind::Fwd, true, 0), 0, &[]);
}

/// Offset 0, a name, its end and the empty string behind it: "any" takes all.
fn any_names(m: &mut Make) {
    for name in 0..4 {
        m.bare(Kind::Float, name, 4, &[]);
        m.bare(Kind::Int, name, 1, &[1]);
    }
}

/// Parameters with and without a name, void last and as what is returned.
fn functions(m: &mut Make) {
    m.func(1, 4);
    m.proto(0, &[[1, 1], [1, 2], [0, 0]]);
    m.proto(2, &[[0, 1], [1, 4], [0, 2]]);
    m.tag(1, 3, 2);
}

/// Components that are type numbers too, 0 and all ones.
fn tags(m: &mut Make) {
    let of = m.listed(Kind::Struct, false, 1, 6, &[[1, 1, 0], [1, 2, 32]]);
    for component in [0, 1, u32::MAX] {
        m.tag(1, of, component);
    }
    let var = m.var(1, 1);
    m.tag(1, var, u32::MAX);
}

/// Offset words that look like type numbers, with and without kind_flag; one
/// member has no name.
fn members(m: &mut Make) {
    m.structure(4, true, &[[1, 1, field(1, 0)], [1, 1, field(0, 0)]]);
    m.structure(8, true, &[[1, 1, 1 << 24], [1, 2, field(3, 1)]]);
    m.union(4, false, &[[0, 2, 0], [1, 1, 0]]);
    m.odd_int(4, 1, 3);
    m.structure(4, false, &[[1, 6, 1], [1, 6, 2], [1, 6, 3]]);
}

/// Values that look like offsets and type numbers.
fn values(m: &mut Make) {
    m.listed(Kind::Enum, false, 0, 4, &[[1, 1], [1, 0], [1, 3]]);
    m.listed(Kind::Enum64, true, 1, 8, &[[1, 1, 2], [1, 0, 1]]);
}

/// Entries whose offsets and sizes look like type numbers, in both orders.
fn sections(m: &mut Make) {
    m.var(1, 1);
    m.var(1, 2);
    m.section(1, 12, &[[3, 1, 4], [4, 5, 3], [3, 8, 4]]);
    m.section(1, 0, &[[4, 2, 4], [3, 1, 5]]);
}

/// Each of them behind the empty table, behind types without strings, behind
/// strings without types, and behind both.
fn roles(found: &mut Vec<Case>) {
    let mut pointers = Make::new();
    pointers.ptr(0);
    pointers.ptr(0);
    let firsts = [Make::new(), pointers, with_strings(), one_of(Kind::Array)];
    for second in second_tables() {
        for first in &firsts {
            let (a, b) = (first.blob(), second.blob());
            found.push(call(&a, &b, 16, length(&a, &b)));
        }
    }
}

/// A table whose third type has this report, for those that name one but 6.
pub fn bad_third(report: u32) -> Make {
    let mut m = with_strings();
    m.int(4);
    m.structure(4, false, &[[1, 1, 0]]);
    match report {
        7 => m.raw(0, 20 << 24, 0, &[]),
        10 => m.int(3),
        11 => m.typedef(0, 1),
        12 => m.odd_int(2, 0, 17),
        13 => m.ptr(4),
        14 => m.constant(3),
        15 => m.structure(3, false, &[[1, 1, 0]]),
        _ => m.ptr(1),
    };
    m
}

/// A table with this report, at its third type where a report names one.
pub fn refused(report: u32) -> Vec<u8> {
    let m = bad_third(report);
    let mut blob = m.blob();
    let last = blob.len() - 1;
    match report {
        1 => blob.truncate(23),
        2 => blob[3] = 1,
        3 => put_word(&mut blob, 4, 25),
        4 => put_word(&mut blob, 8, 4),
        5 => blob[last] = 1,
        6 => blob = blob_of(&m.type_words()[..11], &m.strings),
        _ => {}
    }
    blob
}

/// Each report inside 16 and 17, with an output and without; both tables
/// refused, where the first speaks.
fn refusals(found: &mut Vec<Case>) {
    let good = one_of(Kind::Struct).blob();
    for report in SMALL_REPORTS {
        let bad = refused(report);
        let other = refused(if report == 15 { 1 } else { 15 });
        for output_bytes in [0, 300] {
            found.push(call(&bad, &good, 6, output_bytes));
            found.push(call(&good, &bad, 6, output_bytes));
            found.push(call(&bad, &other, 6, output_bytes));
        }
    }
}

/// Report 9 inside: a slice too short for the first, for the second or for
/// both, by one place or all; places for the larger table are enough.
fn short_slices(found: &mut Vec<Case>) {
    let (e, t, u) = (Make::new().blob(), refused(0), one_of(Kind::Struct).blob());
    for (a, b) in [(&e, &t), (&t, &e), (&t, &u), (&u, &t), (&t, &t)] {
        for (index, work) in [
            (3, 6),
            (6, 3),
            (4, 4),
            (4, 6),
            (5, 6),
            (6, 5),
            (6, 6),
            (0, 6),
        ] {
            found.push(Case {
                index_places: index,
                work_places: work,
                ..call(a, b, 0, length(a, b))
            });
        }
    }
}

/// The empty table on either side and on both, a table joined to itself and
/// the paper's T to T, into outputs around the joined length.
fn outputs(found: &mut Vec<Case>) {
    let mut bench = Make::new();
    let name = bench.string("t");
    bench.raw(name, 1 << 24, 2, &[0x0100_0010]);
    let (e, t, b) = (
        Make::new().blob(),
        one_of(Kind::Struct).blob(),
        bench.blob(),
    );
    for (a, b) in [(&e, &t), (&t, &e), (&e, &e), (&t, &t), (&b, &b)] {
        let joined = length(a, b);
        for output_bytes in [0, 24, joined - 1, joined, joined + 1, joined + 40] {
            for places in [0, 1, 5, 6, 7] {
                found.push(call(a, b, places, output_bytes));
            }
        }
    }
}

/// Three tables, among them the empty one in each place.
pub fn triples() -> Vec<[Vec<u8>; 3]> {
    let e = Make::new().blob();
    let [s, p, d] = [Kind::Struct, Kind::FuncProto, Kind::Datasec].map(|kind| one_of(kind).blob());
    vec![
        [e.clone(), s.clone(), p.clone()],
        [s.clone(), e.clone(), p.clone()],
        [s.clone(), p.clone(), e],
        [s.clone(), s.clone(), s.clone()],
        [p, d, s],
    ]
}

/// The four joins of three tables: a to b, b to c, then both groupings, whose
/// outputs must be the same.
pub fn grouped(a: &[u8], b: &[u8], c: &[u8], places: u32) -> Vec<Case> {
    let first = call(a, b, places, length(a, b));
    let last = call(b, c, places, length(b, c));
    let (ab, bc) = (run(&first).output, run(&last).output);
    let left = call(&ab, c, places, length(&ab, c));
    let right = call(a, &bc, places, length(a, &bc));
    vec![first, last, left, right]
}
