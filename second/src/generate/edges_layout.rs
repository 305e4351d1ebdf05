//! The layout rules of report 15 at their edges, without chance.

use crate::generate::edges::{add, Part};
use crate::make::{field, int_word, Make};
use crate::table::Kind;
use crate::vectors::Case;

pub const PARTS: &[Part] = &[
    ("members", |found, thin| bases(found, thin, members)),
    ("fields", |found, thin| bases(found, thin, fields)),
    ("elements", |found, _| elements(found)),
    ("none-of", |found, _| none_of(found)),
    ("indexes", |found, _| indexes(found)),
    ("encodings", |found, _| encodings(found)),
    ("components", |found, _| components(found)),
];

/// Thinned, each base is tried bare and behind one of the five layers, and
/// bare with fewer sizes around it.
fn bases(found: &mut Vec<Case>, thin: bool, add_cases: fn(&mut Vec<Case>, u32, u32, bool)) {
    for base in 0..BASES {
        for layers in 0..=5 {
            if !thin || layers == 0 || layers == 1 + base % 5 {
                add_cases(found, base, layers, thin);
            }
        }
    }
}

fn elements(found: &mut Vec<Case>) {
    for base in 0..BASES {
        elements_and_vars(found, base);
    }
}

pub const BASES: u32 = 17;

/// Bases of every nature; all tables have a name at 1 and an INT as type 1.
pub fn base(m: &mut Make, which: u32) -> u32 {
    let name = m.string("n");
    let int = m.int(1);
    match which {
        0 => int,
        1 => m.odd_int(1, 0, 7),
        2 => m.odd_int(1, 2, 4),
        3 => m.odd_int(2, 0, 8),
        4 => m.odd_int(2, 8, 8),
        5 => m.bare(Kind::Enum, 0, 1, &[]),
        6 => m.bare(Kind::Enum64, 0, 1, &[]),
        7 => m.bare(Kind::Float, 0, 2, &[]),
        8 => m.structure(1, false, &[]),
        9 => m.union(0, false, &[]),
        10 => m.array(int, int, 1),
        11 => m.array(int, int, 0),
        12 => m.bare(Kind::Fwd, name, 0, &[]),
        13 => m.proto(0, &[]),
        14 => m.constant(0),
        15 => {
            let large = m.array(int, int, 65_536);
            m.array(large, int, 65_536)
        }
        _ => m.ptr(0),
    }
}

/// One typedef, qualifier or tag around the base, or none.
pub fn layered(m: &mut Make, of: u32, layer: u32) -> u32 {
    let kinds = [
        Kind::Typedef,
        Kind::Volatile,
        Kind::Const,
        Kind::Restrict,
        Kind::TypeTag,
    ];
    match layer.checked_sub(1) {
        None => of,
        Some(which) => {
            let kind = kinds[which as usize];
            let name = u32::from(matches!(kind, Kind::Typedef | Kind::TypeTag));
            m.bare(kind, name, of, &[])
        }
    }
}

/// Fewer offsets and sizes are tried behind a layer than without one.
fn some(all: &[u32], layers: u32) -> &[u32] {
    if layers == 0 {
        all
    } else {
        &all[..2]
    }
}

/// The first of them, thinned.
fn first(all: &[u32], count: usize, thin: bool) -> &[u32] {
    if thin {
        &all[..count]
    } else {
        all
    }
}

/// Without kind_flag.
fn members(found: &mut Vec<Case>, which: u32, layers: u32, thin: bool) {
    let sizes = first(&[1, 0, 2, 3, 8, 9], 4, thin);
    for offset in some(&[0, 1, 2, 4, 7, 8], layers) {
        for bytes in some(sizes, layers) {
            for kind in [Kind::Struct, Kind::Union] {
                let mut m = Make::new();
                let of = base(&mut m, which);
                let of = layered(&mut m, of, layers);
                m.listed(kind, false, 0, *bytes, &[[1, of, *offset]]);
                add(found, &m);
            }
        }
    }
}

/// With kind_flag.
fn fields(found: &mut Vec<Case>, which: u32, layers: u32, thin: bool) {
    let sizes = first(&[1, 2, 0, 8, 9], 3, thin);
    for width in [0, 1, 7, 8, 9, 16, 17] {
        for offset in some(&[0, 1, 8], layers) {
            for bytes in some(sizes, layers) {
                let mut m = Make::new();
                let of = base(&mut m, which);
                let of = layered(&mut m, of, layers);
                m.structure(*bytes, true, &[[1, of, field(width, *offset)]]);
                add(found, &m);
            }
        }
    }
}

fn elements_and_vars(found: &mut Vec<Case>, which: u32) {
    for count in [0, 1, u32::MAX] {
        let mut m = Make::new();
        let of = base(&mut m, which);
        m.array(of, 1, count);
        add(found, &m);
        let last = m.count();
        m.var(1, last);
        add(found, &m);
    }
    let mut m = Make::new();
    let of = base(&mut m, which);
    m.var(1, of);
    add(found, &m);
}

/// Type 1 holds type 3, which is no, one or two elements of type 4, and so
/// does the VAR behind them. Where type 4 has no size, type 3 has none either,
/// and the smallest type that asks for one is named.
fn none_of(found: &mut Vec<Case>) {
    for holder in 0..6 {
        for count in 0..3 {
            for element in 0..6 {
                let mut m = Make::new();
                m.string("n");
                add_holder(&mut m, holder);
                m.int(4);
                m.array(4, 2, count);
                match element {
                    0 => m.bare(Kind::Fwd, 1, 0, &[]),
                    1 => m.proto(0, &[]),
                    2 => m.constant(0),
                    3 => m.array(6, 2, 0),
                    4 => m.structure(u32::MAX, false, &[]),
                    _ => m.int(1),
                };
                m.var(1, 3);
                m.bare(Kind::Fwd, 1, 0, &[]);
                add(found, &m);
            }
        }
    }
}

fn add_holder(m: &mut Make, which: u32) {
    match which {
        0 => m.structure(0, false, &[[1, 3, 0]]),
        1 => m.union(8, false, &[[1, 3, 0]]),
        2 => m.structure(2, true, &[[1, 3, 0]]),
        3 => m.var(1, 3),
        4 => m.array(3, 2, 0),
        _ => m.section(1, 0, &[[5, 0, 0]]),
    };
}

/// Index INTs of every width, in their first two offsets.
fn indexes(found: &mut Vec<Case>) {
    for width in 1..=128 {
        for offset in [0, 1] {
            let mut m = Make::new();
            if width + offset <= 128 {
                m.odd_int(16, offset, width);
                m.array(1, 1, 2);
                add(found, &m);
            }
        }
    }
}

/// A regular INT of each encoding as an index and as a bit field's base: the
/// sign is not asked. Its width is as its size or narrower.
fn encodings(found: &mut Vec<Case>) {
    for encoding in [0, 1, 2, 4] {
        for bytes in [1, 2] {
            let mut m = Make::new();
            m.string("n");
            m.bare(Kind::Int, 0, bytes, &[int_word(encoding, 0, 8)]);
            m.array(1, 1, 2);
            add(found, &m);
            m.structure(2, true, &[[1, 1, field(3, 1)], [1, 1, field(0, 8)]]);
            add(found, &m);
        }
    }
}

fn components(found: &mut Vec<Case>) {
    for target in 2..=6 {
        for component in (0..4).chain([0xFFFF, 1 << 31, u32::MAX - 1, u32::MAX]) {
            let mut m = Make::new();
            let of = base(&mut m, 0);
            m.structure(1, false, &[[1, of, 0], [1, of, 0]]);
            m.union(1, false, &[[1, of, 0]]);
            m.func(1, 7);
            m.var(1, of);
            m.typedef(1, of);
            m.proto(0, &[[1, of], [1, of], [0, 0]]);
            m.tag(1, target, component);
            add(found, &m);
        }
    }
}
