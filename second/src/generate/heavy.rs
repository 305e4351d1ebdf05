//! Accepted tables for the figures: as many types, members, steps or name
//! bytes as fit so many bytes.

use crate::generate::heavy_slow::SLOW;
use crate::generate::large::padded;
use crate::generate::valid::reorder;
use crate::limits::{BYTE_LIMIT, TYPE_LIMIT};
use crate::make::Make;
use crate::table::Kind;

/// A table that can be made at any length.
pub struct Shape {
    pub title: &'static str,
    pub make: fn(usize) -> Make,
}

impl Shape {
    /// Exactly so many bytes; what the records leave over is strings.
    pub fn blob(&self, bytes: usize) -> Vec<u8> {
        padded(&(self.make)(bytes), bytes)
    }
}

/// All of them, the nested ones first and those that were made to be slow last.
pub fn all() -> impl Iterator<Item = &'static Shape> {
    NESTED.iter().chain(&SHAPES).chain(&SLOW)
}

/// Deep struct nesting in both directions.
pub const NESTED: [Shape; 2] = [
    Shape {
        title: "structs in structs, each in a later one",
        make: nested,
    },
    Shape {
        title: "structs in structs, each in an earlier one",
        make: |bytes| turned(nested(bytes)),
    },
];

pub const SHAPES: [Shape; 7] = [
    Shape {
        title: "structs in structs, as many as fit, each in a later one",
        make: nested_full,
    },
    Shape {
        title: "structs in structs, as many as fit, each in an earlier one",
        make: |bytes| turned(nested_full(bytes)),
    },
    Shape {
        title: "INTs only",
        make: ints,
    },
    Shape {
        title: "structs of 100 members only",
        make: structs,
    },
    Shape {
        title: "variables, and a section of them all",
        make: variables,
    },
    Shape {
        title: "enum values with one name of 127 bytes",
        make: one_long_name,
    },
    Shape {
        title: "typedefs, each with its own name of 127 bytes",
        make: own_long_names,
    },
];

/// As many types as a table of so many bytes may have, at the ratio of the
/// limits.
pub fn most_types(bytes: usize) -> usize {
    bytes / (BYTE_LIMIT / TYPE_LIMIT) as usize
}

/// An INT, then by threes a struct of the one before through two qualifiers:
/// 4,000 types for each 65,536 bytes.
fn nested(bytes: usize) -> Make {
    let mut m = Make::new();
    let name = m.string("m");
    let inner = m.int(4);
    nest(&mut m, name, inner, (bytes * 4_000 / 65_536 - 1) / 3);
    m
}

fn nest(m: &mut Make, name: u32, mut inner: u32, structs: usize) -> u32 {
    for _ in 0..structs {
        inner = m.constant(inner);
        inner = m.bare(Kind::Volatile, 0, inner, &[]);
        inner = m.structure(4, false, &[[name, inner, 0]]);
    }
    inner
}

/// The same until no more fit, and a qualifier in what is left.
fn nested_full(bytes: usize) -> Make {
    let mut m = Make::new();
    let name = m.string("m");
    let inner = m.int(4);
    let outer = nest(&mut m, name, inner, (bytes - 55) / 48);
    m.constant(outer);
    m
}

/// The same types in the opposite order.
pub fn turned(mut m: Make) -> Make {
    let order: Vec<usize> = (0..m.records.len()).rev().collect();
    reorder(&mut m, &order);
    m
}

fn ints(bytes: usize) -> Make {
    let mut m = Make::new();
    for _ in 0..(bytes - 25) / 16 {
        m.int(4);
    }
    m
}

/// The members are a struct without members, of a byte.
fn structs(bytes: usize) -> Make {
    let mut m = Make::new();
    let name = m.string("m");
    let byte = m.structure(1, false, &[]);
    let members: Vec<[u32; 3]> = (0..100).map(|k| [name, byte, 8 * k]).collect();
    for _ in 0..(bytes - 39) / 1_212 {
        m.structure(100, false, &members);
    }
    m
}

/// Of four bytes each, one behind the other.
fn variables(bytes: usize) -> Make {
    let mut m = Make::new();
    let name = m.string("v");
    let int = m.int(4);
    let count = (bytes - 55) as u32 / 28;
    let entries: Vec<[u32; 3]> = (0..count).map(|k| [m.var(name, int), 4 * k, 4]).collect();
    m.section(name, 4 * count, &entries);
    m
}

fn one_long_name(bytes: usize) -> Make {
    let mut m = Make::new();
    let name = m.string(long_name(0));
    let values = vec![[name, 0]; (bytes - 165) / 8];
    m.listed(Kind::Enum, false, name, 4, &values);
    m
}

fn own_long_names(bytes: usize) -> Make {
    let mut m = Make::new();
    let int = m.int(4);
    for k in 0..(bytes - 41) / 140 {
        let name = m.string(long_name(k));
        m.typedef(name, int);
    }
    m
}

fn long_name(k: usize) -> String {
    format!("n{k:0126}")
}
