//! Accepted tables that were made to be slow: many ask for a walk that is long,
//! or one walk leads through all types.

use crate::generate::heavy::{most_types, turned, Shape, NESTED};
use crate::generate::valid::reorder;
use crate::make::Make;
use crate::table::Kind;

pub const SLOW: [Shape; 15] = [
    Shape {
        title: "a typedef chain under many members",
        make: chain_under_members,
    },
    Shape {
        title: "the same chain, each of a later one",
        make: |bytes| turned(chain_under_members(bytes)),
    },
    Shape {
        title: "an array chain under many members",
        make: arrays_under_members,
    },
    Shape {
        title: "a typedef chain under many variables",
        make: chain_under_variables,
    },
    Shape {
        title: "a typedef chain under many entries of a section",
        make: chain_under_entries,
    },
    Shape {
        title: "FUNCs of one long prototype",
        make: funcs,
    },
    Shape {
        title: "arrays of arrays, each in a later one",
        make: arrays,
    },
    Shape {
        title: "arrays of arrays, each in an earlier one",
        make: |bytes| turned(arrays(bytes)),
    },
    Shape {
        title: "structs three times in each other, each in a later one",
        make: threefold,
    },
    Shape {
        title: "structs three times in each other, each in an earlier one",
        make: |bytes| turned(threefold(bytes)),
    },
    Shape {
        title: "structs three times in each other, from both ends by turns",
        make: |bytes| from_both_ends(threefold(bytes)),
    },
    Shape {
        title: "structs in structs, from both ends by turns",
        make: |bytes| from_both_ends((NESTED[0].make)(bytes)),
    },
    Shape {
        title: "a line of pointers and typedefs, each to an earlier one",
        make: line,
    },
    Shape {
        title: "a line of pointers and typedefs, each to a later one",
        make: |bytes| turned(line(bytes)),
    },
    Shape {
        title: "a line of pointers and typedefs, from both ends by turns",
        make: |bytes| from_both_ends(line(bytes)),
    },
];

/// So many typedefs, each of the one before; the last of them.
fn chain(m: &mut Make, name: u32, count: u32) -> u32 {
    let int = m.int(4);
    (0..count).fold(int, |last, _| m.typedef(name, last))
}

/// As many typedefs as members of the last.
fn chain_under_members(bytes: usize) -> Make {
    let mut m = Make::new();
    let name = m.string("t");
    let count = (bytes - 55) as u32 / 24;
    let last = chain(&mut m, name, count);
    with_members(&mut m, name, last, count);
    m
}

/// Arrays of one element, each of the one before, and twice as many members
/// of the last: the same bytes for both.
fn arrays_under_members(bytes: usize) -> Make {
    let mut m = Make::new();
    let name = m.string("m");
    let index = m.int(4);
    let count = (bytes - 55) as u32 / 48;
    let last = (0..count).fold(index, |last, _| m.array(last, index, 1));
    with_members(&mut m, name, last, 2 * count);
    m
}

/// A struct of so many members of a type of four bytes.
fn with_members(m: &mut Make, name: u32, of: u32, count: u32) {
    let members: Vec<[u32; 3]> = (0..count).map(|k| [name, of, 32 * k]).collect();
    m.structure(4 * count, false, &members);
}

/// As many typedefs as variables of the last, and as many types as may be.
fn chain_under_variables(bytes: usize) -> Make {
    let mut m = Make::new();
    let name = m.string("v");
    let count = (most_types(bytes) - 1) as u32 / 2;
    let last = chain(&mut m, name, count);
    for _ in 0..count {
        m.var(name, last);
    }
    m
}

/// As many typedefs as entries of a variable of the last. The section has no
/// size, so that its entries may lie anywhere.
fn chain_under_entries(bytes: usize) -> Make {
    let mut m = Make::new();
    let name = m.string("v");
    let count = (bytes - 71) as u32 / 24;
    let last = chain(&mut m, name, count);
    let variable = m.var(name, last);
    m.section(name, 0, &vec![[variable, 0, 4]; count as usize]);
    m
}

/// Half of the bytes are parameters, half FUNCs.
fn funcs(bytes: usize) -> Make {
    let mut m = Make::new();
    let name = m.string("f");
    let int = m.int(4);
    let prototype = m.proto(0, &vec![[name, int]; (bytes - 55) / 16]);
    for _ in 0..(bytes - 55) / 24 {
        m.func(name, prototype);
    }
    m
}

/// Arrays of two elements, each of the one before; the first of a struct of no
/// bytes, so that none is too large.
fn arrays(bytes: usize) -> Make {
    let mut m = Make::new();
    let index = m.int(4);
    let mut last = m.structure(0, false, &[]);
    for _ in 0..(bytes - 53) / 24 {
        last = m.array(last, index, 2);
    }
    m
}

/// Structs that hold the one before three times, all at bit 0.
fn threefold(bytes: usize) -> Make {
    let mut m = Make::new();
    let name = m.string("m");
    let mut inner = m.int(4);
    for _ in 0..(bytes - 43) / 48 {
        inner = m.structure(4, false, &[[name, inner, 0]; 3]);
    }
    m
}

/// As many types as may be, by turns a pointer to the one before and a typedef
/// of it.
fn line(bytes: usize) -> Make {
    let mut m = Make::new();
    let name = m.string("t");
    let mut last = m.int(4);
    while (m.count() as usize) < most_types(bytes) {
        last = match m.count() % 2 {
            0 => m.typedef(name, last),
            _ => m.bare(Kind::Ptr, 0, last, &[]),
        };
    }
    m
}

/// The types of a chain, whose walk leads from the last to the first, in an
/// order in which it leads from the front to the back and again to the front:
/// no pass over the types in one direction comes far.
fn from_both_ends(mut m: Make) -> Make {
    let count = m.records.len();
    let mut order = vec![0; count];
    for step in 0..count {
        let at = match step % 2 {
            0 => step / 2,
            _ => count - 1 - step / 2,
        };
        order[at] = count - 1 - step;
    }
    reorder(&mut m, &order);
    m
}
