//! Rings of one type and what leads to them, report 14, without chance.

use crate::generate::edges::{add, Part};
use crate::make::{info, Make};
use crate::table::Kind;
use crate::vectors::Case;

pub const PARTS: &[Part] = &[("rings", |found, _| rings(found))];

/// Every kind of lead as type 1, before every kind of ring at type 3.
fn rings(found: &mut Vec<Case>) {
    for lead in 0..10 {
        for ring in 0..9 {
            let mut m = Make::new();
            m.string("n");
            add_lead(&mut m, lead);
            add_ring(&mut m, ring);
            m.int(4);
            add(found, &m);
        }
    }
}

/// Type 1 leads to type 3, by a step of either sort or by none, and type 2 is
/// a VAR of it.
fn add_lead(m: &mut Make, which: u32) {
    match which {
        0 => m.constant(3),
        1 => m.ptr(3),
        2 => m.array(3, 4, 0),
        3 => m.structure(8, false, &[[1, 3, 0]]),
        4 => m.tag(1, 3, u32::MAX),
        5 => m.tag(1, 2, u32::MAX),
        6 => m.section(1, 0, &[[2, 0, u32::MAX]]),
        7 => m.proto(3, &[]),
        8 => m.proto(0, &[[1, 3]]),
        _ => m.var(1, 3),
    };
    m.var(1, 3);
}

/// Type 3 leads to itself: by value, or as a pointer by the second sort only.
fn add_ring(m: &mut Make, which: u32) {
    match which {
        0 => m.typedef(1, 3),
        1 => m.bare(Kind::Volatile, 0, 3, &[]),
        2 => m.constant(3),
        3 => m.bare(Kind::Restrict, 0, 3, &[]),
        4 => m.raw(1, info(Kind::TypeTag, true, 0), 3, &[]),
        5 => m.array(3, 4, 0),
        6 => m.structure(8, false, &[[1, 4, 0], [1, 3, 0]]),
        7 => m.union(8, true, &[[1, 3, 0]]),
        _ => m.ptr(3),
    };
}
