//! Damage for the reports 13 and 14: references and rings.

use crate::chain::CHAIN_KINDS;
use crate::generate::damage_layout::wrapped;
use crate::generate::grow::grow;
use crate::generate::pieces::*;
use crate::generate::random::Random;
use crate::generate::valid::shuffle;
use crate::limits::TYPE_LIMIT;
use crate::make::Make;
use crate::reference::{is_plain, references};
use crate::table::{Kind, ALL_KINDS};

/// Report 13: turns one reference of some record elsewhere.
pub fn reference(r: &mut Random, m: &mut Make) {
    let kind = r.pick(&ALL_KINDS);
    let number = some_of(r, m, kind);
    let to = somewhere(r, m);
    let Some(table) = table_of(m) else {
        return;
    };
    let found = table.record(number).map(references).unwrap_or_default();
    let Some(reference) = r.pick_any(&found) else {
        return;
    };
    match reference.word {
        2 => m.at(number).third = to,
        word => m.at(number).tail[word - 3] = to,
    }
}

/// Void, the last type, one past it, a kind of its own, or any type.
fn somewhere(r: &mut Random, m: &mut Make) -> u32 {
    match r.below(8) {
        0 => 0,
        1 => m.count(),
        2 => m.count() + 1,
        3 => r.pick(&[m.count() + 2, TYPE_LIMIT + 1, 1 << 31, u32::MAX]),
        4 => {
            let kind = r.pick(&[Kind::Func, Kind::Var, Kind::Datasec, Kind::DeclTag]);
            some_of(r, m, kind)
        }
        5 => {
            // Behind one more type an INT is no INT for an array's index.
            let int = regular_int(r, m);
            m.constant(int)
        }
        6 => {
            let kind = r.pick(&ALL_KINDS);
            grow(r, m, kind)
        }
        _ => r.below(m.count() + 1),
    }
}

/// Report 14: a ring, perhaps with types that only lead to it.
pub fn ring(r: &mut Random, m: &mut Make) {
    let index = regular_int(r, m);
    let mut ends = if r.one_in(3) {
        closed_chain(r, m)
    } else {
        new_ring(r, m, index)
    };
    for _ in 0..r.below(3) {
        let end = r.pick(&ends);
        lead(r, m, end, index);
        let last = m.count();
        if kind_of(m, last).is_some_and(is_plain) {
            ends.push(last);
        }
    }
    if r.one_in(2) {
        shuffle(r, m);
    }
}

/// A ring of the second sort: the last of a chain turned back into it.
fn closed_chain(r: &mut Random, m: &mut Make) -> Vec<u32> {
    let kind = r.pick(&CHAIN_KINDS);
    let mut first = some_of(r, m, kind);
    for _ in 0..r.below(3) {
        let of = wrapped(r, m, first);
        first = m.ptr(of);
    }
    let chain = chain_from(m, first);
    let last = chain[chain.len() - 1];
    m.at(last).third = r.pick(&chain);
    chain
}

/// One to four new types in a ring. A pointer among them makes it harmless,
/// unless all others are typedefs, qualifiers and tags.
fn new_ring(r: &mut Random, m: &mut Make, index: u32) -> Vec<u32> {
    let first = m.count() + 1;
    let length = r.between(1, 4);
    let harmless = r.one_in(6).then(|| r.below(length));
    for k in 0..length {
        let next = if k + 1 == length {
            first
        } else {
            first + k + 1
        };
        if harmless == Some(k) {
            m.ptr(next);
        } else {
            link(r, m, next, index);
        }
    }
    (first..first + length).collect()
}

/// One by-value step to a type, by any kind that can be in a ring.
fn link(r: &mut Random, m: &mut Make, to: u32, index: u32) -> u32 {
    match r.below(8) {
        0 => {
            let count = r.pick(&[0, 1, 2]);
            m.array(to, index, count)
        }
        1 => {
            let name = identifier(r, m);
            m.typedef(name, to)
        }
        2 => {
            let name = tag_text(r, m);
            m.bare(Kind::TypeTag, name, to, &[])
        }
        3 => {
            let name = identifier(r, m);
            m.structure(8, false, &[[name, index, 0], [name, to, 0]])
        }
        4 => {
            let name = identifier(r, m);
            m.union(8, true, &[[name, to, 0]])
        }
        5 => m.bare(Kind::Volatile, 0, to, &[]),
        6 => m.bare(Kind::Restrict, 0, to, &[]),
        _ => m.constant(to),
    }
}

/// A type that leads to a ring without being of it. A tag or a section does
/// so too, but by no step.
fn lead(r: &mut Random, m: &mut Make, to: u32, index: u32) {
    let name = identifier(r, m);
    match r.below(7) {
        0 => {
            m.var(name, to);
        }
        1 if matches!(
            kind_of(m, to),
            Some(Kind::Typedef | Kind::Struct | Kind::Union)
        ) =>
        {
            m.tag(name, to, u32::MAX);
        }
        2 => {
            let var = m.var(name, to);
            m.section(name, 0, &[[var, 0, 0]]);
        }
        3 => {
            m.ptr(to);
        }
        _ => {
            link(r, m, to, index);
        }
    }
}
