//! Chains of pointers, typedefs, qualifiers and tags, report 14's second sort
//! of walk, without chance: rings, what leads to them, and what is no ring.

use crate::chain::CHAIN_KINDS;
use crate::generate::edges::{add, Part};
use crate::generate::edges_joins::{call, length};
use crate::make::Make;
use crate::table::Kind;
use crate::vectors::Case;

pub const PARTS: &[Part] = &[
    ("chains", |found, _| chains(found)),
    ("chain-joins", |found, _| joins(found)),
];

fn chains(found: &mut Vec<Case>) {
    let tables = [
        rings(),
        leads(),
        leads_through(),
        both_sorts(),
        ended_chains(),
        recursions(),
        vec![two_structs()],
    ];
    for m in tables.iter().flatten() {
        add(found, m);
    }
}

/// All tables here have a name at 1.
pub fn named() -> Make {
    let mut m = Make::new();
    m.string("n");
    m
}

/// The six kinds in turn, from any of them on.
fn kind_at(turn: u32) -> Kind {
    CHAIN_KINDS[turn as usize % CHAIN_KINDS.len()]
}

/// A record of one of the six kinds.
pub fn link(m: &mut Make, kind: Kind, to: u32) -> u32 {
    let name = u32::from(matches!(kind, Kind::Typedef | Kind::TypeTag));
    m.bare(kind, name, to, &[])
}

/// A ring of so many types, each of the next one or of the one before.
fn add_ring(m: &mut Make, length: u32, turn: u32, up: bool) {
    let first = m.count() + 1;
    for k in 0..length {
        let step = if up { 1 } else { length - 1 };
        link(m, kind_at(turn + k), first + (k + step) % length);
    }
}

/// Rings of one to six types behind an INT: alone, with one more type in front
/// that leads into their middle, or with one behind. Type 2 is named in each.
pub fn rings() -> Vec<Make> {
    let mut found = Vec::new();
    for length in 1..=6 {
        for turn in 0..6 {
            for up in [true, false] {
                let entry = kind_at(turn + length);
                let mut alone = named();
                alone.int(4);
                let mut in_front = alone.clone();
                add_ring(&mut alone, length, turn, up);
                link(&mut in_front, entry, 3 + length / 2);
                add_ring(&mut in_front, length, turn, up);
                let mut behind = alone.clone();
                link(&mut behind, entry, 2 + length / 2);
                found.extend([alone, in_front, behind]);
            }
        }
    }
    found
}

/// Type 1 leads to a ring of types 2 and 3. It is named if it is of the six
/// kinds; otherwise type 2 is.
pub fn leads() -> Vec<Make> {
    let mut found = Vec::new();
    for which in 0..12 {
        for to in [2, 3] {
            for turn in [0, 5] {
                let mut m = named();
                add_lead(&mut m, which, to, 4);
                add_ring(&mut m, 2, turn, true);
                m.int(4);
                found.push(m);
            }
        }
    }
    found
}

/// The last six are no step of the second sort. An array wants an INT's number.
fn add_lead(m: &mut Make, which: u32, to: u32, int: u32) {
    match which {
        0..=5 => link(m, kind_at(which), to),
        6 => m.array(to, int, 2),
        7 => m.structure(8, false, &[[1, to, 0]]),
        8 => m.union(8, false, &[[1, to, 0]]),
        9 => m.var(1, to),
        10 => m.proto(to, &[]),
        _ => m.proto(0, &[[1, to]]),
    };
}

/// Type 1 leads to the ring of types 3 and 4 only through type 2, which is of
/// none of the six kinds, so type 3 is named.
pub fn leads_through() -> Vec<Make> {
    let mut found = Vec::new();
    for lead in 0..6 {
        for through in [6, 7, 8, 10, 11] {
            let mut m = named();
            link(&mut m, kind_at(lead), 2);
            add_lead(&mut m, through, 3, 5);
            add_ring(&mut m, 2, 0, true);
            m.int(4);
            found.push(m);
        }
    }
    found
}

/// A ring by value and one of pointers, in both orders behind an INT: the
/// smaller number is named, which is 2.
pub fn both_sorts() -> Vec<Make> {
    let mut found = Vec::new();
    for length in [1, 2, 3] {
        for which in 0..4 {
            for by_value_first in [true, false] {
                let mut m = named();
                m.int(4);
                if by_value_first {
                    add_by_value(&mut m, which);
                    add_ring(&mut m, length, 0, true);
                } else {
                    add_ring(&mut m, length, 0, true);
                    add_by_value(&mut m, which);
                }
                found.push(m);
            }
        }
    }
    found
}

/// A ring that no pointer closes; the last is one of both sorts.
fn add_by_value(m: &mut Make, which: u32) {
    let first = m.count() + 1;
    match which {
        0 => m.array(first, 1, 1),
        1 => m.structure(8, false, &[[1, first, 0]]),
        2 => {
            m.constant(first + 1);
            m.union(8, false, &[[1, first, 0]])
        }
        _ => m.typedef(1, first),
    };
}

/// Accepted: chains of all six kinds, each of the next type or of the one
/// before, that end in void or at a type of another kind.
pub fn ended_chains() -> Vec<Make> {
    let mut found = Vec::new();
    for which in 0..10 {
        for turn in 0..6 {
            let mut up = named();
            for k in 1..=5 {
                link(&mut up, kind_at(turn + k), k + 1);
            }
            link(&mut up, kind_at(turn), if which == 0 { 0 } else { 7 });
            add_end(&mut up, which);
            let mut down = named();
            let mut of = add_end(&mut down, which);
            for k in 0..6 {
                of = link(&mut down, kind_at(turn + k), of);
            }
            found.extend([up, down]);
        }
    }
    found
}

/// Void, or one more type where a chain ends.
fn add_end(m: &mut Make, which: u32) -> u32 {
    match which {
        0 => 0,
        1 => m.int(4),
        2 => m.structure(4, false, &[]),
        3 => m.union(4, false, &[]),
        4 => m.bare(Kind::Enum, 0, 4, &[]),
        5 => m.bare(Kind::Enum64, 0, 8, &[]),
        6 => m.bare(Kind::Fwd, 1, 0, &[]),
        7 => m.proto(0, &[]),
        8 => m.bare(Kind::Float, 0, 4, &[]),
        _ => {
            let int = m.count() + 2;
            let array = m.array(int, int, 1);
            m.int(4);
            array
        }
    }
}

/// Accepted: type 1 leads to itself over a chain with one pointer in it, and
/// is of none of the six kinds. A walk of both sorts mixed would never end.
pub fn recursions() -> Vec<Make> {
    let mut found = Vec::new();
    for holder in [6, 7, 8, 10, 11] {
        for length in 1..=3 {
            for pointer in 0..length {
                for turn in [1, 3] {
                    let mut m = named();
                    add_lead(&mut m, holder, 2, 2 + length);
                    for k in 0..length {
                        let kind = kind_at(if k == pointer { 0 } else { turn + k });
                        link(&mut m, kind, if k + 1 == length { 1 } else { 3 + k });
                    }
                    m.int(4);
                    found.push(m);
                }
            }
        }
    }
    found
}

/// Accepted: each has a pointer to the other.
pub fn two_structs() -> Make {
    let mut m = named();
    m.structure(8, false, &[[1, 3, 0]]);
    m.structure(8, false, &[[1, 4, 0]]);
    m.ptr(2);
    m.ptr(1);
    m
}

/// Chains and recursions behind each other are joined; a ring in either table,
/// here at its second type, is 14 inside.
fn joins(found: &mut Vec<Case>) {
    let ended = ended_chains();
    let last = ended.len() - 1;
    let good = [&ended[0], &ended[last], &recursions()[0], &two_structs()].map(|m| m.blob());
    for a in &good {
        for b in &good {
            found.push(call(a, b, 9, length(a, b)));
        }
    }
    for bad in [&rings()[0], &both_sorts()[1]].map(|m| m.blob()) {
        for b in &good[..2] {
            found.push(call(&bad, b, 9, length(&bad, b)));
            found.push(call(b, &bad, 9, length(b, &bad)));
        }
        found.push(call(&bad, &bad, 9, 0));
    }
}
