//! Tables at the limits of types and bytes, and long ones of every shape,
//! without chance; and the paper's benches that no proof computes.

use crate::check::check;
use crate::generate::large::{padded, pointers};
use crate::generate::turn::turned;
use crate::limits::{BYTE_LIMIT, FULL_PLACES, TYPE_LIMIT};
use crate::make::{info, word_at, Make};
use crate::table::Kind;
use crate::vectors::{bytes_of, Case, CHECK, NAME, SIZE};

/// All of them: each table is checked, the sizes of its first and last types
/// are asked where it is accepted, and its names at both ends; then each is
/// checked in the other order. Thinned, the tables at the two limits are
/// checked, and of the other order one at both and one past the bytes.
pub fn cases(thin: bool) -> Vec<Case> {
    let tables = [
        pointers(TYPE_LIMIT).blob(),
        pointers(TYPE_LIMIT + 1).blob(),
        of_bytes(BYTE_LIMIT),
        of_bytes(BYTE_LIMIT + 1),
        at_both_limits(),
        full(),
        chain_up(16_000).blob(),
        chain_down(16_000).blob(),
        nest(5_600).blob(),
        ring_behind(16_000).blob(),
        ring_in_nest(5_600).blob(),
        pointers_up(16_000).blob(),
        pointers_down(16_000).blob(),
        pointer_ring(TYPE_LIMIT).blob(),
        pointer_ring_behind(16_000).blob(),
        entries(20_000, 80_000).blob(),
        entries(20_000, 79_999).blob(),
        parameters(32_000, 32_000, 31_999).blob(),
        parameters(32_000, 31_999, 31_999).blob(),
        parameters(32_000, 1, 31_999).blob(),
        parameters(32_000, 32_000, 32_000).blob(),
        held_by_constant().blob(),
        arrays_of_arrays().blob(),
        products().blob(),
    ];
    let turned = |blob: &Vec<u8>| checked(&turned(blob));
    if thin {
        let as_made = tables[..4].iter().map(|blob| checked(blob));
        return as_made.chain(tables[3..5].iter().map(turned)).collect();
    }
    let as_made = tables.iter().flat_map(|blob| asked(blob));
    as_made.chain(tables.iter().map(turned)).collect()
}

fn checked(blob: &[u8]) -> Case {
    Case {
        op: CHECK,
        index_places: FULL_PLACES,
        work_places: FULL_PLACES,
        a: blob.to_vec(),
        ..Case::default()
    }
}

/// The questions that a table is asked.
fn asked(blob: &[u8]) -> Vec<Case> {
    let mut found = vec![checked(blob)];
    let mut index = vec![0; FULL_PLACES as usize];
    let mut work = index.clone();
    if let Ok(count) = check(blob, &mut index, &mut work) {
        let b = bytes_of(&index[..=count as usize]);
        let mut types: Vec<u32> = (1..=count.min(5)).chain([count]).collect();
        types.dedup();
        found.extend(types.into_iter().map(|x| Case {
            op: SIZE,
            x,
            a: blob.to_vec(),
            b: b.clone(),
            ..Case::default()
        }));
    }
    let strings = word_at(blob, 20);
    found.extend([1, strings - 1, strings].map(|x| Case {
        op: NAME,
        x,
        a: blob.to_vec(),
        ..Case::default()
    }));
    found
}

/// One INT, and strings up to so many bytes.
pub fn of_bytes(bytes: u32) -> Vec<u8> {
    let mut m = Make::new();
    m.int(4);
    padded(&m, bytes as usize)
}

/// As many types as may be, and as many bytes.
pub fn at_both_limits() -> Vec<u8> {
    padded(&pointers(TYPE_LIMIT), BYTE_LIMIT as usize)
}

/// As many bytes as may be, nearly all of them types: INTs, of 16 bytes each.
pub fn full() -> Vec<u8> {
    let mut m = Make::new();
    for _ in 0..(BYTE_LIMIT - 25) / 16 {
        m.int(4);
    }
    padded(&m, BYTE_LIMIT as usize)
}

/// So many typedefs, each of the next; the last is of an INT.
pub fn chain_up(count: u32) -> Make {
    up(count, add_typedef)
}

/// An INT, and so many typedefs, each of the one before.
pub fn chain_down(count: u32) -> Make {
    down(count, add_typedef)
}

/// The same of pointers and qualifiers.
pub fn pointers_up(count: u32) -> Make {
    up(count, add_pointer)
}

pub fn pointers_down(count: u32) -> Make {
    down(count, add_pointer)
}

fn up(count: u32, add_link: fn(&mut Make, u32)) -> Make {
    let mut m = Make::new();
    m.string("t");
    for number in 1..=count {
        add_link(&mut m, number + 1);
    }
    m.int(4);
    m
}

fn down(count: u32, add_link: fn(&mut Make, u32)) -> Make {
    let mut m = Make::new();
    m.string("t");
    m.int(4);
    for number in 1..=count {
        add_link(&mut m, number);
    }
    m
}

fn add_typedef(m: &mut Make, to: u32) {
    m.typedef(1, to);
}

/// A pointer or a qualifier, in turn.
fn add_pointer(m: &mut Make, to: u32) {
    let kinds = [Kind::Ptr, Kind::Const, Kind::Volatile, Kind::Restrict];
    let turn = m.records.len() % kinds.len();
    m.bare(kinds[turn], 0, to, &[]);
}

/// So many structs, each with the next as both of its members, so that there
/// are two ways into each; the last holds INTs.
pub fn nest(count: u32) -> Make {
    let mut m = Make::new();
    let name = m.string("m");
    for number in 1..=count {
        let next = number + 1;
        m.structure(4, false, &[[name, next, 0], [name, next, 0]]);
    }
    m.int(4);
    m
}

/// A prototype, which has no steps, then so many CONSTs, each of the next, then
/// one of itself.
pub fn ring_behind(count: u32) -> Make {
    let mut m = Make::new();
    m.proto(2, &[]);
    for number in 2..count + 2 {
        m.constant(number + 1);
    }
    m.constant(count + 2);
    m
}

/// The nest with its second struct again in the place of the INT.
pub fn ring_in_nest(count: u32) -> Make {
    let mut m = nest(count);
    let last = m.count();
    *m.at(last) = m.records[1].clone();
    m
}

/// So many pointers and qualifiers, each of the one before, and the first of
/// the last.
pub fn pointer_ring(count: u32) -> Make {
    let mut m = Make::new();
    add_pointer(&mut m, count);
    for number in 1..count {
        add_pointer(&mut m, number);
    }
    m
}

/// A struct that holds the first of so many pointers and qualifiers, each of
/// the next; the last is a pointer to itself.
pub fn pointer_ring_behind(count: u32) -> Make {
    let mut m = Make::new();
    let name = m.string("m");
    m.structure(8, false, &[[name, 2, 0]]);
    for number in 2..count + 2 {
        add_pointer(&mut m, number + 1);
    }
    m.ptr(count + 2);
    m
}

/// A section of so many bytes, of which each entry takes four.
pub fn entries(count: u32, bytes: u32) -> Make {
    let mut m = Make::new();
    let name = m.string("v");
    let of = m.int(4);
    let var = m.var(name, of);
    let entries: Vec<[u32; 3]> = (0..count).map(|k| [var, 4 * k, 4]).collect();
    m.section(name, bytes, &entries);
    m
}

/// A function of so many parameters, all named but those from `named` on, and
/// a tag on one of them.
pub fn parameters(count: u32, named: u32, component: u32) -> Make {
    let mut m = Make::new();
    let name = m.string("p");
    let of = m.int(4);
    let parameters: Vec<[u32; 2]> = (0..count)
        .map(|k| if k < named { [name, of] } else { [0, of] })
        .collect();
    let prototype = m.proto(0, &parameters);
    let function = m.func(name, prototype);
    m.tag(name, function, component);
    m
}

/// The paper's bench: CONST 1 to struct 2 that holds itself.
pub fn held_by_constant() -> Make {
    let mut m = Make::new();
    let name = m.string("s");
    m.constant(2);
    m.raw(0, info(Kind::Struct, false, 1), 8, &[name, 2, 0]);
    m
}

/// The page's `int a[5][6]`.
pub fn arrays_of_arrays() -> Make {
    let mut m = Make::new();
    m.int(4);
    m.array(1, 1, 6);
    m.array(2, 1, 5);
    m
}

/// 65,535 of 65,537 one-byte elements, and 65,536 of 65,536.
pub fn products() -> Make {
    let mut m = Make::new();
    m.int(1);
    m.array(1, 1, 65_537);
    m.array(2, 1, 65_535);
    m.array(1, 1, 65_536);
    m.array(4, 1, 65_536);
    m
}
