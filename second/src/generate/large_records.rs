//! Large tables to read members by: structs of thousands of fields, chains of
//! thousands of types between a member and its base, and fixed cases at the
//! limits.

use crate::generate::edges_records::ask;
use crate::generate::large::pointers;
use crate::generate::random::Random;
use crate::limits::TYPE_LIMIT;
use crate::make::{field, info, int_word, Make};
use crate::table::Kind;
use crate::vectors::{Case, MOST_BYTES};

/// None of them in a short file: each is as long as a thousand edges.
pub fn cases(thin: bool) -> Vec<Case> {
    let mut found = Vec::new();
    if !thin {
        first_and_last(&mut found);
        last_type(&mut found);
        long_chains(&mut found);
        long_record(&mut found);
    }
    found
}

/// The first and the last of the members, and one more.
fn first_and_last(found: &mut Vec<Case>) {
    let m = many_fields(&mut Random::new(1));
    let holder = &m.records[m.records.len() - 1];
    let record: Vec<u8> = (0..holder.third).map(|k| (k % 251) as u8).collect();
    let count = holder.info & 0xFFFF;
    for member in [0, count - 1, count] {
        ask(found, &m, m.count(), member, &record);
    }
}

/// A struct that is the last type that there may be, and one type more.
fn last_type(found: &mut Vec<Case>) {
    let mut m = pointers(TYPE_LIMIT - 2);
    let of = m.int(4);
    m.structure(4, false, &[[0, of, 0]]);
    ask(found, &m, TYPE_LIMIT, 0, &[0xA5; 4]);
    ask(found, &m, TYPE_LIMIT + 1, 0, &[0xA5; 4]);
    m.ptr(0);
    ask(found, &m, TYPE_LIMIT, 0, &[0xA5; 4]);
}

/// A chain to an INT and one to a pointer.
fn long_chains(found: &mut Vec<Case>) {
    for base in [1, 2] {
        let mut m = Make::new();
        m.int(8);
        m.ptr(0);
        let of = (0..16_000).fold(base, |of, _| m.constant(of));
        let holder = m.structure(8, false, &[[0, of, 0]]);
        ask(found, &m, holder, 0, &[0xA5; 8]);
    }
}

/// The longest record that a case may lend, and the INT in its last bits.
fn long_record(found: &mut Vec<Case>) {
    let record: Vec<u8> = (0..MOST_BYTES).map(|k| (k % 251) as u8).collect();
    for (bytes, width) in [(4, 29), (16, 128)] {
        let mut m = Make::new();
        m.bare(Kind::Int, 0, bytes, &[int_word(1, 0, width)]);
        m.structure(MOST_BYTES, false, &[[0, 1, 8 * MOST_BYTES - width]]);
        ask(found, &m, 2, 0, &record);
        ask(found, &m, 2, 0, &record[1..]);
    }
}

pub fn table(r: &mut Random) -> Make {
    if r.one_in(2) {
        many_fields(r)
    } else {
        deep_members(r)
    }
}

/// Bases of every size and sign, a pointer and a FLOAT.
fn bases(m: &mut Make) -> Vec<(u32, u32)> {
    let mut found = Vec::new();
    for encoding in [0, 1, 2, 4] {
        for bytes in [1, 2, 4, 8, 16] {
            let word = int_word(encoding, 0, 8 * bytes);
            found.push((m.bare(Kind::Int, 0, bytes, &[word]), bytes));
        }
    }
    for kind in [Kind::Enum, Kind::Enum64] {
        for flag in [false, true] {
            let bytes = if flag { 8 } else { 4 };
            found.push((m.raw(0, info(kind, flag, 0), bytes, &[]), bytes));
        }
    }
    found.push((m.ptr(0), 8));
    found.push((m.bare(Kind::Float, 0, 4, &[]), 4));
    found
}

/// One behind the other: most of some bits, some whole from a whole byte.
fn many_fields(r: &mut Random) -> Make {
    let mut m = Make::new();
    let bases = bases(&mut m);
    let readable = bases.len() as u32 - 2;
    let mut reached = 0;
    let mut members = Vec::new();
    for _ in 0..r.between(8_000, 21_600) {
        if r.one_in(8) {
            let (of, bytes) = r.pick(&bases);
            let first = 8 * u32::div_ceil(reached, 8);
            members.push([0, of, field(0, first)]);
            reached = first + 8 * bytes;
        } else {
            let (of, bytes) = bases[r.below(readable) as usize];
            let width = r.between(1, 8 * bytes);
            members.push([0, of, field(width, reached)]);
            reached += width;
        }
    }
    let bytes = reached.div_ceil(8);
    m.structure(bytes, true, &members);
    m
}

/// A struct in front or behind, whose members lead to bases through a chain.
fn deep_members(r: &mut Random) -> Make {
    let mut m = Make::new();
    let name = m.string("n");
    let bases = bases(&mut m);
    let mut members = Vec::new();
    let mut reached = 0;
    for _ in 0..3 {
        let (mut of, bytes) = r.pick(&bases);
        for _ in 0..r.between(1_000, 5_000) {
            of = match r.below(4) {
                0 => m.typedef(name, of),
                1 => m.bare(Kind::TypeTag, name, of, &[]),
                2 => m.bare(Kind::Volatile, 0, of, &[]),
                _ => m.constant(of),
            };
        }
        members.push([name, of, reached]);
        reached += 8 * bytes;
    }
    m.structure(reached / 8, false, &members);
    m
}
