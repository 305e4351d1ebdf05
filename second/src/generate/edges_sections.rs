//! Sections at their edges, report 15, without chance.

use crate::generate::edges::{add, Part};
use crate::generate::edges_layout::{base, BASES};
use crate::make::Make;
use crate::vectors::Case;

pub const PARTS: &[Part] = &[
    ("sections", |found, _| sections(found)),
    ("empty-entries", empty_entries),
    ("section-variables", section_variables),
];

/// Two entries of a one-byte variable around each other and the end.
fn sections(found: &mut Vec<Case>) {
    for bytes in [0, 1, 2, 3, 4] {
        for first in [
            [0, 0],
            [0, 1],
            [1, 1],
            [0, 2],
            [2, 1],
            [u32::MAX, 1],
            [u32::MAX, 2],
        ] {
            for last in [
                [0, 1],
                [1, 1],
                [2, 1],
                [1, 2],
                [3, 0],
                [u32::MAX, 1],
                [2, u32::MAX],
            ] {
                let mut m = Make::new();
                let of = base(&mut m, 0);
                let var = m.var(1, of);
                let entries = [[var, first[0], first[1]], [var, last[0], last[1]]];
                m.section(1, bytes, &entries);
                add(found, &m);
            }
        }
    }
}

/// Entries of a variable of no bytes, which may be empty: at, before and
/// behind the end of the one before and of the section. Thinned, in one.
fn empty_entries(found: &mut Vec<Case>, thin: bool) {
    let places = (0..4).flat_map(|offset| (0..3).map(move |size| [offset, size]));
    let places: Vec<[u32; 2]> = places.collect();
    for first in &places {
        for last in &places {
            for bytes in [2, 3, 0] {
                if !thin || bytes == 2 {
                    with_entries(found, bytes, &[*first, *last]);
                }
            }
        }
    }
    for empty in 0..4 {
        for last in 0..4 {
            with_entries(found, 3, &[[0, 2], [empty, 0], [last, 1]]);
        }
    }
}

fn with_entries(found: &mut Vec<Case>, bytes: u32, places: &[[u32; 2]]) {
    let mut m = Make::new();
    let of = base(&mut m, 9);
    let var = m.var(1, of);
    let entries: Vec<[u32; 3]> = places
        .iter()
        .map(|[offset, size]| [var, *offset, *size])
        .collect();
    m.section(1, bytes, &entries);
    add(found, &m);
}

/// Variables of every nature, before and behind their section; 0-byte ones
/// too, whose entries may be empty. Thinned, behind in sections of one size.
fn section_variables(found: &mut Vec<Case>, thin: bool) {
    for which in 0..BASES {
        for entry in [0, 1, 2, 8, u32::MAX] {
            for bytes in [0, 1, 2, u32::MAX] {
                let mut m = Make::new();
                let of = base(&mut m, which);
                let var = m.var(1, of);
                m.section(1, bytes, &[[var, 0, entry], [var, entry, 0]]);
                m.section(1, bytes, &[[var, 0, entry]]);
                add(found, &m);
                if thin && bytes != 1 {
                    continue;
                }
                m.records.swap(var as usize - 1, var as usize);
                for number in [var, var + 2] {
                    m.at(number)
                        .tail
                        .chunks_mut(3)
                        .for_each(|entry| entry[0] = var + 1);
                }
                add(found, &m);
            }
        }
    }
}
