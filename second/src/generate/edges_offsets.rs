//! Members' bit offsets and spans at their edges, report 15, without chance.

use crate::generate::edges::{add, Part};
use crate::generate::edges_layout::base;
use crate::make::{field, Make};
use crate::table::Kind;
use crate::vectors::Case;

pub const PARTS: &[Part] = &[
    ("offsets", |found, _| offsets(found)),
    ("int-offsets", |found, _| int_offsets(found)),
    ("wide-offsets", |found, _| wide_offsets(found)),
    ("wide-sizes", |found, _| wide_sizes(found)),
];

/// Pairs of offsets that rise, stand and fall.
fn offsets(found: &mut Vec<Case>) {
    for flag in [false, true] {
        for kind in [Kind::Struct, Kind::Union] {
            for first in [0, 1, 7, 8, 9] {
                for last in [0, 1, 7, 8, 9] {
                    let widths = if flag { [3, 1] } else { [0, 0] };
                    let mut m = Make::new();
                    let of = base(&mut m, 0);
                    let members = [
                        [1, of, field(widths[0], first)],
                        [1, of, field(widths[1], last)],
                    ];
                    m.listed(kind, flag, 0, 4, &members);
                    add(found, &m);
                }
            }
        }
    }
}

/// Members of an INT with an offset of its own and of one without: offsets
/// that fall where the sums do not, and that do not fall where the sums do.
fn int_offsets(found: &mut Vec<Case>) {
    let offsets = [0, 4, 8, 12];
    for kind in [Kind::Struct, Kind::Union] {
        for (first, last) in [(1, 1), (1, 2), (2, 1), (2, 2)] {
            for before in offsets {
                for behind in offsets {
                    let mut m = Make::new();
                    base(&mut m, 4);
                    let members = [[1, first, before], [1, last, behind]];
                    m.listed(kind, false, 0, 8, &members);
                    add(found, &m);
                }
            }
        }
    }
}

/// Offset words of more than 24 bits without kind_flag, alone and in pairs:
/// all 32 bits count, and an end may pass 2^32.
fn wide_offsets(found: &mut Vec<Case>) {
    let offsets = [0, 8, 1 << 24, (1 << 24) + 8, u32::MAX - 7, u32::MAX];
    for kind in [Kind::Struct, Kind::Union] {
        for offset in offsets {
            for bytes in [1, 2, 1 << 22, (1 << 29) - 1, 1 << 29, u32::MAX] {
                with_members(found, kind, bytes, &[offset]);
            }
            for behind in offsets {
                with_members(found, kind, 1 << 29, &[offset, behind]);
            }
        }
    }
}

fn with_members(found: &mut Vec<Case>, kind: Kind, bytes: u32, offsets: &[u32]) {
    let mut m = Make::new();
    let of = base(&mut m, 0);
    let members: Vec<[u32; 3]> = offsets.iter().map(|offset| [1, of, *offset]).collect();
    m.listed(kind, false, 0, bytes, &members);
    add(found, &m);
}

/// Members and structs of so many bytes that 8 times as many pass 2^32.
fn wide_sizes(found: &mut Vec<Case>) {
    let sizes = [1 << 29, (1 << 29) + 1, u32::MAX];
    for inner in sizes {
        for bytes in sizes.into_iter().chain([0, 1, (1 << 29) + 2]) {
            for offset in [0, 8, (1 << 24) - 8] {
                for flag in [false, true] {
                    let mut m = Make::new();
                    base(&mut m, 0);
                    let of = m.structure(inner, false, &[]);
                    m.structure(bytes, flag, &[[1, of, offset]]);
                    add(found, &m);
                }
            }
        }
    }
}
