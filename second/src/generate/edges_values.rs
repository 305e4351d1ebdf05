//! What a member's type makes of its bits, without chance: signs, and bases
//! that are integers, enums or neither.

use crate::generate::edges::Part;
use crate::generate::edges_layout::{base, layered, BASES};
use crate::generate::edges_records::ask;
use crate::generate::edges_spans::with_bits;
use crate::make::{field, info, int_word, Make};
use crate::table::Kind;
use crate::vectors::Case;

pub const PARTS: &[Part] = &[
    ("record-benches", |found, _| benches(found)),
    ("record-signs", |found, _| signs(found)),
    ("record-bases", |found, _| bases(found)),
];

/// The paper's sixteen bits by each type that can read them, and the page's
/// bit field, at bits 102 to 105.
pub fn benches(found: &mut Vec<Case>) {
    let ints =
        [0, 1, 2, 4].map(|encoding| (info(Kind::Int, false, 0), vec![int_word(encoding, 0, 16)]));
    let enums = [Kind::Enum, Kind::Enum64];
    let enums = enums.map(|kind| [false, true].map(|flag| (info(kind, flag, 0), Vec::new())));
    for (info, tail) in ints.into_iter().chain(enums.into_iter().flatten()) {
        for kind in [Kind::Struct, Kind::Union] {
            for flag in [false, true] {
                let mut m = Make::new();
                m.raw(0, info, 2, &tail);
                m.listed(kind, flag, 0, 2, &[[0, 1, 0]]);
                ask(found, &m, 2, 0, &[0xD0, 0x8A]);
                ask(found, &m, 2, 0, &[0xD0, 0x8A, 0xFF]);
            }
        }
    }
    for encoding in [0, 1] {
        let mut m = Make::new();
        m.bare(Kind::Int, 0, 4, &[int_word(encoding, 2, 4)]);
        m.structure(14, false, &[[0, 1, 100]]);
        for set in [102, 103, 104, 105] {
            ask(found, &m, 2, 0, &with_bits(14, |bit| bit == set));
            ask(found, &m, 2, 0, &with_bits(14, |bit| bit != set));
        }
    }
}

/// Each encoding, and each enum's own flag, of each size: as a whole, as a
/// field of some bits, and as an INT narrower than its size.
fn signs(found: &mut Vec<Case>) {
    for bytes in [1, 2, 4, 8, 16] {
        for encoding in [0, 1, 2, 4] {
            for width in [8, 8 * bytes] {
                let tail = [int_word(encoding, 0, width)];
                fields(found, info(Kind::Int, false, 0), bytes, &tail);
            }
        }
        for kind in [Kind::Enum, Kind::Enum64] {
            for flag in [false, true] {
                fields(found, info(kind, flag, 0), bytes.min(8), &[]);
            }
        }
    }
    // 3 and 8 are no encodings, and the table is refused
    for encoding in [0, 1, 2, 3, 4, 8] {
        for width in [1, 7, 9, 31, 33, 63, 65, 127] {
            let mut m = Make::new();
            m.bare(Kind::Int, 0, 16, &[int_word(encoding, 1, width)]);
            m.structure(16, false, &[[0, 1, 0]]);
            ask(found, &m, 2, 0, &with_bits(16, |bit| bit == width));
        }
    }
    other_flags(found);
}

/// An enum whose flag is not that of the tag around it or of the struct.
fn other_flags(found: &mut Vec<Case>) {
    for own in [false, true] {
        for of_tag in [false, true] {
            for of_struct in [false, true] {
                let mut m = Make::new();
                let name = m.string("n");
                m.raw(0, info(Kind::Enum, own, 0), 1, &[]);
                m.raw(name, info(Kind::TypeTag, of_tag, 0), 1, &[]);
                m.structure(1, of_struct, &[[0, 2, 0]]);
                ask(found, &m, 3, 0, &[0x80]);
            }
        }
    }
}

/// A struct of the type without kind_flag, and fields of several widths with
/// it; the record has the bit that is the top one of the size or of the width.
fn fields(found: &mut Vec<Case>, info: u32, bytes: u32, tail: &[u32]) {
    let whole = 8 * bytes;
    for (flag, width) in [
        (false, 0),
        (true, 0),
        (true, 3),
        (true, whole - 1),
        (true, whole),
    ] {
        let mut m = Make::new();
        m.raw(0, info, bytes, tail);
        m.structure(bytes, flag, &[[0, 1, field(width, 0)]]);
        for top in [whole - 1, if width == 0 { 7 } else { width - 1 }] {
            ask(found, &m, 2, 0, &with_bits(bytes, |bit| bit == top));
        }
    }
}

/// A base of every nature, bare and behind one or two of the five layers.
fn bases(found: &mut Vec<Case>) {
    for which in 0..BASES {
        for (inner, outer) in (0..=5)
            .map(|layer| (layer, 0))
            .chain([(1, 3), (3, 5), (5, 1)])
        {
            for (kind, flag) in [
                (Kind::Struct, false),
                (Kind::Struct, true),
                (Kind::Union, false),
            ] {
                let mut m = Make::new();
                let of = base(&mut m, which);
                let of = layered(&mut m, of, inner);
                let of = layered(&mut m, of, outer);
                let holder = m.listed(kind, flag, 0, 8, &[[1, of, 0]]);
                ask(found, &m, holder, 0, &[0xA5; 8]);
            }
        }
    }
    for last in [1, 2] {
        let mut m = Make::new();
        m.int(1);
        m.ptr(0);
        let of = (0..30).fold(last, |of, _| m.constant(of));
        let holder = m.structure(8, false, &[[0, of, 0]]);
        ask(found, &m, holder, 0, &[0xA5; 8]);
    }
}
