//! Reading a member of a record at the edges of what may be asked, without
//! chance: types, lengths, members, and every ground before every other.

use crate::generate::edges::{one_of, Part};
use crate::generate::edges_joins::{refused, SMALL_REPORTS};
use crate::generate::edges_spans::with_bits;
use crate::generate::edges_values::benches;
use crate::generate::turn::{both, turned, turned_case};
use crate::make::{int_word, Make};
use crate::table::{Kind, ALL_KINDS};
use crate::vectors::{Case, MEMBER};

/// Tables of both orders are in the last two.
pub const PARTS: &[Part] = &[
    ("record-types", |found, _| types(found)),
    ("record-lengths", |found, _| lengths(found)),
    ("record-members", |found, _| members(found)),
    ("record-grounds", |found, _| grounds(found)),
    ("record-tables", |found, _| tables(found)),
    ("record-orders", |found, _| orders(found)),
];

/// Member y of type x of a table, with just as many places as it needs.
pub fn ask(found: &mut Vec<Case>, m: &Make, x: u32, y: u32, record: &[u8]) {
    ask_blob(found, m.blob(), m.count() + 1, [x, y], record);
}

fn ask_blob(found: &mut Vec<Case>, a: Vec<u8>, places: u32, [x, y]: [u32; 2], record: &[u8]) {
    found.push(Case {
        op: MEMBER,
        index_places: places,
        work_places: places,
        x,
        y,
        a,
        b: record.to_vec(),
        ..Case::default()
    });
}

/// A type of each kind, and of one around a struct; each number of a table.
fn types(found: &mut Vec<Case>) {
    for kind in ALL_KINDS {
        let m = one_of(kind);
        for member in 0..3 {
            ask(found, &m, 5, member, &[0xA5; 4]);
            ask(found, &m, 5, member, &[]);
        }
    }
    for kind in [
        Kind::Ptr,
        Kind::Typedef,
        Kind::Volatile,
        Kind::Const,
        Kind::Restrict,
        Kind::TypeTag,
        Kind::Var,
    ] {
        let mut m = one_of(kind);
        m.at(5).third = 4;
        ask(found, &m, 5, 0, &[0xA5; 4]);
    }
    let mut m = one_of(Kind::Union);
    m.array(4, 1, 1);
    for number in (0..9).chain([256, 1 << 16, 1 << 31, u32::MAX - 1, u32::MAX]) {
        ask(found, &m, number, 0, &[0xA5; 4]);
    }
}

/// Records around the length of the type, of a type of no bytes too, and of
/// types that no record is as long as.
fn lengths(found: &mut Vec<Case>) {
    for kind in [Kind::Struct, Kind::Union] {
        for bytes in [1, 2, 3, 8, 16, 17, 255, 256] {
            for length in [0, 1, bytes - 1, bytes, bytes + 1, 2 * bytes] {
                let mut m = Make::new();
                m.int(1);
                m.listed(kind, false, 0, bytes, &[[0, 1, 0]]);
                ask(found, &m, 2, 0, &vec![0xA5; length as usize]);
            }
        }
        for bytes in [0, 1 << 16, 1 << 29, (1 << 29) + 1, 1 << 31, u32::MAX] {
            for length in [0, 1, 8] {
                let mut m = Make::new();
                m.listed::<3>(kind, false, 0, bytes, &[]);
                ask(found, &m, 1, 0, &vec![0xA5; length]);
            }
        }
    }
    // A member whose bits have numbers of more than 16 bits.
    let mut m = Make::new();
    m.int(2);
    m.structure(8_195, false, &[[0, 1, 65_536 + 3]]);
    ask(found, &m, 2, 0, &with_bits(8_195, |bit| bit % 3 == 0));
}

/// Every member of structs and unions, and numbers past them, also such as
/// make no more than a place inside when they are counted in 32 bits of bytes.
fn members(found: &mut Vec<Case>) {
    for kind in [Kind::Struct, Kind::Union] {
        for flag in [false, true] {
            for count in 0..4 {
                let mut m = Make::new();
                m.int(1);
                m.bare(Kind::Int, 0, 2, &[int_word(1, 0, 16)]);
                m.int(16);
                let step = if kind == Kind::Union { 0 } else { 8 };
                let members: Vec<[u32; 3]> = (0..count).map(|k| [0, 1 + k, step * k]).collect();
                m.listed(kind, flag, 0, 18, &members);
                let past = [256, 1 << 16, 1 << 28, 1 << 30, 1 << 31, u32::MAX];
                for member in (0..=count + 1).chain(past) {
                    let record: Vec<u8> = (0..18).map(|k| 0x91 ^ (7 * k)).collect();
                    ask(found, &m, 4, member, &record);
                }
            }
        }
    }
}

/// A struct of an INT, of a pointer and of a TYPEDEF of each, behind them and
/// in front of a TYPEDEF of its own and of an empty union.
fn several() -> Make {
    let mut m = Make::new();
    let name = m.string("n");
    m.int(1);
    m.ptr(0);
    m.typedef(name, 1);
    m.typedef(name, 2);
    let members = [[0, 1, 0], [0, 2, 0], [0, 3, 0], [0, 4, 8]];
    m.structure(9, false, &members);
    m.typedef(name, 5);
    m.union(0, false, &[]);
    m
}

/// Every type with every member and records around the type's length: each
/// ground from 21 to 33 with each of the others.
fn grounds(found: &mut Vec<Case>) {
    for number in (0..10).chain([u32::MAX]) {
        for member in [0, 1, 2, 3, 4, u32::MAX] {
            for length in [0, 8, 9, 10] {
                ask(found, &several(), number, member, &[0x9C; 10][..length]);
            }
        }
    }
}

/// The same grounds behind 34 and 35: tables that are refused, in both orders,
/// by every report that a small one can get, and by short slices.
fn tables(found: &mut Vec<Case>) {
    let good = several().blob();
    let mut bad = several();
    bad.at(7).third = 1;
    bad.at(1).third = 3;
    for blob in [turned(&good), bad.blob(), turned(&bad.blob())] {
        for number in [0, 5, 8] {
            for member in [0, 1, 4] {
                for length in [0, 9] {
                    ask_blob(
                        found,
                        blob.clone(),
                        8,
                        [number, member],
                        &[0x9C; 9][..length],
                    );
                }
            }
        }
    }
    for number in SMALL_REPORTS {
        for blob in both(&refused(number)) {
            ask_blob(found, blob, 9, [1, 0], &[0x9C; 9]);
        }
    }
    for blob in both(&good) {
        for (index_places, work_places) in (0..10).flat_map(|few| [(few, 9), (9, few)]) {
            found.push(Case {
                op: MEMBER,
                index_places,
                work_places,
                x: 5,
                y: 2,
                a: blob.clone(),
                b: vec![0x9C; 9],
                ..Case::default()
            });
        }
    }
}

/// What is read, or refused on a ground behind 35, from big-endian tables.
fn orders(found: &mut Vec<Case>) {
    for add_cases in [benches, types] {
        let mut made = Vec::new();
        add_cases(&mut made);
        found.extend(made.iter().map(turned_case));
    }
    let cut = &several().blob()[..23];
    ask_blob(found, turned(cut), 8, [5, 0], &[0x9C; 9]);
}
