//! Reports 25 and 26 at their edges, without chance: every report of a base,
//! and modules' tables that begin with each order's bytes. Each part has tables
//! of both orders.

use crate::generate::edges::{four_types, Part};
use crate::generate::edges_faults::damage;
use crate::generate::edges_joins::{refused, SMALL_REPORTS};
use crate::generate::edges_leaning::{add_blobs, one_on};
use crate::generate::leaning_cases::lend;
use crate::generate::turn::{both, turned};
use crate::make::{blob_of, Make};
use crate::table::Kind;
use crate::vectors::Case;

pub const PARTS: &[Part] = &[
    ("leaning-bases", |found, _| bases(found)),
    ("leaning-base-slices", |found, _| base_slices(found)),
    ("leaning-orders", |found, _| orders(found)),
    ("leaning-openings", |found, _| openings(found)),
];

/// Each report inside 25, before modules that are accepted on a good base, of
/// the other order, refused themselves, cut to a few bytes, and none.
fn bases(found: &mut Vec<Case>) {
    let good = blob_of(&[0, 2 << 24, 1], &[]);
    for report in SMALL_REPORTS {
        for base in both(&refused(report)) {
            for module in [&good, &turned(&good), &refused(15)] {
                add_blobs(found, &base, module, 9);
            }
            for length in [0, 1, 2, 23] {
                add_blobs(found, &base, &good[..length], 9);
                add_blobs(found, &base, &turned(&good)[..length], 9);
            }
        }
    }
    // A module's table is no base unless it could stand alone.
    for base in [
        blob_of(&[], &[]),
        blob_of(&[], b"own\0"),
        blob_of(&[], &[0]),
    ] {
        for base in both(&base) {
            for module in both(&good[..24]) {
                add_blobs(found, &base, &module, 9);
            }
        }
    }
    // What a base may not refer to: the module's types and strings.
    for (kind, name, third) in [
        (Kind::Ptr, 0, 4),
        (Kind::Ptr, 0, 6),
        (Kind::Float, 3, 4),
        (Kind::Float, 4, 4),
    ] {
        let mut base = four_types();
        base.bare(kind, name, third, &[]);
        let module = blob_of(&[0, 2 << 24, 0], b"own\0");
        add_blobs(found, &base.blob(), &module, 9);
    }
}

/// 9 inside 25: places for every type of the base are asked before 26, and
/// before the module is looked at.
fn base_slices(found: &mut Vec<Case>) {
    let module = blob_of(&[0, 2 << 24, 1], &[]);
    for base in both(&four_types().blob()) {
        for module in [&module[..], &turned(&module), &[], &module[..23]] {
            for few in [0, 3, 4, 5, 6] {
                for places in [(few, 6), (6, few)] {
                    found.push(lend(base.clone(), module.to_vec(), places));
                }
            }
        }
    }
}

/// Either order's module on either order's base, of every length up to a header
/// and with every report of its own: 26 comes before all of them.
fn orders(found: &mut Vec<Case>) {
    let (base, module) = one_on(Kind::Struct).blobs();
    for base in both(&base) {
        for module in both(&module) {
            for length in (0..=25).chain([module.len()]) {
                add_blobs(found, &base, &module[..length], 6);
            }
        }
        for report in SMALL_REPORTS {
            for module in both(&refused(report)) {
                add_blobs(found, &base, &module, 8);
            }
        }
        for report in 2..=5 {
            for module in both(&blob_of(&[], b"own\0")) {
                let mut module = module;
                damage(&mut module, report);
                add_blobs(found, &base, &module, 8);
            }
        }
    }
    // The empty base has an order too.
    for base in both(&Make::new().blob()) {
        for module in both(&blob_of(&[0, 2 << 24, 0], &[])) {
            add_blobs(found, &base, &module, 2);
        }
    }
}

/// Every pair of first bytes that have to do with the magic, before version and
/// flags as they should be and otherwise; and each bit of the first four turned.
fn openings(found: &mut Vec<Case>) {
    let (base, module) = one_on(Kind::Ptr).blobs();
    for base in both(&base) {
        for module in both(&module) {
            for first in [0x9F, 0xEB, 0] {
                for second in [0x9F, 0xEB, 0] {
                    for rest in [[1, 0], [0, 1], [0, 0], [2, 0]] {
                        let mut other = module.clone();
                        other[..2].copy_from_slice(&[first, second]);
                        other[2..4].copy_from_slice(&rest);
                        add_blobs(found, &base, &other, 6);
                    }
                }
            }
            for bit in 0..32 {
                let mut other = module.clone();
                other[bit / 8] ^= 1 << (bit % 8);
                add_blobs(found, &base, &other, 6);
            }
        }
    }
}
