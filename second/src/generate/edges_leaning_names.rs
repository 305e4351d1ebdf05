//! The name question over a base and a module's table at its edges, without
//! chance: every offset, and every ground on which there is none.

use crate::generate::edges::{four_types, Part};
use crate::generate::edges_faults::damage;
use crate::generate::edges_joins::{refused, SMALL_REPORTS};
use crate::generate::edges_leaning::one_on;
use crate::generate::turn::{both, in_order};
use crate::make::{blob_of, Make};
use crate::order::Order;
use crate::table::Kind;
use crate::vectors::{Case, LEANING_NAME};

pub const PARTS: &[Part] = &[
    ("leaning-offsets", |found, _| offsets(found)),
    ("leaning-nameless", |found, _| nameless(found)),
    ("leaning-name-orders", |found, _| orders(found)),
];

fn ask(found: &mut Vec<Case>, base: &[u8], module: &[u8], offset: u32) {
    found.push(Case {
        op: LEANING_NAME,
        x: offset,
        a: base.to_vec(),
        b: module.to_vec(),
        ..Case::default()
    });
}

/// Every offset of several strings on several bases, and past them, also such
/// as make no more than one of either when they are counted in 32 bits.
fn offsets(found: &mut Vec<Case>) {
    let mut longer = four_types();
    longer.string("base_");
    for base in [Make::new(), four_types(), longer] {
        let mark = base.strings.len() as u32;
        for strings in [&b""[..], b"\0", b"m\0", b"\0m\0", b"own\0\0k\0"] {
            let end = mark + strings.len() as u32;
            let types_len = (base.blob().len() - base.strings.len()) as u32;
            let wrapped = [1 << 31, 0u32.wrapping_sub(types_len), u32::MAX - mark];
            for offset in (0..end + 3).chain(wrapped).chain([u32::MAX]) {
                for base in both(&base.blob()) {
                    let module = blob_of(&[], strings);
                    ask(found, &base, &in_order_of(&base, &module), offset);
                }
            }
        }
    }
}

/// A little-endian module's table in the order of its base.
fn in_order_of(base: &[u8], module: &[u8]) -> Vec<u8> {
    in_order(module, Order::of(base))
}

/// The base with every report, the module with every report: those from 6 on
/// leave the names where they are.
fn nameless(found: &mut Vec<Case>) {
    let (base, _) = one_on(Kind::Ptr).blobs();
    let module = blob_of(&[0, 2 << 24, 1], b"own\0");
    for offset in [0, 1, 3, 4, 5, 6, 9] {
        for report in SMALL_REPORTS {
            ask(found, &refused(report), &module, offset);
            ask(found, &base, &refused(report), offset);
        }
        for report in 1..=5 {
            let mut bad = module.clone();
            damage(&mut bad, report);
            ask(found, &base, &bad, offset);
            ask(found, &bad, &base, offset);
        }
        ask(found, &module, &module, offset);
        ask(found, &base, &base, offset);
    }
    // Each byte of the module's header, and both ends of its strings.
    let ends = [module.len() - 4, module.len() - 1];
    for at in (0..24).chain(ends) {
        let mut turned = module.clone();
        turned[at] ^= 1;
        for offset in [1, 4] {
            ask(found, &base, &turned, offset);
        }
    }
}

/// Either order on either, and modules of a few bytes.
fn orders(found: &mut Vec<Case>) {
    let (base, module) = (four_types().blob(), blob_of(&[], b"own\0"));
    for base in both(&base) {
        for module in both(&module) {
            for offset in [0, 1, 4, 7, 8] {
                ask(found, &base, &module, offset);
                for length in [0, 1, 2, 23, 24] {
                    ask(found, &base, &module[..length], offset);
                }
                let mut other = module.clone();
                other.swap(0, 1);
                ask(found, &base, &other, offset);
            }
        }
    }
}
