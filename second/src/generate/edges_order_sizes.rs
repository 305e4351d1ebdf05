//! The size question in both byte orders at its edges, without chance: only
//! the blob's first two bytes say the order, whatever else the blob is.

use crate::generate::edges::Part;
use crate::generate::edges_questions::{array_tails, ask_size, in_strings};
use crate::generate::pieces::index_of;
use crate::generate::turn::both;
use crate::make::{put_word, Make};
use crate::order::{Order, ORDERS};
use crate::vectors::Case;

pub const PARTS: &[Part] = &[("order-sizes", |found, _| sizes(found))];

fn sizes(found: &mut Vec<Case>) {
    beginnings(found);
    short_blobs(found);
    numbers(found);
    places(found);
    array_tails(found, Order::Big);
    in_strings(found, Order::Big);
}

/// Records that are something else in each order: an INT or a PTR; a TYPEDEF or
/// a CONST, of type 1 in one order only; a kind that one order knows and one
/// that the other does; an INT of another size.
const RECORDS: [[u8; 12]; 6] = [
    [0, 0, 0, 0, 2, 0, 0, 1, 5, 0, 0, 7],
    [0, 0, 0, 0, 10, 0, 0, 8, 1, 0, 0, 0],
    [0, 0, 0, 0, 10, 0, 0, 8, 0, 0, 0, 1],
    [0, 0, 0, 0, 20, 0, 0, 1, 3, 0, 0, 0],
    [0, 0, 0, 0, 1, 0, 0, 20, 3, 0, 0, 0],
    [0, 0, 0, 0, 1, 0, 0, 1, 3, 2, 1, 0],
];

/// These records behind beginnings that are EB 9F, nearly so, or turned round.
fn beginnings(found: &mut Vec<Case>) {
    let index = [0, 24, 36, 48, 60, 72, 84];
    for magic in [
        [0xEB, 0x9F],
        [0x9F, 0xEB],
        [0xEB, 0xEB],
        [0x9F, 0x9F],
        [0xEB, 0],
        [0, 0x9F],
        [0xEB, 0x9E],
        [0xEA, 0x9F],
        [0, 0],
    ] {
        for after in [[1, 0], [0, 1], [0xFF, 0xFF]] {
            let mut blob = vec![0; 24];
            blob[..2].copy_from_slice(&magic);
            blob[2..4].copy_from_slice(&after);
            blob.extend(RECORDS.concat());
            for number in 1..=6 {
                ask_size(found, &blob, &index, number);
            }
        }
    }
}

/// Blobs of no bytes, of EB alone, of EB 9F and a little more, and up to one
/// record.
fn short_blobs(found: &mut Vec<Case>) {
    let mut m = Make::new();
    m.structure(7, false, &[]);
    for blob in both(&m.blob()) {
        for length in [0, 1, 2, 3, 4, 12, 23, 24, 35, 36] {
            for index in [&[][..], &[24], &[0, 24], &[0, 0]] {
                for number in [0, 1] {
                    ask_size(found, &blob[..length], index, number);
                }
            }
        }
    }
}

/// Numbers and sizes that are others in the other order: a chain, the element
/// and the count of an array; a pointer has 8 bytes in both. Behind either
/// order's magic.
fn numbers(found: &mut Vec<Case>) {
    let mut m = Make::new();
    m.constant(2);
    m.typedef(0, 3);
    m.array(4, 5, 0x0102);
    m.structure(0x0001_0200, false, &[]);
    m.int(4);
    m.ptr(0);
    m.array(6, 5, 0x0100_0000);
    m.constant(1 << 24);
    for blob in both(&m.blob()) {
        for begun in ORDERS {
            let mut blob = blob.clone();
            blob[..2].copy_from_slice(&begun.magic());
            for number in (1..=m.count()).chain([1 << 24]) {
                ask_size(found, &blob, &index_of(&m), number);
            }
        }
    }
}

/// An INT at each place from the first behind the header on, which needs no
/// alignment, in a blob that is otherwise no table; the places are plain
/// numbers.
fn places(found: &mut Vec<Case>) {
    for order in ORDERS {
        for place in 22..30 {
            let mut blob = vec![0; 44];
            blob[..2].copy_from_slice(&order.magic());
            put_word(&mut blob, place + 4, 1 << 24);
            put_word(&mut blob, place + 8, 0x0102_0304);
            ask_size(found, &blob, &[0, place as u32], 1);
            ask_size(found, &blob, &[0, (place as u32).swap_bytes()], 1);
        }
    }
}
