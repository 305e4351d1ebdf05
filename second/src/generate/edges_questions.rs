//! Sizes and names at their edges, without chance.

use crate::generate::edges::{one_of, Part};
use crate::generate::pieces::index_of;
use crate::generate::turn::in_order;
use crate::make::{put_word, Make};
use crate::order::Order;
use crate::table::Kind;
use crate::vectors::{bytes_of, Case, NAME, SIZE};

pub const PARTS: &[Part] = &[
    ("benches", |found, _| benches(found)),
    ("uniform", |found, _| uniform_blobs(found)),
    ("kind-numbers", |found, _| every_kind_number(found)),
    ("array-tails", |found, _| array_tails(found, Order::Little)),
    ("in-strings", |found, _| in_strings(found, Order::Little)),
    ("index-lengths", |found, _| index_lengths(found)),
    ("products", |found, _| products(found)),
    ("name-offsets", |found, _| name_offsets(found)),
    ("identifiers", |found, _| identifiers(found)),
];

/// The paper's benches that are sizes and names: T, a pointer to itself,
/// `int a[5][6]` and zero elements of what overflows. `products` has the rest.
fn benches(found: &mut Vec<Case>) {
    let mut m = Make::new();
    let name = m.string("t");
    m.raw(name, 1 << 24, 2, &[0x0100_0010]);
    ask_size(found, &m.blob(), &[0, 24], 1);
    for offset in 0..4 {
        ask_name(found, &m.blob(), offset);
    }
    let mut m = Make::new();
    m.ptr(1);
    ask_size(found, &m.blob(), &index_of(&m), 1);
    let mut m = Make::new();
    m.int(4);
    let mut outer = 1;
    for count in [6, 5, 65_536, 65_536, 0] {
        outer = m.array(outer, 1, count);
        ask_size(found, &m.blob(), &index_of(&m), outer);
    }
}

pub fn ask_name(found: &mut Vec<Case>, blob: &[u8], offset: u32) {
    found.push(Case {
        op: NAME,
        x: offset,
        a: blob.to_vec(),
        ..Case::default()
    });
}

pub fn ask_size(found: &mut Vec<Case>, blob: &[u8], index: &[u32], number: u32) {
    let (a, b) = (blob.to_vec(), bytes_of(index));
    found.push(Case {
        op: SIZE,
        x: number,
        a,
        b,
        ..Case::default()
    });
}

/// Blobs of one byte, which read as the same record at every place.
fn uniform_blobs(found: &mut Vec<Case>) {
    for byte in [0, 1, 2, 7, 20, 31] {
        for length in [0, 11, 12, 24, 35, 36, 37, 48] {
            let end = length as u32;
            let near_end = [13, 12, 11, 1, 0].map(|back| end.wrapping_sub(back));
            let fixed = [0, 1, 12, 22, 23, 24, 25, u32::MAX - 11, u32::MAX];
            for place in fixed.into_iter().chain(near_end) {
                ask_size(found, &vec![byte; length], &[0, place], 1);
            }
        }
    }
}

/// Every kind number with and without the other bits of the info word.
fn every_kind_number(found: &mut Vec<Case>) {
    for kind in 0..32 {
        for other_bits in [0, 0xE0FF_FFFF] {
            for third in [0, 1, 2, 5] {
                let mut m = Make::new();
                m.raw(0, (kind << 24) | other_bits, third, &[2, 0, 3]);
                m.int(4);
                ask_size(found, &m.blob(), &[0, 24, 48], 1);
                ask_size(found, &m.blob()[..36], &[0, 24, 48], 1);
            }
        }
    }
}

/// An array whose tail just fits or just does not, aligned or not. The blob is
/// no table; for a little-endian one it needs no magic.
pub fn array_tails(found: &mut Vec<Case>, order: Order) {
    for at in 36..40 {
        for length in 11..=26 {
            let mut blob = vec![0; at + 26];
            if order == Order::Big {
                blob[..2].copy_from_slice(&order.magic());
            }
            put_word(&mut blob, 28, 1 << 24);
            put_word(&mut blob, 32, 5);
            put_word(&mut blob, at + 4, 3 << 24);
            put_word(&mut blob, at + 12, 2);
            put_word(&mut blob, at + 20, 3);
            ask_size(found, &blob[..at + length], &[0, at as u32, 24], 1);
        }
    }
}

/// A record whose bytes are strings of a table: no question is asked of where
/// a place lies, so it is read as any other.
pub fn in_strings(found: &mut Vec<Case>, order: Order) {
    for kind in 1..20 {
        let mut m = Make::new();
        m.ptr(0);
        let mut text = vec![0; 4];
        text.extend(order.bytes((kind << 24) | 0x0001_0101));
        text.extend(order.bytes(0x0101_0107));
        text.push(0);
        let place = 24 + 12 + m.string(text);
        ask_size(found, &in_order(&m.blob(), order), &[0, 24, place], 2);
    }
}

/// A chain and a ring, with true, shortened and lengthened indexes.
fn index_lengths(found: &mut Vec<Case>) {
    for last in [0, 1, 3, 4] {
        let mut m = Make::new();
        m.constant(2);
        m.constant(3);
        m.constant(last);
        m.ptr(0);
        let mut index = index_of(&m);
        index.extend([24, 36]);
        for places in 0..=index.len() {
            for number in (0..8).chain([1 << 31, u32::MAX]) {
                ask_size(found, &m.blob(), &index[..places], number);
            }
        }
    }
}

/// Products around the limit, with zero, with nothing and with too much.
fn products(found: &mut Vec<Case>) {
    let counts = [0, 1, 2, 65_535, 65_536, 65_537, u32::MAX];
    for inner in counts {
        for outer in counts {
            for bytes in [0, 1, 2, u32::MAX] {
                let mut m = Make::new();
                m.structure(bytes, false, &[]);
                m.int(1);
                m.array(1, 2, inner);
                m.array(3, 2, outer);
                ask_size(found, &m.blob(), &index_of(&m), 4);
            }
            let mut m = Make::new();
            m.constant(0);
            m.array(1, 1, inner);
            m.array(2, 1, outer);
            ask_size(found, &m.blob(), &index_of(&m), 3);
            ask_size(found, &m.blob(), &[0, 0, 36, 60], 3);
        }
    }
}

/// Every offset of a few tables, and each first byte or word turned.
fn name_offsets(found: &mut Vec<Case>) {
    let mut m = one_of(Kind::Ptr);
    m.string("ab_c");
    let blob = m.blob();
    let offsets = (0..m.strings.len() as u32 + 3).chain([1 << 31, u32::MAX - 100, u32::MAX]);
    for offset in offsets {
        ask_name(found, &blob, offset);
    }
    let strings_at = blob.len() - m.strings.len();
    for at in (0..24).chain([strings_at, blob.len() - 1]) {
        let mut turned = blob.clone();
        turned[at] ^= 1;
        ask_name(found, &turned, 1);
    }
}

/// Names that are identifiers and names that are none, by each end of theirs.
fn identifiers(found: &mut Vec<Case>) {
    let long = [1, 126, 127, 128, 129].map(|length| vec![b'a'; length]);
    let short = ["", "_", "7", "a7", "7a", "a-b", "Z_9"].map(|text| text.as_bytes().to_vec());
    for text in long.into_iter().chain(short) {
        let mut m = Make::new();
        let at = m.string(&text);
        for offset in at..=at + text.len().min(3) as u32 {
            ask_name(found, &m.blob(), offset);
        }
    }
}
