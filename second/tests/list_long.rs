//! Lists whose bodies are carried on, by hand.

mod common;

use common::lists::*;
use common::*;
use second::generate::turn::both;
use second::list::put_body;
use second::order::Order;
use second::table::{blob_in, Kind};

/// Bodies of 65,535 bytes are carried on, with nothing if need be.
#[test]
fn full_bodies_are_carried_on() {
    for order in [Order::Little, Order::Big] {
        let tag = if order == Order::Little { 32 } else { 33 };
        for (length, lengths) in [
            (65_534, &[65_534][..]),
            (65_535, &[65_535, 0]),
            (65_536, &[65_535, 1]),
            (131_069, &[65_535, 65_534]),
            (131_070, &[65_535, 65_535, 0]),
            (131_071, &[65_535, 65_535, 1]),
        ] {
            let strings = vec![0; length];
            let blob = blob_in(order, &[], &strings);
            let mut expected = Vec::new();
            for (at, bytes) in lengths.iter().enumerate() {
                let tag = if at == 0 { tag } else { 127 };
                expected.extend(fields(&[(tag, &strings[..*bytes])]));
            }
            assert_eq!(list(&blob), Ok(expected.clone()));
            assert_eq!(read(&expected, [1, 1], [blob.len(); 2]), Ok(blob));
        }
    }
}

/// Where one is due: the end is 51, a known tag 52, an unknown one 50, and one
/// that is cut short 51, also under another tag.
#[test]
fn where_carrying_on_is_due() {
    let full = fields(&[(32, &vec![0; 65_535])]);
    let after = |more: &[u8]| read(&[&full[..], more].concat(), [9, 9], [70_000; 2]).err();
    assert_eq!(after(&[]), Some(51));
    assert_eq!(after(&[127, 0, 0]), None);
    assert_eq!(after(&[127, 0]), Some(51));
    assert_eq!(after(&[127, 1, 0]), Some(51));
    assert_eq!(after(&[2, 1, 0]), Some(51));
    assert_eq!(after(&[32, 0, 0]), Some(52));
    assert_eq!(after(&fields(&[(2, &PTR)])), Some(52));
    assert_eq!(after(&[126, 0, 0]), Some(50));
    assert_eq!(after(&[127, 0, 0, 127, 0, 0]), Some(52));
    assert_eq!(after(&fields(&[(127, b""), (2, &PTR)])), None);
}

/// An ENUM of 8,190 values has 65,532 bytes, of 8,191 has 65,540; a body at
/// fault speaks with its last field.
#[test]
fn long_records() {
    for (values, fields) in [(8_190, 1), (8_191, 2), (16_382, 2), (16_383, 3)] {
        let mut m = t();
        let entries = vec![[1, 0]; values];
        m.listed(Kind::Enum, false, 0, 4, &entries);
        m.ptr(2);
        for blob in both(&m.blob()) {
            let there = list(&blob).expect("a list");
            assert_eq!(there.len(), blob.len() - 24 + 3 * (3 + fields));
            assert_eq!(read(&there, [4, 4], [blob.len(); 2]), Ok(blob));
        }
    }
    let mut start = vec![0x20, 1, 0, 0];
    put_body(&mut start, 2, &vec![0; 65_540]);
    let body = start.len() - 8;
    let after = |cut: usize, more: &[u8]| table(&[&start[..cut], more].concat()).err();
    assert_eq!(after(start.len(), &[]), Some(52));
    assert_eq!(after(start.len() - 1, &[]), Some(51));
    assert_eq!(after(body, &[]), Some(51));
    assert_eq!(after(body, &[50, 0, 0]), Some(50));
    assert_eq!(after(body, &[3]), Some(51));
    assert_eq!(after(body, &[3, 0, 0]), Some(52));
}

/// A table past the byte limit: 53 with slices of full size, 54 with 1 inside
/// with longer ones.
#[test]
fn past_the_byte_limit() {
    let mut list = Vec::new();
    put_body(&mut list, 32, &vec![0; 262_145 - 24]);
    assert_eq!(read(&list, [1, 1], [262_144; 2]), Err(53));
    assert_eq!(read(&list, [1, 1], [262_144, 262_145]), Err(53));
    assert_eq!(read(&list, [1, 1], [262_145; 2]), Err(54));
}
