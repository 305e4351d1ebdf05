//! One record of a section that stands alone, by hand.

mod common;

use common::sections::*;
use second::generate::turn::turned_ext;
use second::make_ext::MakeExt;

/// Every record of three parts of two groups: the groups' names, the places
/// behind a header of 32 bytes, a record size and one head or two.
#[test]
fn every_record() {
    let section = three_parts().blob();
    let [lines, relocations] = [32 + 44, 32 + 44 + 68];
    let found: [&[(u32, usize)]; 3] = [
        &[(1, 44), (1, 52), (2, 68)],
        &[(1, lines + 12), (1, lines + 28), (0, lines + 52)],
        &[
            (1, relocations + 12),
            (1, relocations + 28),
            (3, relocations + 52),
        ],
    ];
    for section in [section.clone(), turned_ext(&section)] {
        for (part, records) in (1..).zip(&found) {
            for (k, (name, place)) in (0..).zip(*records) {
                let length = if part == 1 { 8 } else { 16 };
                let bytes = section[*place..place + length].to_vec();
                assert_eq!(record(&section, part, k), Some((*name, *place, bytes)));
            }
            for k in [3, 4, 1 << 16, u32::MAX] {
                assert_eq!(record(&section, part, k), None);
            }
        }
        for part in [0, 4, 5, 255, 256, 257, u32::MAX] {
            assert_eq!(record(&section, part, 0), None);
        }
    }
}

/// Extra bytes lie between the records and are not handed out.
#[test]
fn longer_records() {
    let mut e = MakeExt::new(2);
    e.group(1, 7, &[[1, 2, 3], [4, 5, 6]]);
    e.group(2, 8, &[[1, 2, 3, 4, 5]]);
    let bytes = |words: &[u32]| -> Vec<u8> { words.iter().flat_map(|w| w.to_le_bytes()).collect() };
    let section = e.blob();
    assert_eq!(record(&section, 1, 0), Some((7, 36, bytes(&[1, 2]))));
    assert_eq!(record(&section, 1, 1), Some((7, 48, bytes(&[4, 5]))));
    assert_eq!(record(&section, 2, 0), Some((8, 72, bytes(&[1, 2, 3, 4]))));
    // A header of 24 bytes has no third part.
    assert_eq!(record(&section, 3, 0), None);
    let big = turned_ext(&section);
    let turned = record(&big, 1, 1).expect("a record");
    assert_eq!(turned, (7, 48, vec![0, 0, 0, 4, 0, 0, 0, 5]));
}

/// Names and types are a table's matter, and there is none.
#[test]
fn names_and_types_are_not_judged() {
    let mut e = MakeExt::new(2);
    e.group(1, u32::MAX, &[[u32::MAX; 2]]);
    let found = Some((u32::MAX, 36, vec![0xFF; 8]));
    assert_eq!(record(&e.blob(), 1, 0), found);
}

/// A fault of 41 and 43 to 46 in any part leaves no record in any other.
#[test]
fn broken_anywhere() {
    let whole = three_parts();
    let none = |section: &[u8]| {
        for section in [section.to_vec(), turned_ext(section)] {
            for part in 1..=3 {
                assert_eq!(record(&section, part, 0), None);
            }
        }
    };
    for part in 1..=3 {
        let mut e = whole.clone();
        e.parts[part - 1][0] += 1;
        none(&e.blob());
        let mut e = whole.clone();
        e.parts[part - 1].pop();
        none(&e.blob());
        let last = second::make_ext::group_heads(&whole.parts[part - 1])[1];
        for count in [0, 2, u32::MAX] {
            let mut e = whole.clone();
            e.parts[part - 1][last + 1] = count;
            none(&e.blob());
        }
    }
    let section = whole.blob();
    for length in 0..section.len() {
        none(&section[..length]);
    }
    none(&[&section[..], &[0]].concat());
    none(&with_header(&whole, &[(4, 24)]));
    none(&with_header(&whole, &[(4, 33)]));
    none(&with_header(&whole, &[(8, 4)]));
    none(&with_header(&whole, &[(28, 72)]));
}

/// Each order's four bytes say its words' order; nothing else begins a section.
#[test]
fn openings() {
    let section = three_parts().blob();
    for place in 0..4 {
        for bit in 0..8 {
            let mut other = section.clone();
            other[place] ^= 1 << bit;
            assert_eq!(record(&other, 1, 0), None);
        }
    }
    // One order's four bytes before the other's words.
    let mut mixed = turned_ext(&section);
    mixed.swap(0, 1);
    assert_eq!(record(&mixed, 1, 0), None);
}

#[test]
fn at_the_byte_limit() {
    for (bytes, is_there) in [(262_144, true), (262_148, false)] {
        let mut e = MakeExt::new(2);
        let words = (bytes - 24 - 4 - 8) / 4;
        e.size(1, 4 * words as u32);
        e.put_group(1, 0, 1, &vec![0; words]);
        assert_eq!(e.blob().len(), bytes);
        assert_eq!(record(&e.blob(), 1, 0).is_some(), is_there);
    }
}
