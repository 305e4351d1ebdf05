//! The house list, sentence by sentence, with small lists by hand.

mod common;

use common::lists::*;
use common::*;
use second::generate::edges_joins::{refused as table_with, second_tables};
use second::generate::turn::{both, turned};
use second::make::Make;
use second::{write_list, ListRefusal, Report};

const E: [u8; 4] = [0x20, 1, 0, 0];

#[test]
fn of_the_empty_table() {
    let e = Make::new().blob();
    assert_eq!(list(&e), Ok(E.to_vec()));
    assert_eq!(table(&E), Ok(e.clone()));
    assert_eq!(list(&turned(&e)), Ok(vec![0x21, 1, 0, 0]));
    assert_eq!(table(&[0x21, 1, 0, 0]), Ok(turned(&e)));
}

#[test]
fn of_one_integer() {
    let t = t().blob();
    let record = &t[24..40];
    let little = fields(&[(32, b"\0t\0"), (1, record)]);
    assert_eq!(list(&t), Ok(little.clone()));
    assert_eq!(table(&little), Ok(t.clone()));
    let other = turned(&t);
    let big = fields(&[(33, b"\0t\0"), (1, &other[24..40])]);
    assert_eq!(list(&other), Ok(big.clone()));
    assert_eq!(table(&big), Ok(other));
    // The words of one order under the other's tag.
    assert_eq!(table(&fields(&[(33, b"\0t\0"), (1, record)])), Err(52));
}

#[test]
fn there_and_back() {
    for m in second_tables() {
        for blob in both(&m.blob()) {
            let there = list(&blob).expect("a list");
            assert_eq!(table(&there), Ok(blob.clone()));
            assert_eq!(there.len(), blob.len() - 24 + 3 * (m.records.len() + 1));
        }
    }
}

/// 50 for every tag but 1 to 19, 32, 33 and 127, in whichever place, whole or
/// cut short.
#[test]
fn unknown_tags() {
    for tag in 0..=255u8 {
        let is_known = matches!(tag, 1..=19 | 32 | 33 | 127);
        let begins = matches!(tag, 32 | 33);
        let expected = |number| Err(if is_known { number } else { 50 });
        if !begins {
            assert_eq!(table(&[tag, 0, 0]), expected(52));
        }
        assert_eq!(table(&[tag]), expected(51));
        assert_eq!(table(&[tag, 5, 0, 1]), expected(51));
        let behind = [&E[..], &[tag, 0, 0]].concat();
        assert_eq!(table(&behind), expected(52));
        assert_eq!(table(&behind[..5]), expected(51));
        assert_eq!(table(&behind[..6]), expected(51));
    }
}

/// 51 at each place but those between two fields; an empty list too.
#[test]
fn cut_short_at_each_place() {
    for m in second_tables() {
        let whole = list(&m.blob()).expect("a list");
        let mut between = vec![3 + m.strings.len()];
        for record in &m.records {
            let bytes = 3 + 12 + 4 * record.tail.len();
            between.push(between[between.len() - 1] + bytes);
        }
        for length in 0..whole.len() {
            let answer = table(&whole[..length]);
            assert_eq!(answer == Err(51), !between.contains(&length));
        }
    }
    assert_eq!(table(&[]), Err(51));
}

#[test]
fn out_of_place() {
    let strings = (32, &b"\0"[..]);
    let big = (33, &b"\0"[..]);
    let ptr = (2, &PTR[..]);
    for (all, expected) in [
        (vec![strings, ptr], None),
        (vec![big, (2, &BIG_PTR[..])], None),
        (vec![ptr], Some(52)),
        (vec![ptr, strings], Some(52)),
        (vec![(127, &b"\0"[..])], Some(52)),
        (vec![strings, strings], Some(52)),
        (vec![strings, big], Some(52)),
        (vec![big, strings], Some(52)),
        (vec![strings, ptr, strings], Some(52)),
        (vec![strings, (127, &b""[..])], Some(52)),
        (vec![strings, (127, &b"\0"[..]), ptr], Some(52)),
        (vec![strings, ptr, (127, &b""[..])], Some(52)),
    ] {
        assert_eq!(table(&fields(&all)).err(), expected, "{all:?}");
    }
}

/// A body is one whole record of its tag's kind: not another kind, no word
/// more or less, no odd bytes, not two records.
#[test]
fn record_bodies() {
    let with = |tag, body: &[u8]| table(&fields(&[(32, b"\0"), (tag, body)])).err();
    for tag in 1..=19 {
        let expected = if tag == 2 { None } else { Some(52) };
        assert_eq!(with(tag, &PTR), expected);
    }
    for length in 0..12 {
        assert_eq!(with(2, &PTR[..length]), Some(52));
    }
    let twice = [PTR, PTR].concat();
    for length in 13..=24 {
        assert_eq!(with(2, &twice[..length]), Some(52));
    }
    // The tail goes by vlen as read: of a struct's twelve bytes for an entry.
    let mut one = [0; 24];
    (one[4], one[7]) = (1, 4);
    assert_eq!(with(4, &one), Some(54));
    assert_eq!(with(4, &one[..20]), Some(52));
    // Spare bits and a pointer's vlen are no matter of the list.
    for at in [4, 6] {
        let mut ptr = PTR;
        ptr[at] = 1;
        assert_eq!(with(2, &ptr), Some(54));
    }
    // An unknown kind is none of the tags.
    let mut unknown = PTR;
    for kind in [0, 20, 31] {
        unknown[7] = kind;
        assert!((1..=19).all(|tag| with(tag, &unknown) == Some(52)));
    }
}

/// The first field at fault speaks, whatever stands behind it.
#[test]
fn the_first_fault_speaks() {
    let bad = [
        (fields(&[(20, b"")]), 50),
        (vec![4, 0xFF, 0xFF], 51),
        (fields(&[(32, b"")]), 52),
        (fields(&[(3, &PTR)]), 52),
    ];
    for (first, number) in &bad {
        for (second, _) in &bad {
            let all = [&E[..], first, second].concat();
            assert_eq!(table(&all), Err(*number));
        }
    }
}

/// A string body is never 52, whatever it holds; the table says the rest.
#[test]
fn string_bodies() {
    for strings in [&b""[..], b"a", b"\0a", b"a\0"] {
        for tag in [32, 33] {
            assert_eq!(inside(&fields(&[(tag, strings)])), Report::bare(5));
        }
    }
    assert!(table(&fields(&[(32, b"\0\0\xFF\0")])).is_ok());
}

/// 53 asks both byte slices, behind 50 to 52 and before the table.
#[test]
fn short_slices() {
    let list = fields(&[(32, b"\0"), (2, &PTR)]);
    for (bytes, expected) in [
        ([37, 37], None),
        ([36, 37], Some(53)),
        ([37, 36], Some(53)),
        ([0, 0], Some(53)),
        ([90, 37], None),
        ([37, 90], None),
    ] {
        assert_eq!(read(&list, [2, 2], bytes).err(), expected);
        let places = [[1, 2], [2, 1], [0, 0]];
        let or_9 = Some(expected.unwrap_or(54));
        assert!(places
            .iter()
            .all(|some| read(&list, *some, bytes).err() == or_9));
    }
    for (list, number) in [
        (&b"\x20\0\0"[..], 53),
        (b"\x31", 50),
        (b"", 51),
        (b"\x02\0\0", 52),
    ] {
        assert_eq!(read(list, [0, 0], [0, 0]), Err(number));
    }
}

/// Writing: the table's report first, then 53, with the index as the check
/// left it.
#[test]
fn writing_is_refused() {
    for report in 1..=15 {
        let blob = table_with(report);
        let answer = gate(&blob);
        for bytes in [0, 400] {
            let (mut index, mut work) = (vec![7; 9], vec![7; 9]);
            let mut output = vec![165; bytes];
            let written = write_list(&blob, &mut index, &mut work, &mut output);
            assert!(work.iter().all(|place| *place == 0));
            match answer {
                Err(inner) => {
                    assert_eq!(written, Err(ListRefusal::Table(inner)));
                    assert!(index.iter().all(|place| *place == 0));
                }
                Ok(count) => {
                    assert_eq!(written.is_err(), bytes == 0);
                    assert!(index[count as usize] > 0);
                }
            }
        }
    }
    let (mut index, mut work) = ([7; 2], [7; 2]);
    let mut output = [165; 24];
    let written = write_list(&t().blob(), &mut index, &mut work, &mut output);
    assert_eq!(written, Err(ListRefusal::TooShort));
    assert_eq!((index, output), ([0, 24], [165; 24]));
}
