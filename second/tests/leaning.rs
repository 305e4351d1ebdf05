//! A module's table on its base, order 7, by hand: the check.

mod common;

use common::{accepted_at, lean, on, refused_by, t, without_strings};
use second::generate::large::pointers;
use second::generate::turn::turned;
use second::make::{blob_of, info, put_word};
use second::table::Kind;
use second::{check_leaning, LeaningRefusal, Report};

fn base_refused(number: u32, type_number: u32, place: u32) -> Result<u32, LeaningRefusal> {
    let report = Report::new(number, type_number, place);
    Err(LeaningRefusal::Base(report))
}

/// T has one type and three bytes of strings, so the module's first type is 2
/// and its first name is at 3.
#[test]
fn numbers_and_offsets_begin_after_the_base() {
    let mut m = without_strings();
    m.strings = b"own\0".to_vec();
    m.typedef(3, 1);
    m.typedef(1, 2);
    m.ptr(3);
    assert_eq!(accepted_at(&t(), &m), [0, 24, 24, 36, 48]);
    // The end of the base's strings is no name, and the module's end is past.
    m.at(1).name = 2;
    assert_eq!(on(&t(), &m), refused_by(11, 2, 24));
    m.at(1).name = 6;
    assert_eq!(on(&t(), &m), refused_by(11, 2, 24));
    m.at(1).name = 7;
    assert_eq!(on(&t(), &m), refused_by(11, 2, 24));
    // One below and one above the mark: an empty string, and the rest of a name.
    m.at(1).name = 4;
    assert_eq!(on(&t(), &m), Ok(4));
    m.at(1).third = 5;
    assert_eq!(on(&t(), &m), refused_by(13, 2, 24));
}

#[test]
fn strings_of_a_module() {
    let with = |strings: &[u8]| {
        let mut m = without_strings();
        m.strings = strings.to_vec();
        on(&t(), &m)
    };
    assert_eq!(with(&[]), Ok(1));
    assert_eq!(with(&[0]), Ok(1));
    assert_eq!(with(b"a\0"), Ok(1));
    assert_eq!(with(b"\0a\0"), Ok(1));
    for strings in [&b"a"[..], b"\0a", b"a\0b"] {
        assert_eq!(with(strings), refused_by(5, 0, 0));
    }
    // Offset 0 is the base's, also where the module's first byte is no zero.
    let mut m = without_strings();
    m.strings = b"a\0".to_vec();
    m.structure(2, false, &[[0, 1, 0]]);
    assert_eq!(on(&t(), &m), Ok(2));
    m.at(1).name = 3;
    assert_eq!(on(&t(), &m), Ok(2));
    // With no strings of its own there is nothing at the mark.
    m.strings.clear();
    assert_eq!(on(&t(), &m), refused_by(11, 2, 24));
    // A pointer asks for offset 0, and the module's leading zero is at 3.
    let mut m = without_strings();
    m.strings = vec![0];
    m.ptr(0);
    assert_eq!(on(&t(), &m), Ok(2));
    m.at(1).name = 3;
    assert_eq!(on(&t(), &m), refused_by(11, 2, 24));
}

#[test]
fn a_refused_base_comes_before_all_else() {
    let good = without_strings().blob();
    let mut bad = t();
    bad.at(1).third = 3;
    for module in [&good[..], &[], &[0xEB, 0x9F], &turned(&good)] {
        assert_eq!(lean(&bad.blob(), module), base_refused(10, 1, 24));
        assert_eq!(lean(&[0; 23], module), base_refused(1, 0, 0));
        assert_eq!(lean(&[0; 24], module), base_refused(2, 0, 0));
    }
    // A base may not refer to the module's types, nor to its strings.
    let mut m = without_strings();
    m.strings = b"a\0".to_vec();
    m.ptr(0);
    let mut bad = t();
    bad.ptr(3);
    assert_eq!(on(&bad, &m), base_refused(13, 2, 40));
    bad.at(2).third = 0;
    assert_eq!(on(&bad, &m), Ok(3));
    bad.at(1).name = 3;
    assert_eq!(on(&bad, &m), base_refused(11, 1, 24));
    // A base that leans on another is no table that stands alone.
    assert_eq!(lean(&good, &good), base_refused(5, 0, 0));
}

/// T needs two places, and both tables need four.
#[test]
fn short_slices() {
    let (base, mut m) = (t().blob(), without_strings());
    m.ptr(1);
    m.ptr(2);
    let module = m.blob();
    for few in 0..6 {
        let answer = match few {
            0 | 1 => base_refused(9, 0, 0),
            2 | 3 => refused_by(9, 0, 0),
            _ => Ok(3),
        };
        for (index_places, work_places) in [(few, 5), (5, few), (few, few)] {
            let mut index = vec![7; index_places];
            let mut work = vec![7; work_places];
            let found = check_leaning(&base, &module, &mut index, &mut work);
            assert_eq!(found, answer, "{index_places} {work_places}");
            let mut places = vec![0; index_places];
            if found.is_ok() {
                places[1..4].copy_from_slice(&[24, 24, 36]);
            }
            assert_eq!((index, work), (places, vec![0; work_places]));
        }
    }
    // An empty module asks as many places as its base, and 9 comes after 6.
    let empty = without_strings().blob();
    assert_eq!(
        check_leaning(&base, &empty, &mut [7; 2], &mut [7; 2]),
        Ok(1)
    );
    let cut = blob_of(&[0, 2 << 24, 0, 0], &[]);
    assert_eq!(
        check_leaning(&base, &cut, &mut [7; 2], &mut [7; 2]),
        refused_by(6, 3, 36)
    );
}

#[test]
fn the_other_orders_two_bytes() {
    let (base, module) = (t().blob(), without_strings().blob());
    let (big, big_module) = (turned(&base), turned(&module));
    assert_eq!(lean(&base, &module), Ok(1));
    assert_eq!(lean(&big, &big_module), Ok(1));
    let other = Err(LeaningRefusal::OrdersDiffer);
    for (table, ours, theirs) in [(&base, &module, &big_module), (&big, &big_module, &module)] {
        for length in 2..=24 {
            assert_eq!(lean(table, &theirs[..length]), other, "{length}");
        }
        // One byte says no order; fewer than 24 are report 1.
        for length in [0, 1] {
            assert_eq!(lean(table, &theirs[..length]), refused_by(1, 0, 0));
        }
        assert_eq!(lean(table, &ours[..23]), refused_by(1, 0, 0));
        // Neither order's two bytes, and the base's own before a wrong version.
        for (at, byte) in [(0, 0), (1, 0), (2, 2), (3, 1)] {
            let mut turned = ours.clone();
            turned[at] = byte;
            assert_eq!(lean(table, &turned), refused_by(2, 0, 0));
        }
        // The other order's before a wrong version.
        let mut turned = theirs.clone();
        turned[2] = 2;
        assert_eq!(lean(table, &turned), other);
    }
}

#[test]
fn phase_1_of_a_module() {
    let mut m = without_strings();
    m.ptr(1);
    let with = |place, word| {
        let mut module = m.blob();
        put_word(&mut module, place, word);
        lean(&t().blob(), &module)
    };
    assert_eq!(with(4, 24), Ok(2));
    assert_eq!(with(4, 25), refused_by(3, 0, 0));
    for (place, word) in [(8, 4), (12, 8), (12, 13), (16, 8), (20, 1)] {
        assert_eq!(with(place, word), refused_by(4, 0, 0), "{place}");
    }
    // A sum that is right in 32 bits only.
    let mut module = m.blob();
    for (place, word) in [(12, 1 << 31), (16, 1 << 31), (20, (1 << 31) + 12)] {
        put_word(&mut module, place, word);
    }
    assert_eq!(lean(&t().blob(), &module), refused_by(4, 0, 0));
}

/// T has 43 bytes.
#[test]
fn the_byte_limit_counts_both() {
    let with = |bytes: usize| {
        let mut m = without_strings();
        m.strings = vec![0; bytes - 24];
        on(&t(), &m)
    };
    assert_eq!(with(262_144 - 43), Ok(1));
    assert_eq!(with(262_144 - 42), refused_by(1, 0, 0));
    // Before 2, and after 26.
    let long = vec![0; 262_144 - 42];
    assert_eq!(lean(&t().blob(), &long), refused_by(1, 0, 0));
    let mut other = long;
    other[..2].copy_from_slice(&[0xEB, 0x9F]);
    let base = t().blob();
    assert_eq!(lean(&base, &other), Err(LeaningRefusal::OrdersDiffer));
}

#[test]
fn the_type_limit_counts_both() {
    let with = |base: u32, module: u32, words: &[u32]| {
        let mut made = pointers(module).type_words();
        made.extend(words);
        lean(&pointers(base).blob(), &blob_of(&made, &[]))
    };
    assert_eq!(with(16_380, 4, &[]), Ok(16_384));
    assert_eq!(with(16_384, 0, &[]), Ok(16_384));
    // Four pointers of 12 bytes go before the record too many.
    assert_eq!(with(16_380, 5, &[]), refused_by(8, 16_385, 72));
    assert_eq!(with(16_384, 1, &[]), refused_by(8, 16_385, 24));
    assert_eq!(with(0, 16_385, &[]), refused_by(8, 16_385, 196_632));
    // Before anything is read of it.
    assert_eq!(with(16_384, 0, &[0]), refused_by(8, 16_385, 24));
    assert_eq!(with(16_383, 0, &[0]), refused_by(6, 16_384, 24));
    assert_eq!(with(16_383, 0, &[0, 0, 0]), refused_by(7, 16_384, 24));
}

/// The first record, of 12 bytes, is type 2; the second is type 3 and stands
/// at 36.
#[test]
fn reports_name_numbers_that_go_on() {
    let with = |words: &[u32]| {
        let mut all = vec![0, info(Kind::Ptr, false, 0), 1];
        all.extend(words);
        lean(&t().blob(), &blob_of(&all, b"n\0"))
    };
    let of = |kind| info(kind, false, 0);
    assert_eq!(with(&[0]), refused_by(6, 3, 36));
    assert_eq!(with(&[0, of(Kind::Int), 4]), refused_by(6, 3, 36));
    assert_eq!(with(&[0, 20 << 24, 4]), refused_by(7, 3, 36));
    assert_eq!(with(&[0, of(Kind::Int), 3, 8]), refused_by(10, 3, 36));
    assert_eq!(with(&[0, of(Kind::Typedef), 1]), refused_by(11, 3, 36));
    assert_eq!(with(&[0, of(Kind::Int), 4, 33]), refused_by(12, 3, 36));
    assert_eq!(with(&[0, of(Kind::Ptr), 4]), refused_by(13, 3, 36));
    assert_eq!(with(&[0, of(Kind::Ptr), 3]), refused_by(14, 3, 36));
    assert_eq!(with(&[3, of(Kind::DeclTag), 2, 0]), refused_by(13, 3, 36));
    let var_of_void = [0, of(Kind::Const), 0, 3, of(Kind::Var), 3, 0];
    assert_eq!(with(&var_of_void), refused_by(15, 4, 48));
}
