//! Sizes and names over a base and a module's table, order 7, by hand.

mod common;

use common::{t, without_strings};
use second::generate::turn::turned;
use second::make::Make;
use second::vectors::{numbers_of, run, sum, Case, LEANING, LEANING_NAME, LEANING_SIZE};
use second::LeaningName::{InBase, InModule, Nowhere};
use second::SizeAnswer::{Exact, NoSize, Overflow, Report21, Report22};
use second::{name_leaning, size_leaning, SizeAnswer};

/// A module on T: strings without a leading zero, and no types.
fn module() -> Make {
    let mut m = without_strings();
    m.strings = b"own\0x\0".to_vec();
    m
}

#[test]
fn names_of_either_blob() {
    let (base, module) = (t().blob(), module().blob());
    let at = |offset| name_leaning(&base, &module, offset);
    assert_eq!(at(0), InBase(b""));
    assert_eq!(at(1), InBase(b"t"));
    assert_eq!(at(2), InBase(b""));
    assert_eq!(at(3), InModule(b"own"));
    assert_eq!(at(5), InModule(b"n"));
    assert_eq!(at(6), InModule(b""));
    assert_eq!(at(7), InModule(b"x"));
    assert_eq!(at(8), InModule(b""));
    for offset in [9, 10, 24, 1 << 31, u32::MAX] {
        assert_eq!(at(offset), Nowhere, "{offset}");
    }
    // Parts of the blobs themselves.
    let InBase(part) = at(1) else { panic!() };
    assert_eq!(part.as_ptr(), base[41..].as_ptr());
    let InModule(part) = at(4) else { panic!() };
    assert_eq!(part.as_ptr(), module[25..].as_ptr());
}

#[test]
fn no_strings_of_the_module() {
    let (base, module) = (t().blob(), without_strings().blob());
    assert_eq!(name_leaning(&base, &module, 1), InBase(b"t"));
    assert_eq!(name_leaning(&base, &module, 2), InBase(b""));
    assert_eq!(name_leaning(&base, &module, 3), Nowhere);
}

/// Reports below 6 of either, and 26; what a later phase says is not asked.
#[test]
fn where_no_name_can_be_had() {
    let (base, module) = (t().blob(), module().blob());
    let nowhere = |base: &[u8], module: &[u8]| {
        let all = [0, 1, 3, 7].map(|offset| name_leaning(base, module, offset) == Nowhere);
        assert!(all == [true; 4] || all == [false; 4]);
        all[0]
    };
    assert!(!nowhere(&base, &module));
    assert!(!nowhere(&turned(&base), &turned(&module)));
    assert!(nowhere(&base, &turned(&module)));
    assert!(nowhere(&turned(&base), &module));
    for at in [0, 2, 4, 8, 12, 20, 40, 42] {
        let mut bad = base.clone();
        bad[at] ^= 1;
        assert!(nowhere(&bad, &module), "{at}");
    }
    for at in [0, 2, 4, 8, 12, 20, 29] {
        let mut bad = module.clone();
        bad[at] ^= 1;
        assert!(nowhere(&base, &bad), "{at}");
    }
    assert!(nowhere(&base, &module[..23]));
    assert!(nowhere(&base, &[]));
    // A base whose first record is refused, and a module whose record is cut.
    let mut bad = t();
    bad.at(1).third = 3;
    assert!(!nowhere(&bad.blob(), &module));
    let cut = second::make::blob_of(&[0], b"own\0x\0");
    assert!(!nowhere(&base, &cut));
}

#[test]
fn the_byte_limit_counts_both() {
    let with = |bytes: usize| {
        let mut m = without_strings();
        m.strings = vec![0; bytes - 24];
        let module = m.blob();
        [1, 3].map(|offset| name_leaning(&t().blob(), &module, offset) == Nowhere)
    };
    assert_eq!(with(262_144 - 43), [false, false]);
    assert_eq!(with(262_144 - 42), [true, true]);
}

/// In both blobs a record stands at 24: the base's is T's INT of two bytes, the
/// module's an array of five of type 1.
#[test]
fn sizes_by_the_bases_count() {
    let mut m = without_strings();
    m.array(1, 1, 5);
    let (base, module) = (t().blob(), m.blob());
    let index = [0, 24, 24];
    let asked = |count, number| size_leaning(&base, count, &module, &index, number);
    assert_eq!(asked(1, 1), Exact(2));
    assert_eq!(asked(1, 2), Exact(10));
    assert_eq!(asked(1, 0), NoSize);
    assert_eq!(asked(1, 3), Report21);
    // With a count too small the base's type is read of the module, and with one
    // too large the module's of the base.
    assert_eq!(asked(0, 1), Report22);
    assert_eq!(asked(0, 2), Report22);
    assert_eq!(asked(2, 2), Exact(2));
    assert_eq!(asked(u32::MAX, 2), Exact(2));
    assert_eq!(asked(u32::MAX, u32::MAX), Report21);
    // 22 before 21, and nothing is read for void.
    assert_eq!(size_leaning(&base, 1, &module, &[], 2), Report22);
    assert_eq!(size_leaning(&base, 1, &module, &[0], 2), Report21);
    assert_eq!(size_leaning(&[], 1, &[], &[], 0), NoSize);
    assert_eq!(size_leaning(&base, 1, &module, &index[..1], 1), Report21);
}

/// The base has 43 bytes and the module 36. At 25 the base's bytes read as a
/// PTR; in the module a head does not fit there.
#[test]
fn places_count_in_the_blob_that_is_read() {
    let mut m = without_strings();
    m.typedef(1, 1);
    let (base, module) = (t().blob(), m.blob());
    assert_eq!((base.len(), module.len()), (43, 36));
    let asked = |count, place| size_leaning(&base, count, &module, &[0, 24, place], 2);
    assert_eq!(asked(1, 24), Exact(2));
    assert_eq!(asked(2, 25), Exact(8));
    assert_eq!(asked(1, 25), Report21);
    for count in [1, 2] {
        assert_eq!(asked(count, 23), Report21);
        assert_eq!(asked(count, 32), Report21);
    }
}

#[test]
fn each_blob_in_its_own_order() {
    let mut m = without_strings();
    m.array(1, 1, 65_536);
    m.array(2, 1, 32_768);
    let (base, module) = (t().blob(), m.blob());
    for base in [&base, &turned(&base)] {
        for module in [&module, &turned(&module)] {
            let sizes = [1, 2, 3].map(|x| size_leaning(base, 1, module, &[0, 24, 24, 48], x));
            assert_eq!(sizes, [Exact(2), Exact(131_072), Overflow]);
        }
    }
    // The first two bytes alone say it: these are EB 9F and nothing that fits.
    let mut mixed = module.clone();
    mixed[..2].copy_from_slice(&[0xEB, 0x9F]);
    let of_module = size_leaning(&base, 1, &mixed, &[0, 24, 24, 48], 2);
    assert_eq!(of_module, SizeAnswer::Report21);
}

/// A pair of T and a module whose one type is a TYPEDEF of T's, with this op.
fn case_of(op: u32) -> Case {
    let mut m = module();
    m.typedef(3, 1);
    Case {
        op,
        a: t().blob(),
        b: m.blob(),
        ..Case::default()
    }
}

/// The form of op 9 in a vector file.
#[test]
fn cases_of_the_check() {
    let case = Case {
        index_places: 4,
        work_places: 3,
        ..case_of(LEANING)
    };
    let index = [0, 24, 24, 0].map(u32::to_le_bytes).concat();
    let sums = [sum(&index), sum(&[0; 12]), 1];
    assert_eq!(numbers_of(&run(&case))[..4], [0, 0, 2, 0]);
    assert_eq!(numbers_of(&run(&case))[4..], sums);
    let with = |a: Vec<u8>, b: Vec<u8>| {
        let case = Case {
            a,
            b,
            ..case.clone()
        };
        numbers_of(&run(&case))[..4].to_vec()
    };
    let mut bad = t();
    bad.at(1).third = 3;
    assert_eq!(with(bad.blob(), case.b.clone()), [25, 10, 1, 24]);
    assert_eq!(with(case.a.clone(), turned(&case.b)), [26, 0, 0, 0]);
    let mut bad = module();
    bad.typedef(3, 2);
    assert_eq!(with(case.a.clone(), bad.blob()), [14, 0, 2, 24]);
}

/// Those of ops 10 and 11. The index is the last of b, and no output is lent.
#[test]
fn cases_of_the_questions() {
    let size = case_of(LEANING_SIZE);
    let index = [0, 24, 24].map(u32::to_le_bytes).concat();
    let size = Case {
        x: 2,
        y: 1,
        output_bytes: 3,
        b: [size.b, index].concat(),
        ..size
    };
    assert_eq!(numbers_of(&run(&size)), [0, 0, 0, 2, 1, 1, 1]);
    let name = |x| {
        let case = Case {
            x,
            ..case_of(LEANING_NAME)
        };
        numbers_of(&run(&case))
    };
    assert_eq!(name(1), [0, 0, 0, 1, 1, 1, sum(b"t")]);
    assert_eq!(name(3), [0, 0, 0, 3, 1, 1, sum(b"own")]);
    assert_eq!(name(9), [0, 0, 0, 0, 1, 1, 1]);
}
