//! Wordings of paper 01 that are decided or easy to miss: the gate.

mod common;

use common::*;
use second::check;
use second::make::{info, int_word, Make};
use second::table::Kind;

#[test]
fn empty_table_needs_one_place() {
    let blob = Make::new().blob();
    assert_eq!(check(&blob, &mut [], &mut [9]), refused(9, 0, 0));
    let mut index = [9, 9];
    assert_eq!(check(&blob, &mut index, &mut []), refused(9, 0, 0));
    assert_eq!(index, [0, 0]);
    assert_eq!(check(&blob, &mut [9], &mut [9]), Ok(0));
}

#[test]
fn too_few_places_leave_zeros() {
    let mut m = Make::new();
    m.int(4);
    m.ptr(1);
    let mut index = [9; 2];
    let mut work = [9; 5];
    assert_eq!(check(&m.blob(), &mut index, &mut work), refused(9, 0, 0));
    assert_eq!((index, work), ([0; 2], [0; 5]));
    // 9 belongs to phase 2, so it speaks before a bad head.
    m.at(1).third = 3;
    assert_eq!(check(&m.blob(), &mut index, &mut work), refused(9, 0, 0));
}

#[test]
fn tails_go_by_kind_and_vlen_as_read() {
    // A pointer with vlen 3 has no tail; the next record is read behind it.
    let mut m = Make::new();
    m.raw(0, info(Kind::Ptr, false, 3), 0, &[]);
    m.int(4);
    assert_eq!(judged(&m), refused(10, 1, 24));
    // Spare bits do not shorten an enum's tail.
    let mut m = Make::new();
    m.raw(0, info(Kind::Enum, false, 1) | 1 << 16, 4, &[]);
    assert_eq!(judged(&m), refused(6, 1, 24));
    // An unknown kind has no tail to miss.
    let mut m = Make::new();
    m.raw(0, (20 << 24) | 0xFFFF, 0, &[]);
    assert_eq!(judged(&m), refused(7, 1, 24));
}

#[test]
fn offset_to_an_empty_string() {
    for (kind, wanted) in [
        (Kind::Ptr, refused(11, 1, 24)),
        (Kind::Struct, refused(11, 1, 24)),
        (Kind::Typedef, refused(11, 1, 24)),
        (Kind::TypeTag, refused(11, 1, 24)),
        (Kind::Datasec, refused(11, 1, 24)),
        (Kind::Float, Ok(1)),
    ] {
        let mut m = Make::new();
        let empty = m.string("");
        m.bare(kind, empty, if kind == Kind::Float { 4 } else { 0 }, &[]);
        assert_eq!(judged(&m), wanted, "{kind:?}");
    }
}

#[test]
fn a_join_raises_an_offset_to_an_empty_string() {
    let mut m = Make::new();
    let empty = m.string("");
    m.bare(Kind::Float, empty, 4, &[]);
    let blob = joined(&m.blob(), &m.blob());
    assert_eq!(second::make::word_at(&blob, 36), 2);
    assert_eq!(blob[48..], [0, 0, 0]);
}

#[test]
fn parameters_of_type_0() {
    let with = |parameters: &[[u32; 2]]| {
        let mut m = Make::new();
        m.string("p");
        m.proto(0, parameters);
        m.int(4);
        judged(&m)
    };
    assert_eq!(with(&[[1, 2], [0, 0]]), Ok(2));
    assert_eq!(with(&[[0, 0]]), Ok(2));
    assert_eq!(with(&[[3, 0]]), refused(11, 1, 24));
    assert_eq!(with(&[[2, 0]]), refused(11, 1, 24));
    assert_eq!(with(&[[1, 0]]), refused(12, 1, 24));
    assert_eq!(with(&[[0, 0], [1, 2]]), refused(12, 1, 24));
    assert_eq!(with(&[[0, 0], [0, 0]]), refused(12, 1, 24));
}

#[test]
fn void_where_it_may_not_be() {
    let mut m = Make::new();
    let name = m.string("v");
    m.var(name, 0);
    assert_eq!(judged(&m), refused(13, 1, 24));
    let mut m = Make::new();
    m.int(4);
    m.array(0, 1, 1);
    assert_eq!(judged(&m), refused(13, 2, 40));
}

#[test]
fn member_name_comes_before_the_next_head() {
    let mut m = Make::new();
    let empty = m.string("");
    m.structure(4, false, &[[empty, 2, 0]]);
    m.int(3);
    assert_eq!(judged(&m), refused(11, 1, 24));
    // At one type the smaller number speaks.
    m.at(1).info |= 1 << 16;
    assert_eq!(judged(&m), refused(10, 1, 24));
}

#[test]
fn a_member_may_have_no_name() {
    for kind in [Kind::Struct, Kind::Union] {
        let with = |name: u32, of: u32, bytes: u32| {
            let mut m = Make::new();
            m.string("");
            m.int(4);
            m.listed(kind, false, 0, bytes, &[[name, of, 0]]);
            judged(&m)
        };
        assert_eq!(with(0, 1, 4), Ok(2));
        // Another offset to an empty string, and one past the strings.
        assert_eq!(with(1, 1, 4), refused(11, 2, 40));
        assert_eq!(with(2, 1, 4), refused(11, 2, 40));
        // The later phases are as for any member.
        assert_eq!(with(0, 0, 4), refused(13, 2, 40));
        assert_eq!(with(0, 3, 4), refused(13, 2, 40));
        assert_eq!(with(0, 2, 4), refused(14, 2, 40));
        assert_eq!(with(0, 1, 3), refused(15, 2, 40));
    }
    // An enum's value keeps the strict rule.
    for (kind, entry) in [(Kind::Enum, vec![0, 0]), (Kind::Enum64, vec![0, 0, 0])] {
        let mut m = Make::new();
        m.raw(0, info(kind, false, 1), 4, &entry);
        assert_eq!(judged(&m), refused(11, 1, 24));
    }
}

#[test]
fn functions_are_static_or_global_and_variables_may_be_outside() {
    for linkage in 0..4 {
        let mut m = Make::new();
        let name = m.string("f");
        m.proto(0, &[]);
        m.raw(name, info(Kind::Func, false, linkage), 1, &[]);
        let wanted = if linkage < 2 {
            Ok(2)
        } else {
            refused(10, 2, 36)
        };
        assert_eq!(judged(&m), wanted, "FUNC {linkage}");
        let mut m = Make::new();
        let name = m.string("v");
        m.int(4);
        m.bare(Kind::Var, name, 1, &[linkage]);
        let wanted = if linkage < 3 {
            Ok(2)
        } else {
            refused(12, 2, 40)
        };
        assert_eq!(judged(&m), wanted, "VAR {linkage}");
    }
}

#[test]
fn int_tail_is_judged_after_the_head() {
    let mut m = Make::new();
    m.bare(Kind::Int, 0, 3, &[int_word(0, 200, 200)]);
    assert_eq!(judged(&m), refused(10, 1, 24));
    for (encoding, fine) in [
        (0, true),
        (1, true),
        (2, true),
        (3, false),
        (4, true),
        (8, false),
    ] {
        let mut m = Make::new();
        m.bare(Kind::Int, 0, 4, &[int_word(encoding, 2, 30)]);
        assert_eq!(judged(&m).is_ok(), fine, "{encoding}");
    }
    for (word, fine) in [
        (int_word(0, 2, 31), false),
        (int_word(0, 0, 0), false),
        (1 << 8 | 1, false),
    ] {
        let mut m = Make::new();
        m.bare(Kind::Int, 0, 4, &[word]);
        assert_eq!(judged(&m).is_ok(), fine, "{word}");
    }
}

#[test]
fn nothing_inside_is_fine() {
    let mut m = Make::new();
    let name = m.string("s");
    m.structure(77, false, &[]);
    m.union(u32::MAX, true, &[]);
    m.proto(0, &[]);
    m.section(name, 12, &[]);
    m.listed::<2>(Kind::Enum, false, 0, 1, &[]);
    m.listed::<3>(Kind::Enum64, true, 0, 8, &[]);
    assert_eq!(judged(&m), Ok(6));
}

#[test]
fn report_names_in_order() {
    // Two types at fault, the smaller speaks, whatever its number.
    let mut m = Make::new();
    m.bare(Kind::Int, 0, 4, &[int_word(0, 0, 33)]);
    m.int(3);
    assert_eq!(judged(&m), refused(12, 1, 24));
    // An earlier phase speaks for a larger type.
    let mut m = Make::new();
    m.ptr(9);
    m.int(3);
    assert_eq!(judged(&m), refused(10, 2, 36));
}

#[test]
fn names_of_127_and_128() {
    for (length, wanted) in [(127, Ok(1)), (128, refused(11, 1, 24))] {
        for (kind, byte) in [(Kind::Fwd, b'a'), (Kind::Datasec, b'!')] {
            let mut m = Make::new();
            let name = m.string(vec![byte; length]);
            m.bare(kind, name, 0, &[]);
            assert_eq!(judged(&m), wanted);
        }
    }
    // Tags take any length and any bytes.
    let mut m = Make::new();
    let name = m.string(vec![0xFF; 300]);
    m.bare(Kind::TypeTag, name, 0, &[]);
    assert_eq!(judged(&m), Ok(1));
}
