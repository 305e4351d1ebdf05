//! Decided wordings about layout, report 15.

mod common;

use common::*;
use second::make::{field, Make};
use second::table::Kind;

#[test]
fn section_of_an_overflowing_variable() {
    // The DATASEC has the smaller number, so it is the one named.
    let mut m = Make::new();
    let name = m.string("v");
    m.section(name, 0, &[[2, 0, u32::MAX]]);
    m.var(name, 5);
    m.int(1);
    m.array(3, 3, 65_536);
    m.array(4, 3, 65_536);
    assert_eq!(judged(&m), refused(15, 1, 24));
    // A variable without size asks nothing, so the VAR is named.
    m.at(2).third = 6;
    m.proto(0, &[]);
    assert_eq!(judged(&m), refused(15, 2, 48));
}

#[test]
fn section_entries() {
    let with = |bytes: u32, entries: &[[u32; 3]]| {
        let mut m = Make::new();
        let name = m.string("v");
        m.int(4);
        m.var(name, 1);
        m.array(1, 1, 0);
        m.var(name, 3);
        m.section(name, bytes, entries);
        judged(&m)
    };
    assert_eq!(with(8, &[[2, 0, 4], [2, 4, 4]]), Ok(5));
    assert_eq!(with(8, &[[2, 0, 4], [2, 3, 4]]), refused(15, 5, 96));
    assert_eq!(with(8, &[[2, 4, 4], [2, 0, 4]]), refused(15, 5, 96));
    assert_eq!(with(7, &[[2, 0, 4], [2, 4, 4]]), refused(15, 5, 96));
    assert_eq!(with(8, &[[2, 0, 3]]), refused(15, 5, 96));
    assert_eq!(with(8, &[[2, 0, 8], [4, 8, 0]]), Ok(5));
    assert_eq!(with(8, &[[2, 0, 8], [4, 7, 0]]), refused(15, 5, 96));
    assert_eq!(with(8, &[[4, 9, 0]]), refused(15, 5, 96));
    // In a section of size 0 only the entry sizes are asked.
    assert_eq!(with(0, &[[2, 4, 4], [2, 0, 4]]), Ok(5));
    assert_eq!(with(0, &[[2, 0, 3]]), refused(15, 5, 96));
}

#[test]
fn offsets_in_struct_and_union() {
    let with = |kind: Kind, flag: bool, words: [u32; 2]| {
        let mut m = Make::new();
        let name = m.string("m");
        m.int(4);
        let members = words.map(|word| [name, 1, word]);
        m.listed(kind, flag, 0, 16, &members);
        judged(&m)
    };
    assert_eq!(with(Kind::Struct, false, [8, 8]), Ok(2));
    assert_eq!(with(Kind::Struct, false, [8, 7]), refused(15, 2, 40));
    assert_eq!(with(Kind::Struct, true, [field(9, 8), field(1, 8)]), Ok(2));
    assert_eq!(
        with(Kind::Struct, true, [field(1, 8), field(9, 7)]),
        refused(15, 2, 40)
    );
    assert_eq!(with(Kind::Union, false, [0, 0]), Ok(2));
    assert_eq!(with(Kind::Union, false, [0, 8]), refused(15, 2, 40));
    assert_eq!(with(Kind::Union, true, [field(3, 0), field(0, 0)]), Ok(2));
    assert_eq!(
        with(Kind::Union, true, [field(3, 1), field(0, 0)]),
        refused(15, 2, 40)
    );
}

#[test]
fn the_offset_of_an_int_is_not_added_to_the_order() {
    // The first spans from 16, the second from 8; their own offsets are 8.
    let mut m = Make::new();
    let name = m.string("m");
    m.odd_int(4, 8, 4);
    m.int(1);
    m.structure(4, false, &[[name, 1, 8], [name, 2, 8]]);
    assert_eq!(judged(&m), Ok(3));
    // In a union the INT's offset counts for the span alone.
    m.union(2, false, &[[name, 1, 0]]);
    assert_eq!(judged(&m), Ok(4));
    m.at(4).third = 1;
    assert_eq!(judged(&m), refused(15, 4, 92));
}

#[test]
fn fields_with_kind_flag_1() {
    let with = |bytes: u32, width: u32, holder: u32, word: u32| {
        let mut m = Make::new();
        let name = m.string("m");
        m.odd_int(bytes, 0, width);
        m.constant(1);
        m.structure(holder, true, &[[name, 2, word]]);
        judged(&m)
    };
    // w = 0 takes 8 times the size, also where the INT is narrower.
    assert_eq!(with(4, 8, 4, field(0, 0)), Ok(3));
    assert_eq!(with(4, 8, 3, field(0, 0)), refused(15, 3, 52));
    assert_eq!(with(4, 32, 8, field(0, 4)), refused(15, 3, 52));
    assert_eq!(with(4, 31, 4, field(0, 0)), refused(15, 3, 52));
    assert_eq!(with(4, 31, 4, field(1, 0)), refused(15, 3, 52));
    // w is measured by the size, not by the INT's own width.
    assert_eq!(with(4, 8, 4, field(32, 0)), Ok(3));
    assert_eq!(with(4, 8, 8, field(33, 0)), refused(15, 3, 52));
    assert_eq!(with(4, 32, 2, field(5, 11)), Ok(3));
    assert_eq!(with(4, 32, 2, field(5, 12)), refused(15, 3, 52));
}

#[test]
fn bases_of_fields() {
    for (kind, wanted) in [
        (Kind::Enum, Ok(2)),
        (Kind::Enum64, Ok(2)),
        (Kind::Float, refused(15, 2, 36)),
    ] {
        let mut m = Make::new();
        let name = m.string("m");
        m.bare(kind, 0, 4, &[]);
        m.structure(4, true, &[[name, 1, field(3, 1)]]);
        assert_eq!(judged(&m), wanted, "{kind:?}");
    }
    // With kind_flag 0 only an INT may lie across bytes.
    let mut m = Make::new();
    let name = m.string("m");
    m.bare(Kind::Enum, 0, 1, &[]);
    m.structure(4, false, &[[name, 1, 1]]);
    assert_eq!(judged(&m), refused(15, 2, 36));
}

#[test]
fn regular_index() {
    for (bytes, width, offset, fine) in [
        (4, 32, 0, true),
        (8, 16, 0, true),
        (8, 16, 16, false),
        (4, 31, 0, false),
    ] {
        let mut m = Make::new();
        m.odd_int(bytes, offset, width);
        m.array(1, 1, 3);
        let wanted = if fine { Ok(2) } else { refused(15, 2, 40) };
        assert_eq!(judged(&m), wanted);
    }
}

#[test]
fn elements_may_overflow_members_may_not() {
    let mut m = Make::new();
    let name = m.string("m");
    m.int(2);
    m.array(1, 1, u32::MAX);
    m.array(2, 1, 3);
    assert_eq!(judged(&m), Ok(3));
    m.structure(u32::MAX, false, &[[name, 2, 0]]);
    assert_eq!(judged(&m), refused(15, 4, 88));
    // No elements of it have size 0.
    m.at(3).tail[2] = 0;
    m.at(4).tail[1] = 3;
    assert_eq!(judged(&m), Ok(4));
    m.var(name, 2);
    assert_eq!(judged(&m), refused(15, 5, 112));
}

#[test]
fn functions_and_their_parameters() {
    let with = |parameters: &[[u32; 2]], component: u32| {
        let mut m = Make::new();
        m.string("f");
        m.func(1, 2);
        m.proto(0, parameters);
        m.int(4);
        m.tag(1, 1, component);
        judged(&m)
    };
    assert_eq!(with(&[[1, 3], [0, 0]], u32::MAX), Ok(4));
    // The FUNC is named, not its prototype.
    assert_eq!(with(&[[0, 3], [0, 0]], u32::MAX), refused(15, 1, 24));
    // A last 0/0 counts as a parameter.
    assert_eq!(with(&[[1, 3], [0, 0]], 1), Ok(4));
    assert_eq!(with(&[[1, 3], [0, 0]], 2), refused(15, 4, 80));
}

#[test]
fn components_of_other_targets() {
    for (component, wanted) in [
        (u32::MAX, Ok(5)),
        (0, refused(15, 4, 68)),
        (u32::MAX - 1, refused(15, 4, 68)),
    ] {
        let mut m = Make::new();
        let name = m.string("n");
        m.int(4);
        m.var(name, 1);
        m.typedef(name, 1);
        m.tag(name, 2, component);
        m.tag(name, 3, component);
        assert_eq!(judged(&m), wanted);
    }
}
