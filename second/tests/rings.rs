//! The second sort of walk, order 6: pointers, typedefs, qualifiers and tags.

mod common;

use common::*;
use second::generate::edges;
use second::generate::edges_pointers::*;
use second::make::Make;
use second::table::Kind;
use second::vectors::{run, JOIN};

/// Where a step of the second sort starts, as the request lists them.
const SIX: [Kind; 6] = [
    Kind::Ptr,
    Kind::Typedef,
    Kind::Volatile,
    Kind::Const,
    Kind::Restrict,
    Kind::TypeTag,
];

#[test]
fn each_kind_to_itself_and_to_void() {
    for kind in SIX {
        let mut m = named();
        link(&mut m, kind, 1);
        assert_eq!(judged(&m), refused(14, 1, 24), "{kind:?}");
        // Void is no step's end, though there is only one type.
        m.at(1).third = 0;
        assert_eq!(judged(&m), Ok(1), "{kind:?}");
    }
}

/// Type 1, of each of the six kinds, leads to a pointer to itself, or is in a
/// ring with it.
#[test]
fn a_smaller_link_is_named() {
    for kind in SIX {
        let mut m = named();
        link(&mut m, kind, 2);
        m.ptr(2);
        assert_eq!(judged(&m), refused(14, 1, 24), "{kind:?}");
        m.at(2).third = 1;
        assert_eq!(judged(&m), refused(14, 1, 24), "{kind:?}");
    }
}

/// A member, an element, a variable, what is returned and a parameter are no
/// steps of the second sort, and a pointer is none of the first.
#[test]
fn other_leads_are_not_named() {
    let leads: [(u32, fn(&mut Make) -> u32); 6] = [
        (48, |m| m.structure(8, false, &[[1, 2, 0]])),
        (48, |m| m.union(8, false, &[[1, 2, 0]])),
        (48, |m| m.array(2, 3, 5)),
        (40, |m| m.var(1, 2)),
        (36, |m| m.proto(2, &[])),
        (44, |m| m.proto(0, &[[1, 2]])),
    ];
    for (place, add) in leads {
        let mut m = named();
        add(&mut m);
        m.ptr(2);
        m.int(4);
        assert_eq!(judged(&m), refused(14, 2, place));
    }
}

/// The ring goes 2, 4, 3 and is entered at 3.
#[test]
fn a_ring_is_named_by_its_smallest_type() {
    let mut m = named();
    m.int(4);
    m.constant(4);
    m.ptr(2);
    m.typedef(1, 3);
    m.typedef(1, 3);
    assert_eq!(judged(&m), refused(14, 2, 40));
}

#[test]
fn pointers_back_to_what_holds_them() {
    // A struct over each of the kinds, before the pointer and behind it.
    for kind in SIX {
        let mut m = named();
        m.structure(8, false, &[[1, 2, 0]]);
        link(&mut m, kind, 3);
        m.ptr(1);
        assert_eq!(judged(&m), Ok(3), "{kind:?}");
        m.at(2).third = 1;
        m.at(3).third = 2;
        m.at(1).tail[1] = 3;
        assert_eq!(judged(&m), Ok(3), "{kind:?}");
    }
    // A prototype by its parameter, and an array by its element.
    let mut m = named();
    m.proto(0, &[[1, 2]]);
    m.ptr(1);
    assert_eq!(judged(&m), Ok(2));
    let mut m = named();
    m.array(2, 3, 4);
    m.ptr(1);
    m.int(4);
    assert_eq!(judged(&m), Ok(3));
    assert_eq!(judged(&two_structs()), Ok(4));
}

/// Steps of both sorts together would go 1, 2, 3, 4, 1 for ever; each sort by
/// itself has three at most.
#[test]
fn a_walk_does_not_mix_the_sorts() {
    let mut m = named();
    m.constant(2);
    m.ptr(3);
    m.constant(4);
    m.structure(8, false, &[[1, 1, 0]]);
    assert_eq!(judged(&m), Ok(4));
}

#[test]
fn pointers_before_a_ring_by_value() {
    // A pointer's walk ends at a struct, so the struct is named.
    let mut m = named();
    m.ptr(2);
    m.structure(8, false, &[[1, 2, 0]]);
    assert_eq!(judged(&m), refused(14, 2, 36));
    // The CONST between them goes into the struct by value.
    let mut m = named();
    m.ptr(2);
    m.constant(3);
    m.structure(8, false, &[[1, 3, 0]]);
    assert_eq!(judged(&m), refused(14, 2, 36));
    // A ring of a CONST is one of both sorts.
    let mut m = named();
    m.ptr(2);
    m.constant(2);
    assert_eq!(judged(&m), refused(14, 1, 24));
}

#[test]
fn the_smaller_of_two_rings_is_named() {
    let mut m = named();
    m.int(4);
    m.structure(8, false, &[[1, 2, 0]]);
    m.ptr(3);
    assert_eq!(judged(&m), refused(14, 2, 40));
    let mut m = named();
    m.int(4);
    m.ptr(2);
    m.structure(8, false, &[[1, 3, 0]]);
    assert_eq!(judged(&m), refused(14, 2, 40));
}

/// 13 comes before it, 15 after.
#[test]
fn the_phase_of_report_14_stays() {
    let mut m = named();
    m.ptr(1);
    m.ptr(4);
    assert_eq!(judged(&m), refused(13, 2, 36));
    let mut m = named();
    m.structure(7, false, &[[1, 2, 0]]);
    m.ptr(2);
    assert_eq!(judged(&m), refused(14, 2, 48));
    m.at(2).third = 0;
    assert_eq!(judged(&m), refused(15, 1, 24));
}

/// What the fixed tables claim of themselves. There are twelve leads, four
/// tables of each, and five that go through another type.
#[test]
fn fixed_tables() {
    for m in rings().iter().chain(&both_sorts()) {
        assert_eq!(judged(m), refused(14, 2, 40));
    }
    assert_eq!(rings().len(), 6 * 6 * 2 * 3);
    let places = [24, 24, 24, 24, 24, 24, 48, 48, 48, 40, 36, 44];
    for (m, at) in leads().iter().zip(0..) {
        let named = if at < 24 { 1 } else { 2 };
        assert_eq!(judged(m), refused(14, named, places[at / 4]));
    }
    let places = [60, 60, 60, 48, 56];
    for (m, at) in leads_through().iter().zip(0..) {
        assert_eq!(judged(m), refused(14, 3, places[at % 5]));
    }
    for m in ended_chains().iter().chain(&recursions()) {
        assert_eq!(judged(m), Ok(m.count()));
    }
}

#[test]
fn fixed_joins() {
    let found = edges::cases_of("chain-joins", false);
    assert!(found.iter().all(|case| case.op == JOIN));
    let seen: Vec<_> = found.iter().map(run).collect();
    let refused_with = |number: u32| {
        seen.iter()
            .filter(|seen| (seen.number, seen.inner, seen.t, seen.p) == (number, 14, 2, 40))
            .count()
    };
    let joined = seen.iter().filter(|seen| seen.number == 0).count();
    assert_eq!([joined, refused_with(16), refused_with(17)], [16, 6, 4]);
    assert_eq!(seen.len(), 26);
}
