//! A module's types and its base's, order 7, by hand: what leads from one to the
//! other.

mod common;

use common::{on, refused_by, t, without_strings};
use second::make::Make;
use second::table::Kind;
use second::{join, JoinRefusal, Report};

/// A type of each sort in the base: INT 1, PTR 2, prototype 3, VAR 4, struct 5,
/// FWD 6, and a CONST of it, 7.
fn base_of_sorts() -> Make {
    let mut b = Make::new();
    let name = b.string("n");
    b.int(4);
    b.ptr(5);
    b.proto(0, &[[name, 1]]);
    b.var(name, 1);
    b.structure(16, false, &[[name, 1, 0], [name, 2, 64]]);
    b.bare(Kind::Fwd, name, 0, &[]);
    b.constant(6);
    b
}

#[test]
fn types_of_the_base_are_judged_where_they_are_used() {
    let judged = |build: fn(&mut Make) -> u32| {
        let mut m = without_strings();
        build(&mut m);
        on(&base_of_sorts(), &m)
    };
    let named = |number| refused_by(number, 8, 24);
    assert_eq!(judged(|m| m.func(1, 3)), Ok(8));
    assert_eq!(judged(|m| m.func(1, 5)), named(13));
    assert_eq!(judged(|m| m.section(1, 4, &[[4, 0, 4]])), Ok(8));
    assert_eq!(judged(|m| m.section(1, 4, &[[1, 0, 4]])), named(13));
    assert_eq!(judged(|m| m.section(1, 4, &[[4, 0, 3]])), named(15));
    assert_eq!(judged(|m| m.tag(1, 5, 1)), Ok(8));
    assert_eq!(judged(|m| m.tag(1, 5, 2)), named(15));
    assert_eq!(judged(|m| m.array(5, 1, 3)), Ok(8));
    assert_eq!(judged(|m| m.array(5, 2, 3)), named(13));
    assert_eq!(judged(|m| m.array(7, 1, 0)), named(15));
    assert_eq!(judged(|m| m.var(1, 7)), named(15));
    // A member that ends by the struct's size, and a field of the base's INT.
    let holder = |bytes, flag, of, word| {
        let mut m = without_strings();
        m.structure(bytes, flag, &[[1, of, word]]);
        on(&base_of_sorts(), &m)
    };
    assert_eq!(holder(20, false, 5, 32), Ok(8));
    assert_eq!(holder(19, false, 5, 32), named(15));
    assert_eq!(holder(4, true, 1, 3 << 24), Ok(8));
    assert_eq!(holder(8, true, 2, 3 << 24), named(15));
}

/// A ring is of the module's types alone: no type of the base leads to them.
#[test]
fn walks_over_both() {
    let mut m = without_strings();
    m.constant(9);
    m.constant(5);
    assert_eq!(on(&base_of_sorts(), &m), Ok(9));
    m.at(2).third = 8;
    assert_eq!(on(&base_of_sorts(), &m), refused_by(14, 8, 24));
    m.at(2).third = 9;
    m.at(1).third = 5;
    assert_eq!(on(&base_of_sorts(), &m), refused_by(14, 9, 36));
    // A step through a pointer of the base ends there for the first sort.
    m.at(2).third = 2;
    assert_eq!(on(&base_of_sorts(), &m), Ok(9));
}

/// A leaning table given to join alone is judged as any blob.
#[test]
fn a_join_knows_no_base() {
    let inside = |m: &Make| {
        let mut output = [0; 200];
        let base = t().blob();
        join(&base, &m.blob(), &mut [9; 9], &mut [9; 9], &mut output)
    };
    let second = |number, type_number, place| {
        Err(JoinRefusal::Second(Report::new(number, type_number, place)))
    };
    let mut m = without_strings();
    m.ptr(1);
    assert_eq!(on(&t(), &m), Ok(2));
    assert_eq!(inside(&m), second(5, 0, 0));
    m.strings = vec![0];
    assert_eq!(inside(&m), second(14, 1, 24));
    m.at(1).third = 2;
    assert_eq!(on(&t(), &m), refused_by(14, 2, 24));
    assert_eq!(inside(&m), second(13, 1, 24));
}
