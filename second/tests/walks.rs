//! Wordings of paper 01 that are easy to miss: walks and large sums.

mod common;

use common::*;
use second::make::{field, Make};
use second::table::Kind;

#[test]
fn sums_past_32_bits() {
    let member = |offset: u32, bytes: u32, of: fn(&mut Make) -> u32| {
        let mut m = Make::new();
        let name = m.string("m");
        let of = of(&mut m);
        m.structure(bytes, false, &[[name, of, offset]]);
        judged(&m)
    };
    // 8 bits from 2^32 - 8 end at 2^32, which is 8 times 2^29.
    assert_eq!(member(0xFFFF_FFF8, 1 << 29, |m| m.int(1)), Ok(2));
    assert_eq!(
        member(0xFFFF_FFF8, (1 << 29) - 1, |m| m.int(1)),
        refused(15, 2, 40)
    );
    assert_eq!(
        member(0xFFFF_FFF8, 1 << 29, |m| m.int(2)),
        refused(15, 2, 40)
    );
    // 8 times 2^29 bytes would be 0 in 32 bits.
    assert_eq!(
        member(0, 1, |m| m.structure(1 << 29, false, &[])),
        refused(15, 2, 36)
    );
    assert_eq!(
        member(0, u32::MAX, |m| m.structure(u32::MAX, false, &[])),
        Ok(2)
    );
}

#[test]
fn section_entry_past_32_bits() {
    let mut m = Make::new();
    let name = m.string("v");
    m.int(4);
    m.var(name, 1);
    m.section(name, 4, &[[2, 0xFFFF_FFFC, 4]]);
    assert_eq!(judged(&m), refused(15, 3, 56));
}

#[test]
fn plain_kinds_without_size() {
    for sizeless in [Kind::Fwd, Kind::FuncProto] {
        let mut m = Make::new();
        let name = m.string("n");
        let own = if sizeless == Kind::Fwd { name } else { 0 };
        m.bare(sizeless, own, 0, &[]);
        m.structure(8, false, &[[name, 1, 0]]);
        assert_eq!(judged(&m), refused(15, 2, 36));
    }
}

#[test]
fn steps_of_a_by_value_walk() {
    // VAR is a step: it leads to the ring and has the smallest number.
    let mut m = Make::new();
    let name = m.string("n");
    m.var(name, 2);
    m.constant(2);
    assert_eq!(judged(&m), refused(14, 1, 24));
    // DATASEC, FUNC and DECL_TAG have none.
    let mut m = Make::new();
    let name = m.string("n");
    m.section(name, 0, &[[2, 0, 0]]);
    m.var(name, 3);
    m.typedef(name, 3);
    assert_eq!(judged(&m), refused(14, 2, 48));
    let mut m = Make::new();
    let name = m.string("n");
    m.tag(name, 2, u32::MAX);
    m.typedef(name, 2);
    assert_eq!(judged(&m), refused(14, 2, 40));
    // No elements are a reference all the same.
    let mut m = Make::new();
    m.int(4);
    m.array(2, 1, 0);
    assert_eq!(judged(&m), refused(14, 2, 40));
}

#[test]
fn empty_member_at_the_end() {
    for (offset, wanted) in [(32, Ok(3)), (40, refused(15, 3, 64))] {
        let mut m = Make::new();
        let name = m.string("e");
        m.int(4);
        m.array(1, 1, 0);
        m.structure(4, false, &[[name, 1, 0], [name, 2, offset]]);
        assert_eq!(judged(&m), wanted);
    }
}

#[test]
fn offset_of_a_field_is_24_bits() {
    let mut m = Make::new();
    let name = m.string("f");
    m.int(4);
    m.structure(4, true, &[[name, 1, field(9, 0)], [name, 1, field(1, 9)]]);
    assert_eq!(judged(&m), Ok(2));
}
