//! What the paper says of the fixed large tables.

mod common;

use common::*;
use second::generate::heavy::{all, NESTED};
use second::generate::large::pointers;
use second::generate::large_fixed::*;
use second::generate::long;
use second::generate::random::Random;
use second::vectors::{run, CHECK, SIZE};
use second::SizeAnswer;

#[test]
fn type_limit() {
    assert_eq!(judged(&pointers(16_384)), Ok(16_384));
    assert_eq!(judged(&pointers(16_385)), refused(8, 16_385, 196_632));
}

#[test]
fn byte_limit() {
    assert_eq!(of_bytes(262_144).len(), 262_144);
    assert_eq!(gate(&of_bytes(262_144)), Ok(1));
    assert_eq!(gate(&of_bytes(262_145)), refused(1, 0, 0));
    assert_eq!(at_both_limits().len(), 262_144);
    assert_eq!(gate(&at_both_limits()), Ok(16_384));
    assert_eq!(full().len(), 262_144);
    assert_eq!(gate(&full()), Ok(16_382));
}

#[test]
fn chains_of_typedefs() {
    assert_eq!(judged(&chain_up(16_000)), Ok(16_001));
    assert_eq!(size_in(&chain_up(16_000), 1), SizeAnswer::Exact(4));
    assert_eq!(judged(&chain_down(16_000)), Ok(16_001));
    assert_eq!(size_in(&chain_down(16_000), 16_001), SizeAnswer::Exact(4));
}

/// Members at bit 0 twice don't fall, and each span ends by the struct's size.
#[test]
fn nest_of_structs() {
    assert_eq!(judged(&nest(5_600)), Ok(5_601));
    assert_eq!(size_in(&nest(5_600), 1), SizeAnswer::Exact(4));
}

/// What a prototype returns is a step of neither sort, so type 1 does not lead
/// to the ring; type 2 is the smallest that does.
#[test]
fn ring_behind_a_chain() {
    assert_eq!(judged(&ring_behind(16_000)), refused(14, 2, 36));
    assert_eq!(ring_behind(16_000).count(), 16_002);
}

#[test]
fn chains_of_pointers() {
    assert_eq!(judged(&pointers_up(16_000)), Ok(16_001));
    assert_eq!(size_in(&pointers_up(16_000), 1), SizeAnswer::Exact(8));
    assert_eq!(judged(&pointers_down(16_000)), Ok(16_001));
    // Type 16,001 is a pointer again, as every fourth.
    assert_eq!(
        size_in(&pointers_down(16_000), 16_001),
        SizeAnswer::Exact(8)
    );
}

/// A ring of all types is named by the first. The struct, whose 24 bytes come
/// first, only holds a type that leads to a ring.
#[test]
fn rings_of_pointers() {
    assert_eq!(judged(&pointer_ring(16_384)), refused(14, 1, 24));
    assert_eq!(judged(&pointer_ring_behind(16_000)), refused(14, 2, 48));
}

#[test]
fn ring_in_a_nest() {
    assert_eq!(judged(&ring_in_nest(5_600)), refused(14, 1, 24));
}

/// The last entry ends at byte 80,000.
#[test]
fn section_of_many_entries() {
    assert_eq!(judged(&entries(20_000, 80_000)), Ok(3));
    assert_eq!(judged(&entries(20_000, 79_999)), refused(15, 3, 56));
    assert_eq!(judged(&entries(20_000, 0)), Ok(3));
}

/// A FUNC's prototype names every parameter, and a component is below their
/// count. The function is type 3, its tag type 4.
#[test]
fn prototype_of_many_parameters() {
    assert_eq!(judged(&parameters(32_000, 32_000, 31_999)), Ok(4));
    assert_eq!(
        judged(&parameters(32_000, 31_999, 31_999)),
        refused(15, 3, 256_052)
    );
    assert_eq!(
        judged(&parameters(32_000, 1, 31_999)),
        refused(15, 3, 256_052)
    );
    assert_eq!(
        judged(&parameters(32_000, 32_000, 32_000)),
        refused(15, 4, 256_064)
    );
}

#[test]
fn benches_that_no_proof_computes() {
    assert_eq!(judged(&held_by_constant()), refused(14, 1, 24));
    assert_eq!(judged(&arrays_of_arrays()), Ok(3));
    assert_eq!(size_in(&arrays_of_arrays(), 2), SizeAnswer::Exact(24));
    assert_eq!(size_in(&arrays_of_arrays(), 3), SizeAnswer::Exact(120));
    assert_eq!(judged(&products()), Ok(5));
    assert_eq!(size_in(&products(), 3), SizeAnswer::Exact(4_294_967_295));
    assert_eq!(size_in(&products(), 5), SizeAnswer::Overflow);
}

/// What a case may lend: 20,000 places and 280,000 bytes.
#[test]
fn cases_keep_the_limits_of_a_file() {
    let all = cases(false);
    assert!(all
        .iter()
        .all(|case| case.a.len() <= 280_000 && case.b.len() <= 280_000));
    let answers = |op, number| {
        all.iter()
            .filter(|case| case.op == op && run(case).number == number)
            .count()
    };
    // each in both orders
    assert_eq!(answers(CHECK, 0), 2 * 13);
    assert_eq!(answers(CHECK, 1), 2);
    assert_eq!(answers(CHECK, 8), 2);
    assert_eq!(answers(CHECK, 14), 2 * 5);
    assert_eq!(answers(CHECK, 15), 2 * 4);
    // no size: a prototype, its function and its tag
    assert_eq!(answers(SIZE, 1), 3);
}

/// Long checks reach both limits, and damage leads past them.
#[test]
fn long_checks() {
    let mut r = Random::new(12);
    let mut met = Vec::new();
    for _ in 0..200 {
        let case = long::check(&mut r);
        assert!(case.a.len() <= 280_000 && case.index_places <= 20_000);
        let seen = run(&case);
        met.push((case.a.len(), seen.number, seen.t));
    }
    let accepted = met.iter().filter(|(_, number, _)| *number == 0);
    assert!(accepted.count() >= 80);
    assert!(met
        .iter()
        .any(|(_, number, t)| (*number, *t) == (0, 16_384)));
    assert!(met
        .iter()
        .any(|(bytes, number, _)| (*bytes, *number) == (262_144, 0)));
    assert!(met.iter().any(|(_, number, _)| *number == 1));
    assert!(met.iter().any(|(_, number, _)| *number == 8));
}

/// The figures are of accepted tables, at full length, at a quarter, and as
/// halves of both that fit together.
#[test]
fn tables_of_the_figures() {
    for shape in all() {
        for bytes in [262_144, 131_084, 65_536, 32_780] {
            let blob = shape.blob(bytes);
            assert_eq!(blob.len(), bytes, "{}", shape.title);
            assert!(gate(&blob).is_ok(), "{}", shape.title);
        }
    }
    for shape in &NESTED {
        assert_eq!(gate(&shape.blob(262_144)), Ok(16_000));
        assert_eq!(gate(&shape.blob(65_536)), Ok(4_000));
    }
}
