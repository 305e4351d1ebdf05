//! The fixed cases of ops 9 to 11: the answers of each part, and of the large
//! pairs.

mod common;

use common::{wanted, where_names_lie};
use second::changed::changed;
use second::generate::{cases, edges, large_leaning, Wanted};
use second::order::Order;
use second::vectors::{file, run, Case, LEANING, LEANING_NAME, LEANING_SIZE};
use std::collections::{BTreeSet, HashSet};

fn numbers(found: &[Case]) -> BTreeSet<u32> {
    found.iter().map(|case| run(case).number).collect()
}

/// The part of this name among all.
fn part(all: &[(String, Case)], name: &str) -> Vec<Case> {
    let of_part = all.iter().filter(|(part, _)| part == name);
    of_part.map(|(_, case)| case.clone()).collect()
}

/// The parts that are tried by themselves: their answers. A case that an
/// earlier part has is not there again.
#[test]
fn parts_of_the_check() {
    let all = edges::in_parts(false);
    for (name, expected) in [
        ("kinds", &[0][..]),
        ("headers", &[0, 1, 2, 3, 4, 5]),
        ("strings", &[0, 5]),
        ("heads", &[0, 6, 7, 10, 11, 12, 13, 14, 15]),
        ("cut", &[0, 6, 7]),
        ("slices", &[0, 9, 25]),
        ("faults", &[6, 7, 9, 10, 11, 12, 13, 14, 15, 25]),
        ("base-slices", &[1, 9, 25, 26]),
        ("openings", &[2, 3, 26]),
        ("marks", &[0, 11, 12]),
        ("references", &[0, 12, 13, 14, 15]),
        ("walks", &[0, 13, 14]),
        ("members", &[0, 15]),
        ("layout", &[0, 13, 15]),
    ] {
        let found = part(&all, &format!("leaning-{name}"));
        assert!(found.iter().all(|case| case.op == LEANING));
        let expected = expected.iter().copied().collect();
        assert_eq!(numbers(&found), expected, "{name}");
    }
}

/// Every report of a base, in both orders, and 26 before every one of the
/// module's own.
#[test]
fn parts_of_bases_and_orders() {
    let all = edges::in_parts(true);
    let found = part(&all, "leaning-bases");
    for order in [Order::Little, Order::Big] {
        let inside: BTreeSet<u32> = found
            .iter()
            .filter(|case| Order::of(&case.a) == order)
            .map(|case| run(case).inner)
            .collect();
        let expected = [0, 1, 2, 3, 4, 5, 6, 7, 10, 11, 12, 13, 14, 15];
        assert_eq!(inside, expected.into_iter().collect(), "{order:?}");
    }
    let found = part(&all, "leaning-orders");
    let other = |case: &Case| {
        let order = Order::of(&case.a);
        case.b.starts_with(&order.other().magic())
    };
    for case in &found {
        assert_eq!(run(case).number == 26, other(case));
    }
    let own: Vec<Case> = found.into_iter().filter(|case| !other(case)).collect();
    let expected = [0, 1, 2, 3, 4, 5, 6, 7, 10, 11, 12, 13, 14, 15];
    assert!(numbers(&own).is_subset(&expected.into_iter().collect()));
    assert!(own.len() > 60, "{}", own.len());
}

#[test]
fn parts_of_the_questions() {
    let all = edges::in_parts(false);
    for (name, expected) in [
        ("counts", &[0, 1, 21, 22][..]),
        ("index-lengths", &[0, 1, 21, 22]),
        ("places", &[0, 21, 22]),
        ("size-orders", &[0, 1, 21]),
        ("products", &[0, 1, 2]),
    ] {
        let found = part(&all, &format!("leaning-{name}"));
        assert!(found.iter().all(|case| case.op == LEANING_SIZE));
        let expected = expected.iter().copied().collect();
        assert_eq!(numbers(&found), expected, "{name}");
    }
    for (name, least) in [("offsets", 70), ("nameless", 20), ("name-orders", 4)] {
        let counts = where_names_lie(&part(&all, &format!("leaning-{name}")));
        assert!(
            counts.iter().all(|count| *count >= least),
            "{name}: {counts:?}"
        );
    }
}

/// By hand: what the limits say of the fixed large pairs.
#[test]
fn fixed_large_pairs() {
    let few = large_leaning::cases(true);
    let answers: Vec<(u32, u32, u32)> = few
        .iter()
        .map(run)
        .map(|seen| (seen.number, seen.t, seen.p))
        .collect();
    let expected = [(0, 16_384, 0), (8, 16_385, 24), (0, 1, 0), (1, 0, 0)];
    assert_eq!(answers, expected);
    let all = large_leaning::cases(false);
    assert_eq!(all[..few.len()], few);
    let further: Vec<(u32, u32, u32)> = all[few.len()..16]
        .iter()
        .map(run)
        .map(|seen| (seen.number, seen.t, seen.p))
        .collect();
    let expected = [
        (0, 16_384, 0),
        (8, 16_385, 196_632),
        (0, 16_384, 0),
        (8, 16_385, 196_620),
        (0, 16_384, 0),
        (8, 16_385, 100_632),
        (0, 0, 0),
        (1, 0, 0),
        (0, 16_000, 0),
        (14, 8_001, 24),
        (14, 8_001, 24),
        (0, 16_001, 0),
    ];
    assert_eq!(further, expected);
}

#[test]
fn thinned_pairs_are_edges_and_short() {
    let fixed = |thin| {
        cases(&Wanted {
            edges: true,
            thin,
            ops: vec![LEANING, LEANING_SIZE, LEANING_NAME],
            ..wanted(LEANING, 0, 0)
        })
    };
    let (few, all) = (fixed(true), fixed(false));
    assert!(file(&few).len() < 2_500_000);
    let all: HashSet<_> = all.iter().collect();
    assert!(few.len() < all.len());
    assert!(few.iter().all(|case| all.contains(case)));
}

#[test]
fn a_changed_pair_is_told() {
    let case = edges::cases_of("leaning-kinds", true)[0].clone();
    let old = file(&[case]);
    assert_eq!(changed(&old).unwrap(), "0 of 1 answers changed\n");
    let mut other = old.clone();
    let at = old.len() - 28;
    other[at] = 25;
    other[at + 4] = 9;
    let line = "op 9 leaning check: 25 report with 9 inside -> op 9 leaning check:  0 accepted\n";
    assert!(changed(&other).unwrap().contains(line));
}
