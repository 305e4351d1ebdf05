//! Generated cases of ops 9 to 11 have every answer and many shapes, and their
//! place in a file.

mod common;

use common::{wanted, where_names_lie};
use second::check::judge;
use second::generate::{cases, cases_then, Behind, Scale, Wanted};
use second::lean::judge_leaning;
use second::order::Order;
use second::reference::references;
use second::table::Kind;
use second::vectors::{run, Case, LEANING, LEANING_NAME, LEANING_SIZE};
use std::collections::BTreeSet;

#[test]
fn every_answer_is_common() {
    let found = cases(&wanted(LEANING, 3, 6_000));
    assert_eq!(found.len(), 6_000);
    let count = |number: u32, inner: u32| {
        let fits = |case: &&Case| {
            let seen = run(case);
            (seen.number, seen.inner) == (number, inner)
        };
        found.iter().filter(fits).count()
    };
    assert!(count(0, 0) > 1_000);
    for number in (1..=15).filter(|number| *number != 8) {
        assert!(count(number, 0) > 100, "{number}");
        assert!(count(25, number) > 10, "{number} inside");
    }
    assert!(count(26, 0) > 300);
    let found = cases(&wanted(LEANING_SIZE, 3, 3_000));
    for number in [0, 1, 2, 21, 22] {
        let met = found.iter().filter(|case| run(case).number == number);
        assert!(met.count() > 150, "{number}");
    }
    let counts = where_names_lie(&cases(&wanted(LEANING_NAME, 3, 3_000)));
    assert!(counts.iter().all(|count| *count > 500), "{counts:?}");
}

/// Of each op as many in one order as in the other; sizes of two orders too.
#[test]
fn both_orders() {
    for op in [LEANING, LEANING_SIZE, LEANING_NAME] {
        let found = cases(&wanted(op, 4, 1_000));
        for order in [Order::Little, Order::Big] {
            let begun = |case: &&Case| case.a.starts_with(&order.magic());
            assert!(found.iter().filter(begun).count() > 350, "{op} {order:?}");
        }
    }
    let mixed = |case: &&Case| Order::of(&case.a) != Order::of(&case.b);
    let sizes = cases(&wanted(LEANING_SIZE, 4, 1_000));
    assert!(sizes.iter().filter(mixed).count() > 300);
}

/// An accepted pair is made in many shapes.
#[test]
fn accepted_pairs() {
    let found = cases(&Wanted {
        only: Some(0),
        ..wanted(LEANING, 5, 2_000)
    });
    let strings = |case: &Case| case.b[24 + second::make::word_at(&case.b, 12) as usize..].to_vec();
    let count = |fits: &dyn Fn(&[u8]) -> bool| {
        let met = found.iter().filter(|case| fits(&strings(case)));
        met.count()
    };
    assert!(count(&|strings| strings.is_empty()) > 100);
    assert!(count(&|strings| strings.first() == Some(&0)) > 100);
    assert!(count(&|strings| strings.first().is_some_and(|byte| *byte != 0)) > 100);
    let mut met = BTreeSet::new();
    for case in &found {
        let base = judge(&case.a, usize::MAX, usize::MAX).expect("accepted");
        let both = judge_leaning(&case.a, &case.b, usize::MAX, usize::MAX).expect("accepted");
        for record in &both.records[base.records.len()..] {
            let into_base = |to: u32| to != 0 && to <= base.count();
            let kinds = references(record).into_iter().map(|reference| reference.to);
            let kinds = kinds.filter(|to| into_base(*to)).map(|to| both.kind(to));
            met.extend(kinds.map(|kind| (record.kind as u32, kind.map(|kind| kind as u32))));
        }
    }
    // From each kind that refers, and to each that may be referred to.
    for (from, to) in [
        (Kind::Ptr, Kind::Struct),
        (Kind::Array, Kind::Int),
        (Kind::Struct, Kind::Enum),
        (Kind::Union, Kind::Ptr),
        (Kind::Typedef, Kind::Union),
        (Kind::Const, Kind::Typedef),
        (Kind::Func, Kind::FuncProto),
        (Kind::FuncProto, Kind::Fwd),
        (Kind::Var, Kind::Array),
        (Kind::Datasec, Kind::Var),
        (Kind::DeclTag, Kind::Struct),
        (Kind::DeclTag, Kind::Func),
        (Kind::TypeTag, Kind::Int),
    ] {
        let pair = (from as u32, Some(to as u32));
        assert!(met.contains(&pair), "{from:?} of {to:?}");
    }
}

#[test]
fn long_pairs() {
    let found = cases(&Wanted {
        scale: Scale::Long,
        ..wanted(LEANING, 6, 200)
    });
    let mut met = BTreeSet::new();
    for case in &found {
        assert!(case.a.len() <= 280_000 && case.b.len() <= 280_000);
        assert!(case.index_places <= 20_000 && case.work_places <= 20_000);
        let seen = run(case);
        let at_limit = case.a.len() + case.b.len() == 262_144;
        met.insert((seen.number, at_limit || seen.t == 16_384));
    }
    for expected in [
        (0, false),
        (0, true),
        (1, false),
        (8, false),
        (9, false),
        (26, false),
    ] {
        assert!(met.contains(&expected), "{expected:?}");
    }
}

/// Pairs behind others leave those as they are.
#[test]
fn pairs_behind_the_others() {
    let others = || Wanted {
        ops: vec![1, 2, 3, 4],
        edges: true,
        thin: true,
        ..wanted(1, 1, 50)
    };
    let front = cases_then(others(), &[Behind::members(3)]);
    let all = cases_then(others(), &[Behind::members(3), Behind::leaning(7)]);
    assert_eq!(all[..front.len()], front);
    let behind = &all[front.len()..];
    let ops: Vec<u32> = behind.iter().map(|case| case.op).collect();
    assert!(ops.is_sorted());
    for op in [LEANING, LEANING_SIZE, LEANING_NAME] {
        let fixed = cases(&Wanted {
            edges: true,
            thin: true,
            ..wanted(op, 0, 0)
        });
        let met = ops.iter().filter(|other| **other == op).count();
        assert_eq!(met, fixed.len() + 7);
    }
}
