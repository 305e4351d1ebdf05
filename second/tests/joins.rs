//! The fixed joins and the long generated ones have what the paper speaks of.

mod common;

use common::*;
use second::generate::edges_joins::{grouped, refused as table_with, second_tables, SMALL_REPORTS};
use second::generate::random::Random;
use second::generate::{edges, edges_joins, large_joins, long};
use second::order::Order;
use second::vectors::{run, Case, JOIN};
use second::Report;

fn small() -> Vec<Case> {
    let all = edges::cases(true);
    all.into_iter().filter(|case| case.op == JOIN).collect()
}

fn report_of(blob: &[u8], places: u32, work: u32) -> Result<u32, Report> {
    let mut index = vec![0; places as usize];
    let mut work = vec![0; work as usize];
    second::check(blob, &mut index, &mut work)
}

/// The grounds that are due, each by itself, in the paper's order. A refused
/// table has an order too, by its first two bytes.
fn due(case: &Case) -> Vec<u32> {
    let [a, b] =
        [&case.a, &case.b].map(|blob| report_of(blob, case.index_places, case.work_places));
    let orders_differ = Order::of(&case.a) != Order::of(&case.b);
    let mut found = Vec::new();
    match (a, b) {
        (Ok(first), Ok(second)) => {
            found.extend(orders_differ.then_some(24));
            let bytes = case.a.len() + case.b.len() - 25;
            found.extend((first + second > 16_384).then_some(18));
            found.extend((bytes > 262_144).then_some(19));
            found.extend(((case.output_bytes as usize) < bytes).then_some(20));
        }
        (a, b) => {
            found.extend(a.is_err().then_some(16));
            found.extend(b.is_err().then_some(17));
            found.extend(orders_differ.then_some(24));
        }
    }
    found
}

#[test]
fn first_ground_speaks() {
    let mut met = Vec::new();
    for case in small().into_iter().chain(large_joins::cases(false)) {
        let due = due(&case);
        let seen = run(&case);
        assert_eq!(seen.number, due.first().copied().unwrap_or(0));
        let untouched = seen.output.iter().all(|byte| *byte == 165);
        assert!(due.is_empty() || untouched);
        assert!(seen.index.iter().chain(&seen.work).all(|place| *place == 0));
        met.push(due);
    }
    for due in [
        vec![],
        vec![16],
        vec![17],
        vec![18],
        vec![19],
        vec![20],
        vec![16, 17],
        vec![18, 19],
        vec![18, 20],
        vec![19, 20],
        vec![18, 19, 20],
        vec![24],
        vec![16, 24],
        vec![17, 24],
        vec![16, 17, 24],
        vec![24, 18],
        vec![24, 19],
        vec![24, 20],
        vec![24, 18, 19, 20],
    ] {
        assert!(met.contains(&due), "{due:?}");
    }
}

#[test]
fn every_report_inside_16_and_17() {
    for report in SMALL_REPORTS {
        let (names, place) = if report < 6 { (0, 0) } else { (3, 64) };
        assert_eq!(gate(&table_with(report)), refused(report, names, place));
    }
    assert_eq!(gate(&table_with(0)), Ok(3));
    let all: Vec<(u32, u32)> = small()
        .iter()
        .map(run)
        .map(|s| (s.number, s.inner))
        .collect();
    let large: Vec<(u32, u32)> = large_joins::cases(false)
        .iter()
        .map(run)
        .map(|seen| (seen.number, seen.inner))
        .collect();
    for number in [16, 17] {
        for inner in 1..=15 {
            let among = if inner == 8 { &large } else { &all };
            assert!(among.contains(&(number, inner)), "{number} {inner}");
        }
    }
}

/// A short file has every ground and the limits too.
#[test]
fn thinned_limits() {
    let seen: Vec<_> = large_joins::cases(true).iter().map(run).collect();
    let numbers: Vec<u32> = seen.iter().map(|seen| seen.number).collect();
    assert_eq!(numbers, [16, 17, 0, 18, 0, 20, 19, 0, 18, 19, 24]);
    assert_eq!([seen[0].inner, seen[1].inner], [8, 8]);
    assert_eq!([seen[4].p, seen[7].p], [262_144; 2]);
}

/// 16,384 types and 262,144 bytes are joined, one more of either is refused.
#[test]
fn limits_are_met_exactly() {
    let mut met = Vec::new();
    for case in large_joins::cases(false) {
        assert!(case.a.len() <= 280_000 && case.b.len() <= 280_000);
        assert!(case.index_places <= 20_000 && case.output_bytes <= 280_000);
        let [a, b] = [&case.a, &case.b].map(|blob| report_of(blob, 20_000, 20_000));
        if Order::of(&case.a) != Order::of(&case.b) {
            continue;
        }
        if let (Ok(first), Ok(second)) = (a, b) {
            let bytes = case.a.len() + case.b.len() - 25;
            let is_room = case.output_bytes as usize >= bytes;
            met.push((first + second, bytes, is_room, run(&case).number));
        }
    }
    let is_met = |test: &dyn Fn(u32, usize, u32) -> bool| {
        met.iter()
            .any(|(types, bytes, is_room, number)| *is_room && test(*types, *bytes, *number))
    };
    assert!(is_met(&|types, _, number| types == 16_384 && number == 0));
    assert!(is_met(&|types, bytes, number| types == 16_385
        && bytes <= 262_144
        && number == 18));
    assert!(is_met(&|_, bytes, number| bytes == 262_144 && number == 0));
    assert!(is_met(&|types, bytes, number| types <= 16_384
        && bytes == 262_145
        && number == 19));
    assert!(is_met(&|types, bytes, number| types == 16_384
        && bytes == 262_144
        && number == 0));
}

#[test]
fn groupings_give_the_same_bytes() {
    let small = edges_joins::triples().into_iter();
    for [a, b, c] in small.chain(large_joins::triples()) {
        let seen: Vec<_> = grouped(&a, &b, &c, 16_385).iter().map(run).collect();
        assert!(seen.iter().all(|seen| seen.number == 0));
        assert_eq!(seen[2].output, seen[3].output);
        let count = [&a, &b, &c].map(|blob| gate(blob).expect("accepted"));
        assert_eq!(gate(&seen[2].output), Ok(count.iter().sum()));
    }
}

#[test]
fn second_tables_are_accepted() {
    for m in second_tables() {
        assert_eq!(judged(&m), Ok(m.count()));
    }
}

/// Half of the long joins are joined at least, and most reports are inside.
#[test]
fn long_joins() {
    let mut r = Random::new(11);
    let mut met = Vec::new();
    for _ in 0..60 {
        let case = long::join(&mut r);
        assert!(case.a.len() <= 262_144 && case.b.len() <= 262_144);
        assert_eq!(run(&case).number, due(&case).first().copied().unwrap_or(0));
        met.push(run(&case).number);
    }
    assert!(met.iter().filter(|number| **number == 0).count() >= 30);
    for number in [16, 17, 18, 19, 20, 24] {
        assert!(met.contains(&number), "{number}");
    }
    for _ in 0..20 {
        let m = long::table(&mut r, 20_000);
        assert_eq!(judged(&m), Ok(m.count()));
    }
}
