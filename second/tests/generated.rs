//! Generated cases keep what holds for all of them.

mod common;

use common::*;
use second::chain::{report_14, report_14_by_the_letter, SORTS};
use second::check::judge;
use second::generate::edges::one_of;
use second::generate::pieces::table_of;
use second::generate::random::Random;
use second::generate::{cases, damage_references, valid, Scale, Wanted};
use second::table::{Kind, Record, Table, ALL_KINDS};
use second::vectors::{file, run, sum, CHECK, JOIN};
use std::collections::HashSet;

fn wanted(seed: u64, cases: usize) -> Wanted {
    Wanted {
        seed,
        cases,
        ..Wanted::default()
    }
}

type Step = fn(&Record) -> Vec<u32>;

/// Does some walk of a sort from a type come back to a type it has been at?
fn reaches_ring(table: &Table, step: Step, at: u32, path: &mut Vec<u32>) -> bool {
    if path.contains(&at) {
        return true;
    }
    path.push(at);
    let ends = step(&table.records[at as usize - 1]);
    let found = ends
        .into_iter()
        .any(|end| reaches_ring(table, step, end, path));
    path.pop();
    found
}

#[test]
fn report_14_is_what_the_paper_says() {
    let mut r = Random::new(14);
    let mut rings = [0; 2];
    for _ in 0..2_000 {
        let mut m = valid::table(&mut r, Scale::Small);
        damage_references::ring(&mut r, &mut m);
        let Some(table) = table_of(&m) else { continue };
        let found = report_14(&table);
        assert_eq!(found, report_14_by_the_letter(&table));
        let smallest = SORTS.map(|step| {
            (1..=table.count()).find(|at| reaches_ring(&table, step, *at, &mut Vec::new()))
        });
        assert_eq!(found, smallest.into_iter().flatten().min());
        // Which sort decides, where the other does not name the same type.
        for (sort, other) in [(0, 1), (1, 0)] {
            rings[sort] += u32::from(found == smallest[sort] && found != smallest[other]);
        }
    }
    assert!(rings[0] > 400 && rings[1] > 400, "{rings:?}");
}

#[test]
fn valid_tables_are_accepted_and_have_every_kind() {
    let mut r = Random::new(3);
    let mut kinds = Vec::new();
    for _ in 0..500 {
        let m = valid::table(&mut r, Scale::Small);
        let table = judge(&m.blob(), 100, 100).expect("accepted");
        kinds.extend(
            table
                .records
                .iter()
                .map(|record| (record.kind, record.kind_flag())),
        );
    }
    for kind in ALL_KINDS {
        assert!(kinds.contains(&(kind, false)), "{kind:?}");
    }
    for kind in [
        Kind::Struct,
        Kind::Union,
        Kind::Enum,
        Kind::Fwd,
        Kind::DeclTag,
        Kind::TypeTag,
    ] {
        assert!(kinds.contains(&(kind, true)), "{kind:?}");
    }
}

#[test]
fn joins_are_accepted_grouped_and_counted() {
    let mut r = Random::new(5);
    for _ in 0..300 {
        let [a, b, c] = [0; 3].map(|_| valid::table(&mut r, Scale::Small));
        let [x, y, z] = [&a, &b, &c].map(|m| m.blob());
        let left = joined(&joined(&x, &y), &z);
        assert_eq!(left, joined(&x, &joined(&y, &z)));
        assert_eq!(gate(&left), Ok(a.count() + b.count() + c.count()));
    }
}

#[test]
fn same_seed_same_file() {
    let file_of = |seed| file(&cases(&wanted(seed, 60)));
    assert_eq!(file_of(7), file_of(7));
    assert_ne!(file_of(7), file_of(8));
}

#[test]
fn every_answer_occurs() {
    let all = cases(&wanted(1, 3_000));
    let numbers: Vec<(u32, u32)> = all.iter().map(|case| (case.op, run(case).number)).collect();
    let mut asked: Vec<(u32, u32)> = (0..=15).map(|number| (1, number)).collect();
    asked.extend([0, 1, 2, 21, 22].map(|number| (2, number)));
    asked.extend([(3, 0), (3, 1), (4, 0)]);
    asked.extend([16, 17, 18, 19, 20, 24].map(|number| (4, number)));
    for pair in asked {
        let count = numbers.iter().filter(|seen| **seen == pair).count();
        assert!(count >= 10, "{pair:?}: {count}");
    }
    for case in &all {
        assert!(case.a.len() <= 280_000 && case.b.len() <= 280_000);
        assert!(case.index_places <= 20_000 && case.work_places <= 20_000);
        assert!(case.output_bytes <= 280_000);
    }
}

#[test]
fn only_and_small() {
    let small = Wanted {
        scale: Scale::Small,
        only: Some(13),
        ops: vec![CHECK],
        ..wanted(2, 50)
    };
    let all = cases(&small);
    assert_eq!(all.len(), 50);
    assert!(all
        .iter()
        .all(|case| run(case).number == 13 && case.a.len() < 2_000));
}

#[test]
fn edges_start_from_accepted_tables() {
    for kind in ALL_KINDS {
        assert_eq!(judged(&one_of(kind)), Ok(5), "{kind:?}");
    }
    let edges = Wanted {
        edges: true,
        ..wanted(0, 0)
    };
    let all = cases(&edges);
    assert!(all.iter().all(|case| case.a.len() < 2_000));
    let joins = all.iter().filter(|case| case.op == JOIN);
    assert!(joins.filter(|case| run(case).number == 0).count() > 361);
}

#[test]
fn thinned_edges_are_edges_and_have_every_report_but_8() {
    let mut edges = Wanted {
        edges: true,
        ops: vec![CHECK],
        ..wanted(0, 0)
    };
    let all = cases(&edges);
    edges.thin = true;
    let few = cases(&edges);
    assert!(few.len() < all.len());
    let all: HashSet<_> = all.iter().collect();
    assert!(few.iter().all(|case| all.contains(case)));
    for number in (0..=15).filter(|number| *number != 8) {
        assert!(
            few.iter().any(|case| run(case).number == number),
            "{number}"
        );
    }
}

/// By hand: 53 bytes begin an identifier, 63 go on, and a zero byte behind the
/// first leaves an identifier of the bytes before it, if those are at most 127.
/// Each is there in both orders.
#[test]
fn every_byte_at_every_place_of_a_name() {
    let names = Wanted {
        names: true,
        ..wanted(0, 0)
    };
    let all = cases(&names);
    assert_eq!(all.len(), 2 * 256 * (1 + 2 + 3 + 126 + 127 + 128 + 129));
    let with = |number: u32| all.iter().filter(|case| run(case).number == number).count();
    let accepted = 2 * (5 * 53 + 64 * (1 + 2 + 125 + 126) + 127 + 127);
    assert_eq!((with(0), with(11)), (accepted, all.len() - accepted));
}

#[test]
fn sums() {
    assert_eq!(sum(&[]), 1);
    assert_eq!(sum(&[0]), 257);
    assert_eq!(sum(&[1, 2]), 258 * 257 + 2);
    assert_eq!(sum(&[255; 4]), {
        let step = |sum: u64| (sum * 257 + 255) % 4_294_967_291;
        step(step(step(step(1)))) as u32
    });
}
