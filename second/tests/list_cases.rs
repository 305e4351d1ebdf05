//! The cases of lists: they have every answer often, each table's list leads
//! back to it, and each list of an accepted table is the only one it has.

mod common;

use common::lists::list;
use common::*;
use second::generate::fields::{ask_table, fields_of, list_of, spans, turned_list, written};
use second::generate::list_cases::answer;
use second::generate::turn::{turned, turned_case};
use second::generate::{cases, edges, large_lists, long_lists, valid};
use second::generate::{random::Random, Behind, Scale, Wanted};
use second::vectors::{run, Case, Seen, LIST_READ, LIST_WRITTEN};
use second::vectors::{MOST_BYTES, MOST_PLACES};
use std::collections::HashSet;

fn fixed(op: u32, thin: bool) -> Vec<Case> {
    cases(&Wanted {
        edges: true,
        thin,
        ..wanted(op, 0, 0)
    })
}

/// A list read with enough of everything; the table if there is one.
fn table(list: &[u8]) -> Option<Vec<u8>> {
    let bytes = list.len() as u32 + 24;
    let seen = run(&ask_table(list.to_vec(), (bytes, bytes), [bytes, bytes]));
    (seen.number == 0).then(|| seen.output[..seen.p as usize].to_vec())
}

/// Accepted table to list to table gives the same bytes, in both orders.
#[test]
fn tables_come_back() {
    let mut r = Random::new(10);
    for _ in 0..1_500 {
        let m = valid::table(&mut r, Scale::Small);
        let there = list(&m.blob()).expect("a list");
        assert_eq!(there, list_of(&m));
        assert_eq!(written(&fields_of(&m)), there);
        assert_eq!(table(&there), Some(m.blob()));
        let other = list(&turned(&m.blob())).expect("a list");
        assert_eq!(other, turned_list(&there));
        assert_eq!(table(&other), Some(turned(&m.blob())));
    }
}

#[test]
fn example_tables_come_back() {
    for name in [
        "blade",
        "drum",
        "old_controller",
        "reading",
        "signed",
        "supplier_a",
        "supplier_b",
    ] {
        let path = format!("{}/../example/{name}.btf", env!("CARGO_MANIFEST_DIR"));
        let blob = std::fs::read(path).expect("a file of the repository");
        let count = gate(&blob).expect("accepted") as usize;
        let there = list(&blob).expect("a list");
        assert_eq!(there.len(), blob.len() - 24 + 3 * (count + 1));
        assert_eq!(table(&there), Some(blob));
    }
}

/// List to table to list gives the same bytes, wherever the table is accepted:
/// also where chance or damage made the list.
#[test]
fn lists_come_back() {
    let generated = cases(&wanted(LIST_READ, 21, 3_000));
    let mut found: Vec<Case> = generated
        .into_iter()
        .chain(fixed(LIST_READ, true))
        .collect();
    found.extend(large_lists::cases(true));
    let mut accepted = 0;
    for case in found.iter().filter(|case| case.op == LIST_READ) {
        let seen = run(case);
        let (output, byte_work) = seen.output.split_at(case.output_bytes as usize);
        assert!(byte_work.iter().all(|byte| *byte == 0));
        let made = if seen.number == 0 { seen.p as usize } else { 0 };
        assert!(output[made..].iter().all(|byte| *byte == 165));
        if seen.number == 0 {
            accepted += 1;
            assert_eq!(list(&output[..made]).as_ref(), Ok(&case.a));
        }
        // Filled after success alone, and as the check leaves it.
        let is_clear = seen.index.iter().all(|place| *place == 0);
        assert!(is_clear || seen.number == 0);
    }
    assert!(accepted > 500, "{accepted}");
}

/// What is written out is refused as the check refuses it, and leaves what the
/// check leaves.
#[test]
fn written_as_checked() {
    for case in cases(&wanted(LIST_WRITTEN, 22, 3_000)) {
        let seen = run(&case);
        let check = run(&Case {
            op: 1,
            output_bytes: 0,
            ..case.clone()
        });
        assert_eq!((&seen.index, &seen.work), (&check.index, &check.work));
        match check.number {
            0 => assert!([0, 53].contains(&seen.number)),
            number => assert_eq!(
                [seen.number, seen.inner, seen.t, seen.p],
                [54, number, check.t, check.p]
            ),
        }
    }
}

/// Every answer, the report inside by its own number, so often at least.
fn is_common(op: u32, scale: Scale, count: usize, answers: &[u32], share: usize) {
    let found = cases(&Wanted {
        scale,
        ..wanted(op, 3, count)
    });
    let met: Vec<u32> = found.iter().map(|case| answer(&run(case))).collect();
    for number in answers {
        let times = met.iter().filter(|other| *other == number).count();
        assert!(
            times * share > count,
            "op {op}, {scale:?}: {number}, {times}"
        );
    }
    for case in found {
        let bytes = MOST_BYTES as usize;
        assert!(case.a.len() <= bytes && case.b.len() <= bytes);
        assert!(case.output_bytes <= MOST_BYTES && case.index_places <= MOST_PLACES);
    }
}

#[test]
fn every_answer_is_common() {
    let lists = [0, 50, 51, 52, 53, 5, 9, 10, 11, 12, 13, 14, 15];
    let tables = [0, 53, 1, 2, 3, 4, 5, 6, 7, 9, 10, 11, 12, 13, 14, 15];
    for (scale, count) in [
        (Scale::Tiny, 1_500),
        (Scale::Small, 6_000),
        (Scale::Full, 1_200),
    ] {
        is_common(LIST_READ, scale, count, &lists, 60);
        is_common(LIST_WRITTEN, scale, count, &tables, 60);
    }
}

#[test]
fn long_answers_are_common() {
    let lists = [0, 50, 51, 52, 53, 1, 5, 8, 9];
    is_common(LIST_READ, Scale::Long, 150, &lists, 75);
    is_common(LIST_WRITTEN, Scale::Long, 150, &[0, 53, 1, 8, 9], 75);
}

/// Which lengths of long bodies are met, of strings and of records.
#[test]
fn long_bodies_around_full_fields() {
    let mut r = Random::new(4);
    let mut strings = HashSet::new();
    let mut carried = HashSet::new();
    for _ in 0..120 {
        let case = long_lists::read(&mut r);
        let spans = spans(&case.a);
        let is_front = |at: usize| at == 0 || spans[..=at].iter().skip(1).all(|one| one.0 == 127);
        let front = (0..spans.len()).filter(|at| is_front(*at));
        strings.insert(front.map(|at| spans[at].1.len()).sum::<usize>());
        let tails = spans.windows(2).filter(|two| two[1].0 == 127);
        carried.extend(tails.map(|two| (two[0].0, two[1].1.len())));
    }
    for length in [65_534, 65_535, 65_536, 131_069, 131_070, 131_071] {
        assert!(strings.contains(&length), "{length}");
    }
    for tag in [5, 6, 13, 19, 32, 127] {
        assert!(carried.iter().any(|one| one.0 == tag), "{tag}");
    }
    assert!(carried.contains(&(32, 0)) && carried.contains(&(127, 0)));
}

/// The fixed large ones: the answers, and that all of them stay in bounds.
#[test]
fn large_lists_at_the_limits() {
    let thin: Vec<_> = large_lists::cases(true).iter().map(run).collect();
    let told: Vec<[u32; 2]> = thin.iter().map(|seen| [seen.number, seen.p]).collect();
    // 65,535 bytes in a field, an empty one behind it, and both heads.
    assert_eq!(told[..4], [[0, 65_541], [53, 0], [0, 65_559], [51, 0]]);
    // An INT, 65,540 bytes of an ENUM, a pointer, three bytes of strings.
    assert_eq!(told[4..], [[0, 24 + 16 + 65_540 + 12 + 3]]);
    let all = large_lists::cases(false);
    let met: HashSet<(u32, u32)> = all
        .iter()
        .map(|case| (case.op, answer(&run(case))))
        .collect();
    for number in [0, 1, 8, 53] {
        assert!(met.contains(&(LIST_READ, number)), "{number}");
        assert!(met.contains(&(LIST_WRITTEN, number)), "{number}");
    }
    for number in [50, 51, 52] {
        assert!(met.contains(&(LIST_READ, number)), "{number}");
    }
    assert!(all.iter().all(|case| case.a.len() <= MOST_BYTES as usize));
}

/// The parts that are tried by themselves: their answers.
#[test]
fn parts_of_lists() {
    let all = edges::in_parts(true);
    let met = |name: &str| {
        let found = all.iter().filter(|(other, _)| other == name);
        let mut met: Vec<u32> = found.map(|(_, case)| run(case).number).collect();
        met.sort_unstable();
        met.dedup();
        met
    };
    for (part, numbers) in [
        ("list-tags", &[50, 51, 52, 54][..]),
        ("list-cut", &[0, 51]),
        ("list-places", &[0, 52]),
        ("list-kinds", &[0, 52]),
        ("list-heads", &[0, 52, 54]),
        ("list-faults", &[50, 51, 52]),
        ("list-outputs", &[0, 53, 54]),
        ("list-slices", &[0, 51, 53, 54]),
        ("list-reports", &[0, 50, 51, 52, 53, 54]),
        ("list-filled", &[0, 53, 54]),
        ("written-kinds", &[0]),
        ("written-outputs", &[0, 53, 54]),
        ("written-slices", &[0, 53, 54]),
        ("written-reports", &[0, 53, 54]),
    ] {
        assert_eq!(met(part), numbers, "{part}");
        // What reads the same in both orders stands in the first part alone.
        let turned = met(&format!("{part}-turned"));
        let is_met = |number: &u32| numbers.contains(number);
        assert!(!turned.is_empty() && turned.iter().all(is_met), "{part}");
    }
    for op in [LIST_READ, LIST_WRITTEN] {
        let thin: HashSet<Case> = fixed(op, true).into_iter().collect();
        assert!(thin.is_subset(&fixed(op, false).into_iter().collect()));
    }
}

/// Both orders are answered alike, but for what the bytes are. A damaged first
/// field has no order to turn.
#[test]
fn turned_lists_are_answered_alike() {
    let told = |seen: &Seen| [seen.number, seen.inner, seen.t, seen.p];
    for case in cases(&wanted(LIST_READ, 23, 2_000)) {
        let other = turned_case(&case);
        assert_eq!(turned_case(&other), case);
        if matches!(case.a.first(), Some(32 | 33)) {
            assert_eq!(told(&run(&case)), told(&run(&other)));
        }
    }
}

/// Those of ops 7 and 8 behind others leave those as they are.
#[test]
fn listed_behind_the_others() {
    stand_behind(Behind::apart, Behind::listed, [LIST_READ, LIST_WRITTEN]);
}

#[test]
fn a_changed_list_is_told() {
    for (part, line) in [
        (
            "list-tables",
            "op 7 list read: 52 report -> op 7 list read:  0 table",
        ),
        (
            "written-kinds",
            "op 8 list written: 52 report -> op 8 list written:  0 list",
        ),
    ] {
        changed_is_told(part, line);
    }
}
