//! The cases of .BTF.ext sections: they have every answer often, the two
//! questions tell the same of a section, and both orders are answered alike.

mod common;

use common::*;
use second::ext_parts::RECORD_SORTS;
use second::generate::ext_cases::answer;
use second::generate::ext_valid::{section, table, Targets};
use second::generate::turn::{turned_case, turned_ext};
use second::generate::{cases, edges, large_ext, random::Random};
use second::generate::{Behind, Scale, Wanted};
use second::make_ext::record_starts;
use second::vectors::{run, Case, Seen, EXT, EXT_RECORD, MOST_BYTES, MOST_PLACES};
use second::{check_ext, ext_record};
use std::collections::HashSet;

fn fixed(op: u32, thin: bool) -> Vec<Case> {
    cases(&Wanted {
        edges: true,
        thin,
        ..wanted(op, 0, 0)
    })
}

/// Sections made to be accepted are, in both orders, and every record of them
/// is handed out where it was put.
#[test]
fn whole_sections_are_accepted() {
    let mut r = Random::new(8);
    let mut records = [0; 3];
    for _ in 0..1_500 {
        let m = table(&mut r, Scale::Small);
        let e = section(&mut r, &Targets::of(&m), Scale::Small);
        let (mut index, mut work) = (vec![7; 40], vec![7; 40]);
        let answer = check_ext(&m.blob(), &e.blob(), &mut index, &mut work);
        assert_eq!(answer, Ok(()));
        let section = e.blob();
        let mut start = e.header().len() * 4 + 4;
        for (part, words) in (1..).zip(&e.parts) {
            let starts = record_starts(words);
            for (k, at) in (0..).zip(&starts) {
                let found = ext_record(&section, part, k).expect("a record");
                assert_eq!(found.place, start + 4 * at);
                let bytes = RECORD_SORTS[part as usize - 1].bytes();
                assert_eq!(found.bytes, &section[found.place..found.place + bytes]);
            }
            let count = starts.len() as u32;
            assert_eq!(ext_record(&section, part, count), None);
            records[part as usize - 1] += count;
            start += 4 * words.len();
        }
    }
    assert!(records.iter().all(|count| *count > 1_500), "{records:?}");
}

/// A section that could stand beside no table has no record; one that is
/// accepted has some, unless all its parts are empty or just a record size.
#[test]
fn both_questions_tell_the_same() {
    let mut found = cases(&wanted(EXT, 31, 4_000));
    found.extend(fixed(EXT, true));
    let mut told = [0; 2];
    for case in found {
        let number = run(&case).number;
        let any = (1..=3).any(|part| ext_record(&case.b, part, 0).is_some());
        match number {
            41 | 43..=46 => assert!(!any, "{number}"),
            0 => assert!(any || case.b.len() <= 32 + 3 * 4),
            _ => continue,
        }
        told[usize::from(any)] += 1;
    }
    assert!(told.iter().all(|count| *count > 500), "{told:?}");
}

/// The table is refused as the check refuses it, and the slices are left as the
/// check leaves them.
#[test]
fn slices_as_checked() {
    for case in cases(&wanted(EXT, 32, 3_000)) {
        let seen = run(&case);
        let check = run(&Case {
            op: 1,
            b: Vec::new(),
            ..case.clone()
        });
        assert_eq!((&seen.index, &seen.work), (&check.index, &check.work));
        let told = [seen.number, seen.inner, seen.t, seen.p];
        match check.number {
            0 => assert!(told[0] != 40 && told[1..] == [0, 0, 0]),
            number => assert_eq!(told, [40, number, check.t, check.p]),
        }
    }
}

/// Every answer so often at least, the report inside by its own number.
fn is_common(op: u32, scale: Scale, count: usize, answers: &[u32], share: usize) {
    let found = cases(&Wanted {
        scale,
        ..wanted(op, 3, count)
    });
    let met: Vec<u32> = found.iter().map(|case| answer(&run(case))).collect();
    for number in answers {
        let times = met.iter().filter(|other| *other == number).count();
        assert!(
            times * share > count,
            "op {op}, {scale:?}: {number}, {times}"
        );
    }
    for case in found {
        let bytes = MOST_BYTES as usize;
        assert!(case.a.len() <= bytes && case.b.len() <= bytes);
        assert!(case.index_places <= MOST_PLACES && case.work_places <= MOST_PLACES);
    }
}

#[test]
fn every_answer_is_common() {
    let sections = [0, 41, 42, 43, 44, 45, 46, 47, 48];
    let tables = [1, 2, 3, 4, 5, 6, 7, 9, 10, 11, 12, 13, 14, 15];
    for (scale, count) in [
        (Scale::Tiny, 2_000),
        (Scale::Small, 6_000),
        (Scale::Full, 2_000),
    ] {
        is_common(EXT, scale, count, &sections, 50);
        is_common(EXT, scale, count, &tables, 120);
        is_common(EXT_RECORD, scale, count, &[0, 1], 4);
    }
}

#[test]
fn long_answers_are_common() {
    let answers = [0, 41, 42, 43, 44, 45, 46, 47, 48, 1, 8, 9];
    is_common(EXT, Scale::Long, 200, &answers, 75);
    is_common(EXT_RECORD, Scale::Long, 100, &[0, 1], 5);
    let long = Wanted {
        scale: Scale::Long,
        ..wanted(EXT, 5, 60)
    };
    let found = cases(&long);
    let lengths = found.iter().map(|case| case.b.len());
    assert!(lengths.filter(|length| *length > 250_000).count() > 8);
}

/// The fixed large ones, by hand.
#[test]
fn large_sections_at_the_limit() {
    for part in 1..=3 {
        assert_eq!(large_ext::of_one_group(part).blob().len(), 262_144);
    }
    let thin: Vec<Seen> = large_ext::cases(true).iter().map(run).collect();
    let told: Vec<u32> = thin.iter().map(|seen| seen.number).collect();
    assert_eq!(told, [0, 48, 41, 0]);
    // 16,382 groups of sixteen bytes behind a header and a record size.
    assert_eq!([thin[3].t, thin[3].p], [1, 24 + 4 + 16 * 16_381 + 8]);
    let all = large_ext::cases(false);
    let met: HashSet<(u32, u32)> = all
        .iter()
        .map(|case| (case.op, answer(&run(case))))
        .collect();
    for number in [0, 1, 8, 41, 42, 44, 46, 47, 48] {
        assert!(met.contains(&(EXT, number)), "{number}");
    }
    assert!(met.contains(&(EXT_RECORD, 0)) && met.contains(&(EXT_RECORD, 1)));
    assert!(all.iter().all(|case| case.b.len() <= MOST_BYTES as usize));
}

/// The parts that are tried by themselves, and their answers.
const PARTS: [(&str, &[u32]); 25] = [
    ("ext-lengths", &[41, 43, 44]),
    ("ext-openings", &[41, 42]),
    ("ext-headers", &[0, 43, 44]),
    ("ext-words", &[44]),
    ("ext-sums", &[44, 46, 47]),
    ("ext-shapes", &[0]),
    ("ext-slices", &[0, 40, 41, 47]),
    ("ext-tables", &[0, 40, 41, 42, 48]),
    ("ext-sizes", &[0, 45, 46]),
    ("ext-counts", &[0, 45, 46, 47, 48]),
    ("ext-cut", &[0, 46]),
    ("ext-names", &[0, 47]),
    ("ext-types", &[0, 47, 48]),
    ("ext-kinds", &[0, 48]),
    ("ext-free", &[0]),
    ("ext-few", &[0, 47, 48]),
    ("ext-faults", &[42, 43, 44, 45, 46, 47, 48]),
    ("ext-record-each", &[0, 1]),
    ("ext-record-odd", &[1]),
    ("ext-record-longer", &[0, 1]),
    ("ext-record-opening", &[1]),
    ("ext-record-cut", &[1]),
    ("ext-record-header", &[1]),
    ("ext-record-broken", &[0, 1]),
    ("ext-record-free", &[0]),
];

/// The same in both orders.
#[test]
fn parts_of_sections() {
    let all = edges::in_parts(true);
    let met = |name: &str| {
        let found = all.iter().filter(|(other, _)| other == name);
        let mut met: Vec<u32> = found.map(|(_, case)| run(case).number).collect();
        met.sort_unstable();
        met.dedup();
        met
    };
    for (part, numbers) in PARTS {
        assert_eq!(met(part), numbers, "{part}");
        assert_eq!(met(&format!("{part}-turned")), numbers, "{part}");
    }
    for op in [EXT, EXT_RECORD] {
        let thin: HashSet<Case> = fixed(op, true).into_iter().collect();
        assert!(thin.is_subset(&fixed(op, false).into_iter().collect()));
    }
}

/// Both orders are answered alike, but for what the bytes are. A table without
/// an order's magic has no order to turn.
#[test]
fn turned_sections_are_answered_alike() {
    let told = |seen: &Seen| [seen.number, seen.inner, seen.t, seen.p];
    for op in [EXT, EXT_RECORD] {
        let found = cases(&wanted(op, 33, 3_000));
        for case in found.iter().filter(|case| run(case).number != 40) {
            let other = turned_case(case);
            assert_eq!(&turned_case(&other), case);
            assert_eq!(told(&run(case)), told(&run(&other)));
        }
    }
    let section = [0x9F, 0xEB, 1, 0, 24, 0, 0, 0, 5];
    let turned = [0xEB, 0x9F, 1, 0, 0, 0, 0, 24, 5];
    assert_eq!(turned_ext(&section), turned);
}

/// Those of ops 12 and 13 behind others leave those as they are.
#[test]
fn ext_behind_the_others() {
    stand_behind(Behind::listed, Behind::ext, [EXT, EXT_RECORD]);
}

#[test]
fn a_changed_section_is_told() {
    for (part, line) in [
        (
            "ext-shapes",
            "op 12 section: 52 report -> op 12 section:  0 accepted",
        ),
        (
            "ext-record-each",
            "op 13 section's record: 52 none there -> op 13 section's record:  0 record",
        ),
    ] {
        changed_is_told(part, line);
    }
}
