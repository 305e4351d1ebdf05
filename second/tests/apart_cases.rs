//! The cases of taking tables apart: they have every answer and every reason,
//! and a cut is good just where two accepted tables join to the whole.

mod common;

use common::*;
use second::changed::changed;
use second::check::judge;
use second::generate::{cases, cases_then, edges, large_apart, Behind, Scale, Wanted};
use second::join::{name_words, renumbered, words_of};
use second::reference::references;
use second::table::{blob_in, Record, Table};
use second::vectors::{file, run, Case, APART};
use second::{take_apart, Cut};
use std::collections::{BTreeMap, HashSet};

fn fixed(thin: bool) -> Vec<Case> {
    cases(&Wanted {
        edges: true,
        thin,
        ..wanted(APART, 0, 0)
    })
}

fn table(blob: &[u8]) -> Option<Table> {
    judge(blob, usize::MAX, usize::MAX).ok()
}

/// The only two tables that could be joined to this one with those numbers:
/// the first stands in it as it is, and so does the second, but for what a
/// join raises. They may be no tables at all.
fn candidates(whole: &Table, cut: Cut) -> Option<[Vec<u8>; 2]> {
    let (earlier, later) = whole.records.split_at_checked(cut.types as usize)?;
    let (before, behind) = whole.strings.split_at_checked(cut.strings as usize)?;
    let lower = |number: u32, by: u32| {
        if number == 0 {
            0
        } else {
            number.wrapping_sub(by)
        }
    };
    let strings = cut.strings.wrapping_sub(1);
    let first: Vec<u32> = earlier.iter().flat_map(words_of).collect();
    let second = later.iter().flat_map(|record| {
        renumbered(
            record,
            |to| lower(to, cut.types),
            |name| lower(name, strings),
        )
    });
    let second: Vec<u32> = second.collect();
    Some([
        blob_in(whole.order, &first, before),
        blob_in(whole.order, &second, &[&[0], behind].concat()),
    ])
}

/// Those two, if both are accepted and joined to just this blob.
fn joined_of(blob: &[u8], whole: &Table, cut: Cut) -> Option<[Vec<u8>; 2]> {
    let [a, b] = candidates(whole, cut)?;
    let places = whole.records.len() + 1;
    let (mut index, mut work) = (vec![0; places], vec![0; places]);
    second::check(&a, &mut index, &mut work).ok()?;
    second::check(&b, &mut index, &mut work).ok()?;
    let mut output = vec![165; blob.len() + 30];
    let length = second::join(&a, &b, &mut index, &mut work, &mut output).ok()?;
    (output[..length] == *blob).then_some([a, b])
}

/// 60 exactly when no two accepted tables with that first count and length join
/// to the blob; else those two, byte for byte.
fn every_cut_of(blob: &[u8], whole: &Table) -> usize {
    let (types, strings) = (whole.count(), whole.strings.len() as u32);
    let places = whole.records.len() + 1;
    let mut good = 0;
    for types in 0..=types + 1 {
        for strings in 0..=strings + 1 {
            let cut = Cut { types, strings };
            let (mut index, mut work) = (vec![0; places], vec![0; places]);
            let (mut first, mut second) = (vec![0; blob.len()], vec![0; blob.len()]);
            let answer = take_apart(blob, cut, &mut index, &mut work, &mut first, &mut second);
            let found = answer.map(|[a, b]| [first[..a].to_vec(), second[..b].to_vec()]);
            match joined_of(blob, whole, cut) {
                Some(pair) => assert_eq!(found, Ok(pair)),
                None => assert_eq!(found.map_err(|refusal| refusal.number()), Err(60)),
            }
            good += usize::from(answer.is_ok());
        }
    }
    good
}

#[test]
fn good_cuts_are_those_of_joins() {
    let generated = cases(&wanted(APART, 21, 1_500));
    let wholes: HashSet<Vec<u8>> = generated
        .into_iter()
        .chain(fixed(true))
        .map(|case| case.a)
        .collect();
    let (mut tables, mut good) = (0, 0);
    for blob in wholes {
        if let Some(whole) = table(&blob) {
            tables += 1;
            good += every_cut_of(&blob, &whole);
        }
    }
    assert!(tables > 1_200 && good > 4 * tables, "{good} of {tables}");
}

/// What is wrong with a cut, each by its own name.
fn reasons(whole: &Table, cut: Cut) -> Vec<&'static str> {
    let mut found = Vec::new();
    let mut put = |is_so: bool, what| found.extend(is_so.then_some(what));
    put(cut.types > whole.count(), "more types");
    put(cut.strings == 0, "no strings");
    put(cut.strings as usize > whole.strings.len(), "more strings");
    let at = (cut.strings as usize).wrapping_sub(1);
    put(
        whole.strings.get(at).is_some_and(|byte| *byte != 0),
        "inside a string",
    );
    for (record, number) in whole.records.iter().zip(1..) {
        let is_earlier = number <= cut.types;
        let words = words_of(record);
        for name in name_words(record).iter().map(|at| words[*at]) {
            put(is_earlier && name >= cut.strings, "name ahead");
            let is_back = !is_earlier && name > 0 && name < cut.strings;
            let is_empty = whole.text(name).is_some_and(<[u8]>::is_empty);
            put(is_back && !is_empty, "name back");
            put(is_back && is_empty, "empty name back");
        }
        for to in targets(record) {
            put(is_earlier && to > cut.types, "reference ahead");
            let is_back = !is_earlier && to > 0 && to <= cut.types;
            put(is_back, "reference back");
        }
    }
    found.sort_unstable();
    found.dedup();
    found
}

fn targets(record: &Record) -> impl Iterator<Item = u32> {
    references(record).into_iter().map(|one| one.to)
}

/// Generated and fixed cases have each reason for 60 by itself, the generated
/// ones often.
#[test]
fn every_reason_alone() {
    for (found, least) in [(cases(&wanted(APART, 4, 8_000)), 30), (fixed(true), 4)] {
        let mut alone: BTreeMap<&str, usize> = BTreeMap::new();
        for case in &found {
            if run(case).number == 60 {
                let whole = table(&case.a).expect("accepted");
                let cut = Cut {
                    types: case.x,
                    strings: case.y,
                };
                if let [one] = reasons(&whole, cut)[..] {
                    *alone.entry(one).or_default() += 1;
                }
            }
        }
        assert_eq!(alone.len(), 9, "{alone:?}");
        assert!(alone.values().all(|count| *count >= least), "{alone:?}");
    }
}

#[test]
fn every_answer_is_common() {
    for (scale, count) in [
        (Scale::Tiny, 1_500),
        (Scale::Small, 6_000),
        (Scale::Full, 1_200),
    ] {
        let found = cases(&Wanted {
            scale,
            ..wanted(APART, 3, count)
        });
        let numbers: Vec<u32> = found.iter().map(|case| run(case).number).collect();
        let met = |number| numbers.iter().filter(|other| **other == number).count();
        assert!((count / 5..count / 3).contains(&met(0)), "{}", met(0));
        assert!(met(60) * 6 > count && met(61) * 10 > count);
        for number in [1, 2, 3, 4, 5, 6, 7, 9, 10, 11, 12, 13, 14, 15] {
            assert!(met(number) * 60 > count, "{scale:?}: {number}");
        }
        for case in found {
            assert!(case.a.len() <= 280_000 && case.b.len() <= 280_000);
            assert!(case.output_bytes <= 280_000 && case.index_places <= 20_000);
        }
    }
}

/// At the limits and one past them too.
#[test]
fn long_tables() {
    let found = cases(&Wanted {
        scale: Scale::Long,
        ..wanted(APART, 5, 60)
    });
    let mut met = HashSet::new();
    for case in &found {
        assert!(case.a.len() <= 280_000 && case.b.len() <= 280_000);
        let seen = run(case);
        let at_limit = case.a.len() == 262_144 || seen.index.get(16_384).is_some_and(|k| *k > 0);
        met.insert((seen.number, at_limit));
    }
    for expected in [(0, false), (0, true), (60, false), (61, false)] {
        assert!(met.contains(&expected), "{expected:?}");
    }
    for number in [1, 8, 9] {
        assert!(met.contains(&(number, false)), "{number}");
    }
}

#[test]
fn limits_are_met_exactly() {
    let thin: Vec<_> = large_apart::cases(true).iter().map(run).collect();
    let numbers: Vec<u32> = thin.iter().map(|seen| seen.number).collect();
    assert_eq!(numbers, [0, 0, 61]);
    // 24 and 8,192 records of 12 bytes, and 30,000 of 65,512 string bytes.
    assert_eq!([thin[0].t, thin[0].p], [128_328, 133_841]);
    assert_eq!([thin[1].t, thin[1].p], [25, 262_144]);
    let all: Vec<u32> = large_apart::cases(false)
        .iter()
        .map(|case| run(case).number)
        .collect();
    for number in [0, 1, 8, 60, 61] {
        assert!(all.contains(&number), "{number}");
    }
}

/// The parts that are tried by themselves: their answers.
#[test]
fn parts_of_taking_apart() {
    let all = edges::in_parts(true);
    for (part, numbers) in [
        ("apart-cuts", &[0, 60][..]),
        ("apart-numbers", &[60]),
        ("apart-outputs", &[0, 60, 61]),
        ("apart-slices", &[0, 9, 60, 61]),
        ("apart-filled", &[0, 60, 61]),
        ("apart-kinds", &[0]),
        ("apart-roles", &[0]),
        ("apart-references", &[0, 13, 14, 60]),
        ("apart-names", &[0, 11, 12, 60]),
    ] {
        for name in [part.to_string(), format!("{part}-turned")] {
            let found = all.iter().filter(|(other, _)| *other == name);
            let mut met: Vec<u32> = found.map(|(_, case)| run(case).number).collect();
            met.sort_unstable();
            met.dedup();
            assert_eq!(met, numbers, "{name}");
        }
    }
    let thin: HashSet<Case> = fixed(true).into_iter().collect();
    assert!(thin.is_subset(&fixed(false).into_iter().collect()));
}

/// Those of op 6 behind others leave those as they are.
#[test]
fn apart_behind_the_others() {
    let others = || Wanted {
        ops: vec![1, 2, 3, 4],
        edges: true,
        thin: true,
        ..wanted(1, 1, 50)
    };
    let front = cases_then(others(), &[Behind::leaning(3)]);
    let all = cases_then(others(), &[Behind::leaning(3), Behind::apart(7)]);
    assert_eq!(all[..front.len()], front);
    let behind = &all[front.len()..];
    assert_eq!(behind.len(), fixed(true).len() + 7);
    assert!(behind.iter().all(|case| case.op == APART));
}

#[test]
fn a_changed_cut_is_told() {
    let case = edges::cases_of("apart-kinds", true)[0].clone();
    let old = file(&[case]);
    assert_eq!(changed(&old).unwrap(), "0 of 1 answers changed\n");
    let mut other = old.clone();
    other[old.len() - 28] = 60;
    let line = "     1  op 6 apart: 60 report -> op 6 apart:  0 both tables\n";
    assert!(changed(&other).unwrap().starts_with(line));
}
