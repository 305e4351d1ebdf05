//! A pair and the one table that holds both: from phase 3 on what is said of
//! the module is what is said of that table, and so are sizes and names.

mod common;

use common::lean;
use second::generate::{cases, edges, Scale, Wanted};
use second::make::word_at;
use second::order::Order;
use second::vectors::{run, Case, LEANING};
use second::{check, name, name_leaning, size, size_leaning, LeaningName};

/// Thousands of pairs, generated in both orders and at the edges.
fn pairs() -> Vec<Case> {
    let wanted = Wanted {
        seed: 77,
        cases: 8_000,
        ops: vec![LEANING],
        scale: Scale::Small,
        edges: true,
        ..Wanted::default()
    };
    cases(&wanted)
}

fn type_len(blob: &[u8]) -> usize {
    word_at(blob, 12) as usize
}

/// One header, the base's records, the module's records, both strings.
fn one_table(base: &[u8], module: &[u8]) -> Vec<u8> {
    let (base_end, module_end) = (24 + type_len(base), 24 + type_len(module));
    let types = [&base[24..base_end], &module[24..module_end]].concat();
    let strings = [&base[base_end..], &module[module_end..]].concat();
    let order = Order::of(base);
    let mut blob = order.opening().to_vec();
    for word in [24, 0, types.len(), types.len(), strings.len()] {
        blob.extend(order.bytes(word as u32));
    }
    blob.extend(types);
    blob.extend(strings);
    blob
}

/// Phases 1 and 2 have passed, and 9: the answer is one of the later phases.
#[test]
fn later_phases_say_what_they_say_of_one_table() {
    let mut met = [0; 16];
    for case in pairs() {
        let seen = run(&case);
        if ![0, 10, 11, 12, 13, 14, 15].contains(&seen.number) {
            continue;
        }
        let whole = one_table(&case.a, &case.b);
        let mut index = vec![9; case.index_places as usize];
        let mut work = vec![9; case.work_places as usize];
        match check(&whole, &mut index, &mut work) {
            Ok(count) => assert_eq!((seen.number, seen.t, seen.p), (0, count, 0)),
            Err(report) => {
                assert_eq!(seen.number, report.number);
                assert_eq!(seen.t, report.type_number);
                assert_eq!(seen.p as usize + type_len(&case.a), report.place as usize);
            }
        }
        let count = base_count(&case);
        let shift = |(k, place): (usize, &u32)| match (k > count, place) {
            (true, 1..) => place + type_len(&case.a) as u32,
            _ => *place,
        };
        let shifted: Vec<u32> = seen.index.iter().enumerate().map(shift).collect();
        assert_eq!((shifted, seen.work), (index, work));
        met[seen.number as usize] += 1;
    }
    for number in [0, 10, 11, 12, 13, 14, 15] {
        assert!(met[number] > 300, "{number}: {}", met[number]);
    }
}

fn base_count(case: &Case) -> usize {
    let (mut index, mut work) = (vec![0; 20_000], vec![0; 20_000]);
    check(&case.a, &mut index, &mut work).expect("accepted") as usize
}

/// Of an accepted pair every size and every name, and one past the last.
#[test]
fn sizes_and_names_of_one_table() {
    let (mut sizes, mut names) = (0, [0; 2]);
    for case in pairs() {
        let seen = run(&case);
        if seen.number != 0 {
            continue;
        }
        let whole = one_table(&case.a, &case.b);
        let mut index = vec![0; case.index_places as usize];
        let mut work = vec![0; case.work_places as usize];
        check(&whole, &mut index, &mut work).expect("accepted");
        let count = base_count(&case) as u32;
        for number in 0..=seen.t + 1 {
            let of_pair = size_leaning(&case.a, count, &case.b, &seen.index, number);
            assert_eq!(of_pair, size(&whole, &index, number));
            sizes += 1;
        }
        let mark = word_at(&case.a, 20);
        for offset in 0..=mark + word_at(&case.b, 20) {
            let (part, nameless) = name(&whole, offset);
            match name_leaning(&case.a, &case.b, offset) {
                LeaningName::InBase(found) => {
                    assert_eq!((found, false, true), (part, nameless, offset < mark));
                    names[0] += 1;
                }
                LeaningName::InModule(found) => {
                    assert_eq!((found, false, true), (part, nameless, offset >= mark));
                    names[1] += 1;
                }
                LeaningName::Nowhere => assert!(nameless),
            }
        }
    }
    assert!(sizes > 20_000, "{sizes}");
    assert!(names[0] > 15_000 && names[1] > 8_000, "{names:?}");
}

/// An empty module's table says of its base what the base's own check says.
#[test]
fn an_empty_module() {
    let mut accepted = 0;
    for case in edges::cases_of("heads", false) {
        let order = Order::of(&case.a);
        let mut module = order.opening().to_vec();
        for word in [24, 0, 0, 0, 0] {
            module.extend(order.bytes(word));
        }
        let (mut index, mut work) = (vec![9; 9], vec![9; 9]);
        let alone = check(&case.a, &mut index, &mut work);
        match (alone, lean(&case.a, &module)) {
            (Ok(count), Ok(both)) => assert_eq!(count, both),
            (Err(report), Err(refusal)) => assert_eq!(refusal.inner(), Some(report)),
            (alone, both) => panic!("{alone:?} {both:?}"),
        }
        accepted += u32::from(alone.is_ok());
    }
    assert!(accepted > 100, "{accepted}");
}
