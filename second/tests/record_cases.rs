//! The cases of reading a member: fixed ones have every span, generated ones
//! every answer.

mod common;

use common::wanted;
use second::changed::changed;
use second::check::judge;
use second::generate::{cases, cases_then, edges, Behind, Scale, Wanted};
use second::members::base;
use second::order::Order;
use second::table::Kind;
use second::vectors::{file, run, Case, MEMBER};
use std::collections::HashSet;

fn fixed(thin: bool) -> Vec<Case> {
    cases(&Wanted {
        edges: true,
        thin,
        ..wanted(MEMBER, 0, 0)
    })
}

/// Is the base of the member signed?
fn is_signed(case: &Case) -> bool {
    let table = judge(&case.a, usize::MAX, usize::MAX).expect("accepted");
    let members = table.record(case.x).expect("a struct").entries();
    let base = base(&table, members[case.y as usize][1]).expect("a base");
    match base.kind {
        Kind::Int => base.tail[0] >> 24 == 1,
        _ => base.kind_flag(),
    }
}

/// Also of each sort: kind_flag 0, and fields.
#[test]
fn every_width_at_every_start_bit_signed_and_not() {
    for thin in [true, false] {
        for part in ["int-spans", "field-spans"] {
            let mut met = HashSet::new();
            for case in edges::cases_of(part, thin) {
                let seen = run(&case);
                let signed = is_signed(&case);
                let longer = seen.p > 64;
                assert_eq!(seen.number, if longer { 2 } else { u32::from(signed) });
                met.insert((seen.p, seen.t % 8, signed));
            }
            assert_eq!(met.len(), 128 * 8 * 2, "{part}");
            for width in 1..=128 {
                for start in 0..8 {
                    for signed in [false, true] {
                        assert!(met.contains(&(width, start, signed)));
                    }
                }
            }
        }
    }
}

/// What is read by shifts of one wide number, in place of bits one by one.
fn by_shifts(record: &[u8], first: u32, bits: u32, signed: bool) -> [u8; 16] {
    let whole = |from: usize| {
        let mut bytes = [0; 16];
        let rest = record.get(from..).unwrap_or(&[]);
        let count = rest.len().min(16);
        bytes[..count].copy_from_slice(&rest[..count]);
        u128::from_le_bytes(bytes)
    };
    let (byte, shift) = (first as usize / 8, first % 8);
    let mut value = whole(byte) >> shift;
    if shift > 0 {
        value |= whole(byte + 16) << (128 - shift);
    }
    let spare = 128 - bits;
    let high = value << spare;
    if signed {
        ((high as i128) >> spare).to_le_bytes()
    } else {
        (high >> spare).to_le_bytes()
    }
}

#[test]
fn values_by_shifts() {
    let mut read = 0;
    for case in fixed(false).iter().chain(&cases(&wanted(MEMBER, 8, 8_000))) {
        let seen = run(case);
        if seen.number <= 2 {
            let value = by_shifts(&case.b, seen.t, seen.p, is_signed(case));
            assert_eq!(seen.output, value);
            read += 1;
        } else {
            assert_eq!(seen.output, [0; 16]);
        }
    }
    assert!(read > 50_000, "{read}");
}

#[test]
fn thinned_members_are_edges_and_short() {
    let (few, all) = (fixed(true), fixed(false));
    assert!(file(&few).len() < 1_500_000);
    let all: HashSet<_> = all.iter().collect();
    assert!(few.iter().all(|case| all.contains(case)));
    for number in [0, 1, 2, 21, 30, 31, 32, 33, 34, 35] {
        let count = few.iter().filter(|case| run(case).number == number).count();
        assert!(count > 70, "{number}: {count}");
    }
}

/// The parts that are tried by themselves: their answers.
#[test]
fn parts_of_members() {
    for (part, numbers) in [
        ("record-benches", &[0, 1][..]),
        ("record-signs", &[0, 1, 2, 34]),
        ("record-bases", &[0, 33, 34]),
        ("record-types", &[0, 21, 30, 31, 32]),
        ("record-lengths", &[0, 30, 32]),
        ("record-members", &[0, 1, 2, 32]),
        ("record-grounds", &[0, 21, 30, 31, 32, 33]),
        ("record-tables", &[0, 34, 35]),
        ("record-orders", &[34, 35]),
    ] {
        let found = edges::cases_of(part, true);
        assert!(found.iter().all(|case| case.op == MEMBER));
        let mut met: Vec<u32> = found.iter().map(|case| run(case).number).collect();
        met.sort_unstable();
        met.dedup();
        assert_eq!(met, numbers, "{part}");
    }
}

#[test]
fn every_answer_is_common() {
    for (scale, count) in [
        (Scale::Small, 4_000),
        (Scale::Full, 1_000),
        (Scale::Long, 150),
    ] {
        let found = cases(&Wanted {
            scale,
            ..wanted(MEMBER, 3, count)
        });
        assert_eq!(found.len(), count);
        for number in [0, 1, 2, 21, 30, 31, 32, 33, 34, 35] {
            let met = found.iter().filter(|case| run(case).number == number);
            assert!(met.count() * 40 > count, "{scale:?}: {number}");
        }
        let big = |case: &&Case| run(case).number == 34 && Order::of(&case.a) == Order::Big;
        assert!(found.iter().filter(big).count() * 80 > count, "{scale:?}");
        for case in found {
            assert!(case.a.len() <= 280_000 && case.b.len() <= 280_000);
            assert!(case.index_places <= 20_000 && case.work_places <= 20_000);
            assert_eq!(case.output_bytes, 0);
        }
    }
}

/// Cases of members behind others leave those as they are.
#[test]
fn members_behind_the_others() {
    let others = |members| {
        let wanted = Wanted {
            ops: vec![1, 2, 3, 4],
            edges: true,
            thin: true,
            ..wanted(MEMBER, 1, 50)
        };
        match members {
            None => cases(&wanted),
            Some(count) => cases_then(wanted, &[Behind::members(count)]),
        }
    };
    let (front, all) = (others(None), others(Some(7)));
    assert_eq!(all[..front.len()], front);
    assert_eq!(all.len(), front.len() + fixed(true).len() + 7);
    assert!(all[front.len()..].iter().all(|case| case.op == MEMBER));
}

#[test]
fn a_changed_member_is_told() {
    let case = edges::cases_of("record-benches", true)[0].clone();
    let old = file(&[case]);
    assert_eq!(changed(&old).unwrap(), "0 of 1 answers changed\n");
    let mut other = old.clone();
    let at = old.len() - 28;
    other[at] = 30;
    let line = "     1  op 5 member: 30 report -> op 5 member:  0 unsigned\n";
    assert!(changed(&other).unwrap().starts_with(line));
    // The last number is the sum of the value.
    let mut other = old.clone();
    other[at + 24] ^= 1;
    assert!(changed(&other).unwrap().contains(", another output sum\n"));
}
