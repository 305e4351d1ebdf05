//! Both byte orders, order 4: tables, sizes, names and joins by hand, and
//! random ones against their own turned round.

mod common;

use common::*;
use second::generate::edges;
use second::generate::pieces::index_of;
use second::generate::random::Random;
use second::generate::turn::{both, turned};
use second::generate::{cases, valid, Scale, Wanted};
use second::make::Make;
use second::order::Order;
use second::vectors::{run, Case, CHECK, JOIN, NAME, SIZE};
use second::SizeAnswer::{Exact, NoSize, Report21, Report22};
use second::{join, name, size, JoinRefusal};

/// The paper's E and T, big-endian.
const E: [u8; 25] = [
    0xEB, 0x9F, 0x01, 0x00, 0, 0, 0, 24, 0, 0, 0, 0, 0, 0, 0, 0, 0, 0, 0, 0, 0, 0, 0, 1, 0,
];
const T: [u8; 43] = [
    0xEB, 0x9F, 0x01, 0x00, 0, 0, 0, 24, 0, 0, 0, 0, 0, 0, 0, 16, 0, 0, 0, 16, 0, 0, 0, 3, 0, 0, 0,
    1, 1, 0, 0, 0, 0, 0, 0, 2, 1, 0, 0, 0x10, 0, 0x74, 0,
];

fn little_t() -> Vec<u8> {
    let mut m = Make::new();
    let name = m.string("t");
    m.raw(name, 1 << 24, 2, &[0x0100_0010]);
    m.blob()
}

#[test]
fn both_orders_are_accepted() {
    assert_eq!(both(&Make::new().blob()), [Make::new().blob(), E.to_vec()]);
    assert_eq!(turned(&little_t()), T);
    assert_eq!((gate(&E), gate(&T)), (Ok(0), Ok(1)));
    let (mut index, mut work) = ([7; 3], [7; 2]);
    assert_eq!(second::check(&T, &mut index, &mut work), Ok(1));
    assert_eq!((index, work), ([0, 24, 0], [0, 0]));
}

#[test]
fn report_2_is_neither_order() {
    let begun = |opening: [u8; 4]| {
        let mut blob = T;
        blob[..4].copy_from_slice(&opening);
        gate(&blob)
    };
    assert_eq!(begun([0xEB, 0x9F, 0x01, 0x00]), Ok(1));
    // Version and flags are not turned round, nor is the whole word.
    for opening in [
        [0xEB, 0x9F, 0x00, 0x01],
        [0x00, 0x01, 0xEB, 0x9F],
        [0xEB, 0x9F, 0x01, 0x01],
        [0xEB, 0x9F, 0x00, 0x00],
        [0xEB, 0xEB, 0x01, 0x00],
        [0x9F, 0x9F, 0x01, 0x00],
    ] {
        assert_eq!(begun(opening), refused(2, 0, 0), "{opening:02X?}");
    }
    // The other order's opening makes other words of the header.
    assert_eq!(begun([0x9F, 0xEB, 0x01, 0x00]), refused(3, 0, 0));
}

#[test]
fn words_in_the_wrong_order() {
    let with = |places: &[usize]| {
        let mut blob = T;
        for place in places {
            blob[*place..place + 4].reverse();
        }
        gate(&blob)
    };
    assert_eq!(with(&[4]), refused(3, 0, 0));
    for place in [12, 16, 20] {
        assert_eq!(with(&[place]), refused(4, 0, 0), "{place}");
    }
    // name, info, size and the INT's own word of the one record
    assert_eq!(with(&[24]), refused(11, 1, 24));
    assert_eq!(with(&[28]), refused(7, 1, 24));
    assert_eq!(with(&[32]), refused(10, 1, 24));
    assert_eq!(with(&[36]), refused(12, 1, 24));
}

/// The first two bytes alone say the order.
#[test]
fn sizes_by_the_first_two_bytes() {
    // An INT of 7 bytes in one order, a PTR in the other.
    let asked = |first: [u8; 2]| {
        let mut blob = vec![0xAA; 24];
        blob[..2].copy_from_slice(&first);
        blob.extend([0, 0, 0, 0, 2, 0, 0, 1, 7, 0, 0, 0]);
        size(&blob, &[0, 24], 1)
    };
    assert_eq!(asked([0xEB, 0x9F]), Exact(8));
    for first in [[0x9F, 0xEB], [0xEB, 0xEB], [0xEB, 0], [0, 0x9F]] {
        assert_eq!(asked(first), Exact(7), "{first:02X?}");
    }
    for blob in [&[][..], &[0xEB], &[0xEB, 0x9F], &[0xEB, 0x9F, 0x01]] {
        assert_eq!(size(blob, &[0, 24], 0), NoSize);
        assert_eq!(size(blob, &[0, 24], 1), Report21);
        assert_eq!(size(blob, &[], 1), Report22);
    }
    // The index is plain numbers in both.
    assert_eq!(size(&T, &[0, 24], 1), Exact(2));
    assert_eq!(size(&T, &[0, 24 << 24], 1), Report21);
}

#[test]
fn names_by_the_header() {
    assert_eq!(name(&T, 1), (&b"t"[..], false));
    assert_eq!(name(&T, 2), (&b""[..], false));
    assert_eq!(name(&T, 3), (&b""[..], true));
    let mut swapped = T;
    swapped.swap(0, 1);
    assert_eq!(name(&swapped, 1), (&b""[..], true));
}

fn called(a: &[u8], b: &[u8], bytes: usize) -> Result<Vec<u8>, JoinRefusal> {
    let mut output = vec![165; bytes];
    let length = join(a, b, &mut [9; 9], &mut [9; 9], &mut output)?;
    output.truncate(length);
    Ok(output)
}

#[test]
fn joins_of_one_order_and_of_two() {
    let (e, t) = (Make::new().blob(), little_t());
    assert_eq!(called(&E, &T, 43), Ok(T.to_vec()));
    assert_eq!(called(&T, &E, 43), Ok(T.to_vec()));
    let joined = called(&T, &T, 61).expect("joined");
    assert_eq!(joined, turned(&called(&t, &t, 61).expect("joined")));
    assert_eq!(
        joined[..24],
        [&T[..15], &[32, 0, 0, 0, 32, 0, 0, 0, 5]].concat()
    );
    // The second name's offset is 3.
    assert_eq!(joined[40..44], [0, 0, 0, 3]);
    for (a, b) in [
        (&e[..], &E[..]),
        (&E, &e),
        (&t, &T),
        (&T, &t),
        (&e, &T),
        (&T, &e),
    ] {
        for bytes in [0, 61] {
            let refusal = called(a, b, bytes).expect_err("two orders");
            assert_eq!(refusal, JoinRefusal::OrdersDiffer);
            assert_eq!((refusal.number(), refusal.inner()), (24, None));
        }
    }
    // A table that is refused speaks before the orders do.
    let mut bad = T;
    bad[39] = 17;
    assert_eq!(called(&bad, &t, 61).expect_err("bad").number(), 16);
    assert_eq!(called(&t, &bad, 61).expect_err("bad").number(), 17);
}

/// Generated cases of every op, all of any order.
fn generated(op: u32, seed: u64, count: usize) -> Vec<Case> {
    cases(&Wanted {
        seed,
        cases: count,
        ops: vec![op],
        scale: Scale::Small,
        ..Wanted::default()
    })
}

/// How many begin as a table of the order does.
fn of_order(cases: &[Case], order: Order) -> usize {
    let begins = |case: &&Case| case.a.starts_with(&order.magic());
    cases.iter().filter(begins).count()
}

#[test]
fn a_turned_table_gets_the_same_answer() {
    for (op, number) in [(CHECK, 3_000), (NAME, 1_000)] {
        let found = generated(op, 4, number);
        for order in [Order::Little, Order::Big] {
            assert!(of_order(&found, order) > number / 3, "{order:?}");
        }
        for case in found {
            let other = Case {
                a: turned(&case.a),
                ..case.clone()
            };
            assert_eq!(run(&other), run(&case));
        }
    }
}

/// A join with the joined table turned is the join of the turned; of two
/// accepted tables of different orders none is made.
#[test]
fn a_join_of_turned_tables_is_the_turned_join() {
    let mut mixed = 0;
    for case in generated(JOIN, 5, 3_000) {
        let [a, b] = [&case.a, &case.b].map(|blob| turned(blob));
        let (seen, other) = (
            run(&case),
            run(&Case {
                a,
                b,
                ..case.clone()
            }),
        );
        assert_eq!(other.number, seen.number);
        assert_eq!(
            [other.inner, other.t, other.p],
            [seen.inner, seen.t, seen.p]
        );
        let length = if seen.number == 0 { seen.p as usize } else { 0 };
        let (joined, rest) = seen.output.split_at(length);
        assert_eq!(other.output, [&turned(joined), rest].concat());
        let one_turned = run(&Case {
            a: turned(&case.a),
            ..case.clone()
        });
        match seen.number {
            0 | 20 => assert_eq!(one_turned.number, 24),
            16 | 17 => assert_eq!(one_turned, seen),
            number => assert_eq!(number, 24),
        }
        mixed += u32::from(seen.number == 24);
    }
    assert!(mixed > 150, "{mixed}");
}

#[test]
fn sizes_of_a_turned_table() {
    let mut r = Random::new(6);
    for _ in 0..500 {
        let m = valid::table(&mut r, Scale::Small);
        let (blob, index) = (m.blob(), index_of(&m));
        for number in 0..=m.count() + 1 {
            let sizes = both(&blob).map(|blob| size(&blob, &index, number));
            assert_eq!(sizes[0], sizes[1]);
        }
    }
}

#[test]
fn turning_twice_is_nothing() {
    for case in generated(CHECK, 7, 2_000) {
        let back = turned(&turned(&case.a));
        let begins = [Order::Little, Order::Big].map(|order| case.a.starts_with(&order.magic()));
        assert!(back == case.a || begins == [false; 2]);
    }
    for length in 0..=25 {
        assert_eq!(turned(&turned(&E[..length])), E[..length]);
    }
}

/// The parts that wrong definitions of the orders are tried on: their answers.
#[test]
fn parts_of_the_orders() {
    for (part, op, numbers) in [
        ("orders", CHECK, &[0, 2, 3, 4][..]),
        ("order-words", CHECK, &[0, 6, 7, 10, 11, 12, 13, 15]),
        ("order-sizes", SIZE, &[0, 1, 21, 22]),
        ("order-names", NAME, &[0, 1]),
        ("order-joins", JOIN, &[0, 16, 17, 20, 24]),
    ] {
        let found = edges::cases_of(part, true);
        assert!(found.iter().all(|case| case.op == op));
        let mut met: Vec<u32> = found.iter().map(|case| run(case).number).collect();
        met.sort_unstable();
        met.dedup();
        assert_eq!(met, numbers, "{part}");
    }
}

/// Every part that is made in one order is there in the other, with the same
/// answers but where strings are read as words.
#[test]
fn edges_in_both_orders() {
    for part in ["heads", "joined-kinds", "name-offsets", "index-lengths"] {
        let [made, other] = ["", "-turned"].map(|end| {
            let found = edges::cases_of(&format!("{part}{end}"), false);
            let numbers = found.iter().map(|case| run(case).number);
            numbers.collect::<Vec<u32>>()
        });
        assert!(!made.is_empty());
        assert_eq!(made, other, "{part}");
    }
}
