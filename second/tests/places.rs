//! The byte place that every report carries, order 9.

mod common;

use common::*;
use second::generate::edges_joins::{call, refused as table_with};
use second::generate::large::pointers;
use second::generate::{cases, Scale, Wanted};
use second::make::{blob_of, word_at, Make};
use second::table::Kind;
use second::vectors::{run, CHECK, JOIN};
use second::{check, join, JoinRefusal, Report};

#[test]
fn reports_that_name_no_type_have_no_place() {
    for report in 1..=5 {
        assert_eq!(gate(&table_with(report)), refused(report, 0, 0));
    }
    let blob = pointers(3).blob();
    assert_eq!(check(&blob, &mut [7; 3], &mut [7; 4]), refused(9, 0, 0));
    assert_eq!(check(&blob, &mut [7; 4], &mut [7; 3]), refused(9, 0, 0));
}

/// An INT at 24, an ENUM of two values at 40, a PTR at 68 and a STRUCT of one
/// member at 80, whose 24 bytes end the type section at 104.
fn of_four_lengths() -> Make {
    let mut m = Make::new();
    let name = m.string("n");
    m.int(4);
    m.listed(Kind::Enum, false, name, 4, &[[name, 1], [name, 2]]);
    m.ptr(1);
    m.structure(4, false, &[[name, 1, 0]]);
    m
}

#[test]
fn place_of_a_cut_record() {
    let m = of_four_lengths();
    let words = m.type_words();
    assert_eq!(words.len(), 20);
    assert_eq!(gate(&blob_of(&words, &m.strings)), Ok(4));
    // Fourteen words are the first three records; then a head of one or two
    // words, then a tail of none to two.
    assert_eq!(gate(&blob_of(&words[..14], &m.strings)), Ok(3));
    for kept in 15..20 {
        let cut = blob_of(&words[..kept], &m.strings);
        assert_eq!(gate(&cut), refused(6, 4, 80), "{kept}");
    }
    // The same for the records before it.
    for (kept, number, place) in [(3, 1, 24), (9, 2, 40), (13, 3, 68)] {
        let cut = blob_of(&words[..kept], &m.strings);
        assert_eq!(gate(&cut), refused(6, number, place), "{kept}");
    }
    // A list longer than what is left.
    let mut longer = m.clone();
    longer.at(4).set_vlen(2);
    assert_eq!(judged(&longer), refused(6, 4, 80));
    longer.at(2).set_vlen(9);
    assert_eq!(judged(&longer), refused(6, 2, 40));
}

#[test]
fn place_of_an_unknown_kind() {
    for (number, place) in [(1, 24), (2, 40), (3, 68), (4, 80)] {
        for kind in [0, 20, 31] {
            let mut m = of_four_lengths();
            m.at(number).set_kind_number(kind);
            assert_eq!(judged(&m), refused(7, number, place), "{kind}");
        }
    }
}

/// 24 + 12 times 16,384 with pointers alone; an INT among them is 4 bytes more.
#[test]
fn place_where_one_record_too_many_would_begin() {
    assert_eq!(judged(&pointers(16_385)), refused(8, 16_385, 196_632));
    assert_eq!(judged(&pointers(16_600)), refused(8, 16_385, 196_632));
    // One word is no head, but bytes that remain.
    let mut words = pointers(16_384).type_words();
    words.push(0);
    assert_eq!(gate(&blob_of(&words, &[0])), refused(8, 16_385, 196_632));
    let mut m = pointers(16_383);
    m.int(4);
    m.ptr(0);
    assert_eq!(judged(&m), refused(8, 16_385, 196_636));
}

/// Type 5 at 104, behind the four above.
fn broken(report: u32) -> Make {
    let mut m = of_four_lengths();
    match report {
        10 => m.int(3),
        11 => m.typedef(0, 1),
        12 => m.odd_int(2, 0, 17),
        13 => m.ptr(9),
        14 => m.constant(5),
        _ => m.structure(3, false, &[[1, 1, 0]]),
    };
    m
}

#[test]
fn place_of_a_type_behind_others() {
    for report in 10..=15 {
        let mut m = broken(report);
        assert_eq!(judged(&m), refused(report, 5, 104), "the last record");
        m.ptr(0);
        m.int(4);
        assert_eq!(judged(&m), refused(report, 5, 104), "with others behind");
    }
}

#[test]
fn report_14_has_the_place_of_the_type_it_names() {
    // The typedef at 40 only leads to the ring of 3 and 4, but it is smaller.
    let mut m = Make::new();
    let name = m.string("n");
    m.int(4);
    m.typedef(name, 4);
    m.constant(4);
    m.constant(3);
    assert_eq!(judged(&m), refused(14, 2, 40));
    // A larger one that leads there is not named: the ring begins at 52.
    m.at(2).third = 1;
    m.typedef(name, 4);
    assert_eq!(judged(&m), refused(14, 3, 52));
    // Nor is the VAR, though it leads to the ring's other type: the struct at
    // 40 is of the ring and smaller.
    let mut m = Make::new();
    let name = m.string("n");
    m.int(4);
    m.structure(8, false, &[[name, 4, 0]]);
    m.var(name, 4);
    m.constant(2);
    assert_eq!(judged(&m), refused(14, 2, 40));
}

/// The second table's place counts in its own blob, not in the joined one.
#[test]
fn places_inside_a_join() {
    let good = of_four_lengths().blob();
    let call_join = |a: &[u8], b: &[u8], places: usize| {
        let (mut index, mut work) = (vec![7; places], vec![7; places]);
        join(a, b, &mut index, &mut work, &mut [165; 400])
    };
    for report in 10..=15 {
        let bad = broken(report).blob();
        let inner = Report::new(report, 5, 104);
        let first = call_join(&bad, &good, 9);
        assert_eq!(first, Err(JoinRefusal::First(inner)));
        let second = call_join(&good, &bad, 9);
        assert_eq!(second, Err(JoinRefusal::Second(inner)));
    }
    let none = Report::bare(9);
    let first = call_join(&good, &good, 4);
    assert_eq!(first, Err(JoinRefusal::First(none)));
}

#[test]
fn the_place_is_p_in_a_vector() {
    let (good, bad) = (of_four_lengths().blob(), broken(13).blob());
    let answer = |a: &[u8], b: &[u8], op: u32, bytes: u32| {
        let mut case = call(a, b, 9, bytes);
        case.op = op;
        let seen = run(&case);
        [seen.number, seen.inner, seen.t, seen.p]
    };
    assert_eq!(answer(&good, &[], CHECK, 0), [0, 0, 4, 0]);
    assert_eq!(answer(&bad, &[], CHECK, 0), [13, 0, 5, 104]);
    assert_eq!(answer(&bad[..20], &[], CHECK, 0), [1, 0, 0, 0]);
    assert_eq!(answer(&bad, &good, JOIN, 400), [16, 13, 5, 104]);
    assert_eq!(answer(&good, &bad, JOIN, 400), [17, 13, 5, 104]);
    assert_eq!(answer(&good, &bad[..20], JOIN, 400), [17, 1, 0, 0]);
    // 24, twice 80 bytes of types, and the strings of 3 and 2 bytes.
    assert_eq!(answer(&good, &good, JOIN, 400), [0, 0, 0, 189]);
    assert_eq!(answer(&good, &good, JOIN, 188), [20, 0, 0, 0]);
}

/// The place of a type, walked here once more.
fn place_of(blob: &[u8], type_number: u32) -> u32 {
    let mut place = 24;
    for _ in 1..type_number {
        let info = word_at(blob, place as usize + 4);
        let vlen = info & 0xFFFF;
        place += match (info >> 24) & 31 {
            1 | 14 | 17 => 16,
            3 => 24,
            4 | 5 | 15 | 19 => 12 + 12 * vlen,
            6 | 13 => 12 + 8 * vlen,
            _ => 12,
        };
    }
    place
}

#[test]
fn generated_places_are_those_of_the_named_types() {
    let all = cases(&Wanted {
        seed: 9,
        cases: 4_000,
        ops: vec![CHECK, JOIN],
        scale: Scale::Small,
        ..Wanted::default()
    });
    let mut behind_others = [0; 16];
    for case in &all {
        let seen = run(case);
        let (blob, report) = match seen.number {
            number @ 1..=15 => (&case.a, number),
            16 => (&case.a, seen.inner),
            17 => (&case.b, seen.inner),
            _ => continue,
        };
        if report < 6 || report == 9 {
            assert_eq!((seen.t, seen.p), (0, 0));
            continue;
        }
        assert_eq!(seen.p, place_of(blob, seen.t));
        assert!(seen.p % 4 == 0 && seen.p < 24 + word_at(blob, 12));
        behind_others[report as usize] += u32::from(seen.p > 24);
    }
    for report in [6, 7, 10, 11, 12, 13, 14, 15] {
        assert!(behind_others[report] >= 20, "{report}");
    }
}
