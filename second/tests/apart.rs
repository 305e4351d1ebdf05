//! Taking a join apart, sentence by sentence, with small tables by hand.

mod common;

use common::*;
use second::generate::edges_joins::{refused as table_with, second_tables, SMALL_REPORTS};
use second::generate::turn::{both, turned};
use second::make::Make;
use second::table::Kind;
use second::{take_apart, ApartRefusal, Cut, Report};

/// The two tables, cut at so many types and string bytes; or the number of the
/// refusal. Outputs of 400 bytes: what may not change must not.
fn apart(blob: &[u8], types: u32, strings: u32) -> Result<[Vec<u8>; 2], u32> {
    let cut = Cut { types, strings };
    let (mut index, mut work) = (vec![7; 40], vec![7; 40]);
    let (mut first, mut second) = (vec![165; 400], vec![165; 400]);
    let answer = take_apart(blob, cut, &mut index, &mut work, &mut first, &mut second);
    // Both slices end as the check leaves them.
    let (mut checked, mut cleared) = (vec![7; 40], vec![7; 40]);
    let _ = second::check(blob, &mut checked, &mut cleared);
    assert_eq!((index, work), (checked, cleared));
    let [a, b] = answer.unwrap_or([0, 0]);
    let past = first[a..].iter().chain(&second[b..]);
    assert!(past.into_iter().all(|byte| *byte == 165));
    first.truncate(a);
    second.truncate(b);
    answer
        .map(|_| [first, second])
        .map_err(|refusal| refusal.number())
}

/// So many bytes of output for each, and places in each slice.
fn lent(blob: &[u8], cut: Cut, places: usize, bytes: [usize; 2]) -> Result<[usize; 2], u32> {
    let (mut index, mut work) = (vec![7; places], vec![7; places]);
    let [mut first, mut second] = bytes.map(|bytes| vec![165; bytes]);
    let answer = take_apart(blob, cut, &mut index, &mut work, &mut first, &mut second);
    if answer.is_err() {
        let mut all = first.iter().chain(&second);
        assert!(all.all(|byte| *byte == 165));
    }
    answer.map_err(|refusal| refusal.number())
}

/// A table of these strings and no types.
fn texts(texts: &[&str]) -> Make {
    let mut m = Make::new();
    for text in texts {
        m.string(text);
    }
    m
}

#[test]
fn t_joined_to_t() {
    let t = t().blob();
    let whole = joined(&t, &t);
    assert_eq!(whole.len(), 61);
    assert_eq!(apart(&whole, 1, 3), Ok([t.clone(), t.clone()]));
    let whole = turned(&whole);
    assert_eq!(apart(&whole, 1, 3), Ok([turned(&t), turned(&t)]));
}

/// Of every word that a join raises, and of those that it does not: components,
/// counts, values, offset words.
#[test]
fn joined_and_taken_apart() {
    for first in second_tables() {
        for second in second_tables() {
            let (types, strings) = (first.count(), first.strings.len() as u32);
            for (a, b) in both(&first.blob()).into_iter().zip(both(&second.blob())) {
                let whole = joined(&a, &b);
                assert_eq!(apart(&whole, types, strings), Ok([a, b]));
            }
        }
    }
}

#[test]
fn front_and_end_are_always_good() {
    let e = Make::new().blob();
    for m in second_tables().into_iter().chain([Make::new(), t()]) {
        for (blob, e) in both(&m.blob()).into_iter().zip(both(&e)) {
            assert_eq!(apart(&blob, 0, 1), Ok([e.clone(), blob.clone()]));
            let (types, strings) = (m.count(), m.strings.len() as u32);
            assert_eq!(apart(&blob, types, strings), Ok([blob, e]));
        }
    }
}

/// The blob's own report is the answer itself, whatever the numbers and the
/// outputs are.
#[test]
fn own_report_comes_first() {
    let nowhere = Cut {
        types: 9,
        strings: 9,
    };
    for report in SMALL_REPORTS {
        let blob = table_with(report);
        assert_eq!(apart(&blob, 0, 1), Err(report));
        assert_eq!(apart(&blob, 9, 9), Err(report));
        assert_eq!(lent(&blob, nowhere, 4, [0, 0]), Err(report));
        let (names, place) = if report < 6 { (0, 0) } else { (3, 64) };
        let own = ApartRefusal::Table(Report::new(report, names, place));
        let found = take_apart(&blob, nowhere, &mut [7; 4], &mut [7; 4], &mut [], &mut []);
        assert_eq!(found, Err(own));
    }
}

/// Places are asked for the whole; the parts are not checked in the slices.
#[test]
fn places_for_the_whole() {
    let whole = joined(&t().blob(), &t().blob());
    let cut = Cut {
        types: 1,
        strings: 3,
    };
    assert_eq!(lent(&whole, cut, 2, [43, 43]), Err(9));
    assert_eq!(lent(&whole, cut, 2, [0, 0]), Err(9));
    assert_eq!(lent(&whole, cut, 3, [43, 43]), Ok([43, 43]));
    let (mut index, mut work) = ([7; 5], [7; 5]);
    for (types, bytes) in [(1, 43), (1, 42), (3, 43)] {
        let cut = Cut { types, strings: 3 };
        let (mut first, mut second) = (vec![0; bytes], [0; 43]);
        let _ = take_apart(&whole, cut, &mut index, &mut work, &mut first, &mut second);
        assert_eq!((index, work), ([0, 24, 40, 0, 0], [0; 5]));
        (index, work) = ([7; 5], [7; 5]);
    }
}

#[test]
fn numbers_that_no_table_has() {
    let t = t().blob();
    let whole = joined(&t, &t);
    for (types, strings) in [
        (3, 3),
        (3, 5),
        (u32::MAX, 3),
        (1, 0),
        (0, 0),
        (2, 0),
        (1, 6),
        (2, 6),
        (1, u32::MAX),
        (2, (1 << 16) + 5),
        ((1 << 16) + 1, 3),
    ] {
        assert_eq!(apart(&whole, types, strings), Err(60));
    }
}

/// Nothing has a name, so the byte before the cut decides.
#[test]
fn byte_before_the_cut() {
    let mut m = texts(&["ab", "", "c"]);
    m.ptr(0);
    m.ptr(0);
    // 0 a b 0 0 c 0
    for types in 0..3 {
        let good = (0..9).filter(|strings| apart(&m.blob(), types, *strings).is_ok());
        assert_eq!(good.collect::<Vec<u32>>(), [1, 4, 5, 7]);
    }
    let [first, second] = apart(&m.blob(), 1, 4).expect("good");
    assert_eq!(first[36..], *b"\0ab\0");
    assert_eq!(second[36..], *b"\0\0c\0");
}

/// A FLOAT before the cut and one behind it, each with each name. The cut is
/// between two empty strings.
#[test]
fn names_keep_to_their_side() {
    // 0 a 0 0 | 0 b 0
    for (before, behind) in (0..7).flat_map(|a| (0..7).map(move |b| (a, b))) {
        let mut m = texts(&["a", "", "", "b"]);
        m.bare(Kind::Float, before, 4, &[]);
        m.bare(Kind::Float, behind, 4, &[]);
        let is_good = before < 4 && (behind == 0 || behind >= 4);
        assert_eq!(apart(&m.blob(), 1, 4).is_ok(), is_good);
        // What leads to a string of no bytes at the cut is 1 in the second.
        if is_good && behind == 4 {
            let [_, second] = apart(&m.blob(), 1, 4).expect("good");
            assert_eq!(second[24..28], [1, 0, 0, 0]);
        }
    }
}

/// Pointers before the cut and behind it, each to each type: 1 and 2 are before
/// it, 3 and 4 behind. A pointer that leads back to itself is 14.
#[test]
fn references_keep_to_their_side() {
    for before in [0, 2, 3, 4] {
        for behind in [0, 1, 2, 4] {
            let mut m = Make::new();
            m.ptr(before);
            m.int(4);
            m.ptr(behind);
            m.int(4);
            let is_good = before <= 2 && (behind == 0 || behind >= 3);
            let is_ring = before == 3 && behind == 1;
            let expected = if is_ring { 14 } else { 60 };
            match apart(&m.blob(), 2, 1) {
                Ok(_) => assert!(is_good),
                Err(number) => assert_eq!((is_good, number), (false, expected)),
            }
        }
    }
}

/// A component is no type number: it may be larger than the count and smaller.
#[test]
fn components_do_not_cross() {
    let mut m = Make::new();
    let name = m.string("s");
    let int = m.int(1);
    let holder = m.structure(2, false, &[[0, int, 0], [0, int, 8]]);
    m.tag(name, holder, 1);
    let whole = joined(&t().blob(), &m.blob());
    assert_eq!(apart(&whole, 1, 3), Ok([t().blob(), m.blob()]));
    let whole = joined(&m.blob(), &t().blob());
    assert_eq!(apart(&whole, 3, 3), Ok([m.blob(), t().blob()]));
}

/// 61 is asked of both, and behind 60.
#[test]
fn outputs_too_short() {
    let mut longer = t();
    longer.ptr(1);
    let whole = joined(&t().blob(), &longer.blob());
    let cut = Cut {
        types: 1,
        strings: 3,
    };
    for (bytes, expected) in [
        ([43, 55], Ok([43, 55])),
        ([50, 60], Ok([43, 55])),
        ([42, 55], Err(61)),
        ([43, 54], Err(61)),
        ([55, 43], Err(61)),
        ([0, 400], Err(61)),
        ([400, 0], Err(61)),
        ([0, 0], Err(61)),
    ] {
        assert_eq!(lent(&whole, cut, 9, bytes), expected);
        assert_eq!(lent(&whole, Cut { types: 2, ..cut }, 9, bytes), Err(60));
    }
}

/// With three tables joined, both ways of taking them apart meet.
#[test]
fn three_tables() {
    let [a, b, c] = [0, 2, 5].map(|at| second_tables()[at].clone());
    let (ab, bc) = (joined(&a.blob(), &b.blob()), joined(&b.blob(), &c.blob()));
    let whole = joined(&ab, &c.blob());
    let types = [a.count(), a.count() + b.count()];
    let strings = [a.strings.len(), a.strings.len() + b.strings.len() - 1].map(|one| one as u32);
    assert_eq!(
        apart(&whole, types[0], strings[0]),
        Ok([a.blob(), bc.clone()])
    );
    assert_eq!(
        apart(&whole, types[1], strings[1]),
        Ok([ab.clone(), c.blob()])
    );
    assert_eq!(apart(&ab, types[0], strings[0]), Ok([a.blob(), b.blob()]));
    let [types, strings] = [b.count(), b.strings.len() as u32];
    assert_eq!(apart(&bc, types, strings), Ok([b.blob(), c.blob()]));
}
