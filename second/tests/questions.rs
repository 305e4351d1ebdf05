//! Decided wordings about sizes, names and joins.

mod common;

use common::*;
use second::make::{put_word, Make};
use second::table::Kind;
use second::SizeAnswer::{Exact, NoSize, Overflow, Report21, Report22};
use second::{join, name, size, JoinRefusal, Report};

#[test]
fn exact_products() {
    let mut m = Make::new();
    m.int(1);
    m.array(1, 1, 0);
    m.array(2, 1, 65_536);
    m.array(3, 1, 65_536);
    assert_eq!(size_in(&m, 4), Exact(0));
    m.array(1, 1, u32::MAX);
    m.array(5, 1, u32::MAX);
    m.array(6, 1, 0);
    assert_eq!((size_in(&m, 6), size_in(&m, 7)), (Overflow, Exact(0)));
}

#[test]
fn the_end_decides_over_the_product() {
    // 2^32 of a type without size, and of a number past the index.
    let mut m = Make::new();
    m.int(4);
    m.array(4, 1, 65_536);
    m.array(2, 1, 65_536);
    m.proto(0, &[]);
    let blob = m.blob();
    let index = [0, 24, 40, 64, 88];
    assert_eq!(size(&blob, &index, 3), NoSize);
    assert_eq!(size(&blob, &index[..4], 3), Report21);
    // Nor do zero elements give a size to what has none.
    m.at(2).tail[2] = 0;
    assert_eq!(size(&m.blob(), &index, 2), NoSize);
}

#[test]
fn number_0_reads_nothing() {
    assert_eq!(size(&[], &[], 0), NoSize);
    assert_eq!(size(&[], &[], 1), Report22);
    assert_eq!(size(&[], &[24], 1), Report21);
    // Met on the way, too: with one place one record is read, then void.
    let mut m = Make::new();
    m.constant(0);
    assert_eq!(size(&m.blob(), &[0, 24], 1), NoSize);
}

#[test]
fn as_many_reads_as_places() {
    let mut m = Make::new();
    m.constant(2);
    m.constant(3);
    m.ptr(0);
    let blob = m.blob();
    assert_eq!(size(&blob, &[0, 24, 36, 48], 1), Exact(8));
    // Three places and two reads: a third is allowed, but its number is past
    // the index.
    assert_eq!(size(&blob, &[0, 24, 36], 1), Report21);
    // A false index can make a ring of a table that has none.
    assert_eq!(size(&blob, &[0, 24, 24], 1), Report22);
    let mut m = Make::new();
    m.constant(1);
    assert_eq!(size(&m.blob(), &[0, 24], 1), Report22);
}

#[test]
fn report_22_is_tested_before_21() {
    // An index of no places: the number is past it, but no read is allowed.
    let mut m = Make::new();
    m.ptr(0);
    assert_eq!(size(&m.blob(), &[], 1), Report22);
    assert_eq!(size(&m.blob(), &[], u32::MAX), Report22);
    assert_eq!(size(&m.blob(), &[24], u32::MAX), Report21);
}

#[test]
fn bytes_asked_by_the_size_question() {
    // An INT's tail is not asked for, an ARRAY's is; spare bits are not
    // judged; places need no alignment and may lie in the strings.
    let mut blob = vec![0xAA; 25];
    blob.extend([0; 4]);
    blob.extend([0xFF, 0xFF, 0xFF, 0xE1, 7, 0, 0, 0]);
    assert_eq!(size(&blob, &[0, 25], 1), Exact(7));
    assert_eq!(size(&blob[..36], &[0, 25], 1), Report21);
    let mut array = vec![0; 24];
    array.extend([0, 0, 0, 0, 0, 0, 0, 3, 0, 0, 0, 0]);
    array.extend([0, 0, 0, 0, 0, 0, 0, 0, 5, 0, 0, 0]);
    assert_eq!(size(&array, &[0, 24], 1), NoSize);
    assert_eq!(size(&array[..47], &[0, 24], 1), Report21);
    assert_eq!(size(&array, &[0, 23], 1), Report21);
    assert_eq!(size(&array, &[0, u32::MAX], 1), Report21);
}

#[test]
fn sizes_of_every_kind() {
    let mut m = Make::new();
    let n = m.string("n");
    m.bare(Kind::Fwd, n, 0, &[]);
    m.typedef(n, 0);
    m.bare(Kind::Float, 0, 12, &[]);
    m.union(9, false, &[]);
    m.var(n, 4);
    m.section(n, 20, &[]);
    m.tag(n, 5, u32::MAX);
    m.listed::<3>(Kind::Enum64, false, 0, 8, &[]);
    m.bare(Kind::TypeTag, n, 8, &[]);
    m.bare(Kind::Restrict, 0, 9, &[]);
    m.proto(0, &[]);
    m.func(n, 11);
    let sizes: Vec<_> = (1..=12).map(|k| size_in(&m, k)).collect();
    let first = [NoSize, NoSize, Exact(12), Exact(9), Exact(9), Exact(20)];
    assert_eq!(sizes[..6], first);
    assert_eq!(
        sizes[6..],
        [NoSize, Exact(8), Exact(8), Exact(8), NoSize, NoSize]
    );
}

#[test]
fn names() {
    let mut m = Make::new();
    m.string("abc");
    let mut blob = m.blob();
    assert_eq!(name(&blob, 0), (&b""[..], false));
    assert_eq!(name(&blob, 2), (&b"bc"[..], false));
    assert_eq!(name(&blob, 4), (&b""[..], false));
    assert_eq!(name(&blob, 5), (&b""[..], true));
    assert_eq!(name(&blob, u32::MAX), (&b""[..], true));
    // Only reports 1 to 5 take the names away.
    let mut unknown = m.clone();
    unknown.raw(0, 0, 0, &[]);
    assert_eq!(name(&unknown.blob(), 1), (&b"abc"[..], false));
    put_word(&mut blob, 4, 25);
    assert_eq!(name(&blob, 1), (&b""[..], true));
    assert_eq!(name(&[], 0), (&b""[..], true));
}

#[test]
fn joins_with_the_empty_table() {
    let e = Make::new().blob();
    let mut m = Make::new();
    let n = m.string("n");
    m.typedef(n, 2);
    m.int(4);
    let blob = m.blob();
    assert_eq!(joined(&e, &blob), blob);
    assert_eq!(joined(&blob, &e), blob);
    assert_eq!(joined(&e, &e), e);
}

#[test]
fn grounds_of_refusal() {
    let e = Make::new().blob();
    let mut m = Make::new();
    m.int(3);
    let bad = m.blob();
    let mut output = [165; 30];
    let mut call = |a: &[u8], b: &[u8], places: usize, bytes: usize| {
        let mut index = vec![9; places];
        let mut work = vec![9; places];
        let answer = join(a, b, &mut index, &mut work, &mut output[..bytes]);
        assert!(index.iter().chain(&work).all(|place| *place == 0));
        assert!(answer.is_ok() || output.iter().all(|byte| *byte == 165));
        answer
    };
    assert_eq!(
        call(&bad, &e, 5, 0),
        Err(JoinRefusal::First(Report::new(10, 1, 24)))
    );
    assert_eq!(
        call(&e, &bad, 5, 0),
        Err(JoinRefusal::Second(Report::new(10, 1, 24)))
    );
    assert_eq!(
        call(&bad, &bad[..3], 5, 0),
        Err(JoinRefusal::First(Report::new(10, 1, 24)))
    );
    assert_eq!(
        call(&e, &bad, 1, 0),
        Err(JoinRefusal::Second(Report::bare(9)))
    );
    assert_eq!(call(&e, &e, 0, 0), Err(JoinRefusal::First(Report::bare(9))));
    assert_eq!(call(&e, &e, 1, 24), Err(JoinRefusal::OutputTooShort));
    assert_eq!(call(&e, &e, 1, 25), Ok(25));
}

#[test]
fn limits_of_a_join() {
    let pointers = |count| {
        let mut m = Make::new();
        (0..count).for_each(|_| {
            m.ptr(0);
        });
        m.blob()
    };
    let call = |a: &[u8], b: &[u8], bytes: usize| {
        let mut output = vec![165; bytes];
        join(a, b, &mut [9; 16_385], &mut [9; 16_385], &mut output)
    };
    let full = pointers(16_384);
    assert_eq!(call(&full, &pointers(1), 0), Err(JoinRefusal::TooManyTypes));
    assert_eq!(call(&full, &pointers(0), 262_144), Ok(full.len()));
    let mut m = Make::new();
    m.string(vec![b'a'; 262_144 - 24 - 2]);
    assert_eq!(m.blob().len(), 262_144);
    assert_eq!(call(&m.blob(), &pointers(0), 262_144), Ok(262_144));
    assert_eq!(
        call(&m.blob(), &pointers(0), 262_143),
        Err(JoinRefusal::OutputTooShort)
    );
    let mut one = Make::new();
    one.string("");
    assert_eq!(call(&m.blob(), &one.blob(), 0), Err(JoinRefusal::TooLong));
}
