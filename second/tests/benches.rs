//! Paper 01's benches with known readings.

mod common;

use common::*;
use second::make::{field, info, put_word, Make};
use second::table::Kind;
use second::{join, SizeAnswer};

const E: [u8; 25] = [
    0x9F, 0xEB, 0x01, 0x00, 0x18, 0, 0, 0, 0, 0, 0, 0, 0, 0, 0, 0, 0, 0, 0, 0, 1, 0, 0, 0, 0,
];

fn t() -> Vec<u8> {
    let mut blob = vec![0x9F, 0xEB, 0x01, 0x00, 0x18, 0, 0, 0, 0, 0, 0, 0];
    blob.extend([16, 0, 0, 0, 16, 0, 0, 0, 3, 0, 0, 0]);
    blob.extend([1, 0, 0, 0, 0, 0, 0, 1, 2, 0, 0, 0, 0x10, 0, 0, 1]);
    blob.extend([0, 0x74, 0]);
    blob
}

#[test]
fn empty_table() {
    assert_eq!(gate(&E), Ok(0));
    assert_eq!(Make::new().blob(), E);
}

#[test]
fn empty_table_damaged() {
    let mut flags = E;
    flags[3] = 1;
    assert_eq!(gate(&flags), refused(2, 0, 0));
    assert_eq!(gate(&E[..23]), refused(1, 0, 0));
    let mut short = E[..24].to_vec();
    short[20] = 0;
    assert_eq!(gate(&short), refused(5, 0, 0));
}

#[test]
fn t_is_accepted() {
    let blob = t();
    assert_eq!(blob.len(), 43);
    let mut index = [7; 4];
    let mut work = [7; 2];
    assert_eq!(second::check(&blob, &mut index, &mut work), Ok(1));
    assert_eq!(index, [0, 24, 0, 0]);
    assert_eq!(work, [0, 0]);
    assert_eq!(second::size(&blob, &index[..2], 1), SizeAnswer::Exact(2));
}

#[test]
fn t_damaged() {
    let mut wide = t();
    wide[36] = 17;
    assert_eq!(gate(&wide), refused(12, 1, 24));
    let mut unknown = t();
    unknown[31] = 20;
    assert_eq!(gate(&unknown), refused(7, 1, 24));
}

#[test]
fn rings() {
    let mut m = Make::new();
    m.constant(1);
    assert_eq!(gate(&m.blob()), refused(14, 1, 24));
    let mut m = Make::new();
    m.ptr(1);
    assert_eq!(gate(&m.blob()), refused(14, 1, 24));
    // The size question follows no pointer and trusts nobody.
    assert_eq!(second::size(&m.blob(), &[0, 24], 1), SizeAnswer::Exact(8));
    let mut m = Make::new();
    let name = m.string("s");
    m.constant(2);
    m.structure(8, false, &[[name, 2, 0]]);
    assert_eq!(gate(&m.blob()), refused(14, 1, 24));
}

#[test]
fn t_joined_to_t() {
    let mut index = [7; 2];
    let mut work = [7; 2];
    let mut output = [165; 64];
    assert_eq!(join(&t(), &t(), &mut index, &mut work, &mut output), Ok(61));
    assert_eq!((index, work), ([0, 0], [0, 0]));
    assert_eq!(output[40..44], [3, 0, 0, 0]);
    assert_eq!(output[56..61], [0, 0x74, 0, 0x74, 0]);
    assert_eq!(output[61..], [165, 165, 165]);
    assert_eq!(gate(&output[..61]), Ok(2));
}

#[test]
fn bit_field_of_the_page() {
    for (bytes, wanted) in [(14, Ok(2)), (13, refused(15, 2, 40))] {
        let mut m = Make::new();
        let name = m.string("f");
        m.odd_int(4, 2, 4);
        m.structure(bytes, false, &[[name, 1, 100]]);
        assert_eq!(gate(&m.blob()), wanted);
    }
}

#[test]
fn arrays_of_arrays() {
    let mut m = Make::new();
    m.int(4);
    let inner = m.array(1, 1, 6);
    let outer = m.array(inner, 1, 5);
    assert_eq!(gate(&m.blob()), Ok(3));
    assert_eq!(size_in(&m, inner), SizeAnswer::Exact(24));
    assert_eq!(size_in(&m, outer), SizeAnswer::Exact(120));
}

#[test]
fn large_products() {
    let mut m = Make::new();
    m.int(1);
    let a = m.array(1, 1, 65_537);
    let b = m.array(a, 1, 65_535);
    let c = m.array(1, 1, 65_536);
    let d = m.array(c, 1, 65_536);
    assert_eq!(gate(&m.blob()), Ok(5));
    assert_eq!(size_in(&m, b), SizeAnswer::Exact(4_294_967_295));
    assert_eq!(size_in(&m, d), SizeAnswer::Overflow);
}

#[test]
fn most_types() {
    let mut m = Make::new();
    for _ in 0..16_384 {
        m.ptr(0);
    }
    assert_eq!(gate(&m.blob()), Ok(16_384));
    m.ptr(0);
    assert_eq!(gate(&m.blob()), refused(8, 16_385, 196_632));
    // The bytes that remain are not read: an unknown kind there is 8 too.
    m.at(16_385).info = 0;
    assert_eq!(gate(&m.blob()), refused(8, 16_385, 196_632));
}

#[test]
fn sixteen_byte_records_past_the_byte_limit() {
    let mut m = Make::new();
    for _ in 0..16_385 {
        m.int(4);
    }
    assert_eq!(gate(&m.blob()), refused(1, 0, 0));
}

#[test]
fn slip_sum_wraps() {
    // type_len + str_len is 2^32 more than it should be.
    let mut blob = E.to_vec();
    put_word(&mut blob, 12, 0xFFFF_FFF0);
    put_word(&mut blob, 16, 0xFFFF_FFF0);
    put_word(&mut blob, 20, 17);
    assert_eq!(gate(&blob), refused(4, 0, 0));
}

#[test]
fn slip_zero_is_not_raised() {
    let mut m = Make::new();
    m.ptr(0);
    let name = m.string("n");
    m.typedef(name, 1);
    let joined = joined(&m.blob(), &m.blob());
    let words: Vec<u32> = second::vectors::places(&joined[24..24 + 48]);
    assert_eq!(words[6..9], [0, info(Kind::Ptr, false, 0), 0]);
    // Raised by the string length 3 less the shared zero byte.
    assert_eq!(words[9..12], [3, info(Kind::Typedef, false, 0), 3]);
    assert_eq!(joined[72..], *b"\0n\0n\0");
}

#[test]
fn slip_struct_with_pointer_to_itself() {
    let mut m = Make::new();
    let name = m.string("next");
    m.structure(8, false, &[[name, 2, 0]]);
    m.ptr(1);
    assert_eq!(gate(&m.blob()), Ok(2));
}

#[test]
fn slip_component_is_no_type_number() {
    let mut m = Make::new();
    let name = m.string("x");
    m.int(4);
    m.structure(4, true, &[[name, 1, field(0, 0)]]);
    m.tag(name, 2, 0);
    // Component 0 is the one member though type 0 is void; 1 is too much
    // though type 1 exists.
    assert_eq!(gate(&m.blob()), Ok(3));
    let blob = joined(&m.blob(), &m.blob());
    assert_eq!(second::make::word_at(&blob, blob.len() - 5 - 4), 0);
    m.at(3).tail[0] = 1;
    assert_eq!(gate(&m.blob()), refused(15, 3, 64));
}
