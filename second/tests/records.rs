//! Reading a member of a record, order 3, by hand.

use second::generate::turn::turned;
use second::make::{field, info, int_word, Make};
use second::members::Span;
use second::record::{read_checked, ReadRefusal, Reading, Value};
use second::table::Kind;
use second::vectors::{numbers_of, run, sum, Case, MEMBER};
use second::{read_member, Report};

/// Reads with nine places lent.
fn asked(m: &Make, number: u32, member: u32, record: &[u8]) -> Result<Reading, ReadRefusal> {
    read_member(&m.blob(), &mut [9; 9], &mut [9; 9], number, member, record)
}

fn refusal(m: &Make, number: u32, member: u32, record: &[u8]) -> u32 {
    let refused = asked(m, number, member, record).expect_err("refused");
    refused.number()
}

/// The only member of a struct, which is the last type of its table.
fn only(m: &Make, record: &[u8]) -> Reading {
    asked(m, m.count(), 0, record).expect("read")
}

/// A struct of one INT.
fn of_int(bytes: u32, word: u32, size: u32, offset: u32) -> Make {
    let mut m = Make::new();
    m.bare(Kind::Int, 0, bytes, &[word]);
    m.structure(size, false, &[[0, 1, offset]]);
    m
}

/// A bit field of a type that is alone in its table, or a whole member of it.
fn of_field(kind: Kind, flag: bool, bytes: u32, tail: &[u32], word: u32) -> Make {
    let mut m = Make::new();
    m.raw(0, info(kind, flag, 0), bytes, tail);
    m.structure(32, true, &[[0, 1, word]]);
    m
}

#[test]
fn the_papers_sixteen_bits() {
    let span = Span { first: 0, bits: 16 };
    for (encoding, value) in [
        (0, Value::Unsigned(35_536)),
        (1, Value::Signed(-30_000)),
        (2, Value::Unsigned(35_536)),
        (4, Value::Unsigned(35_536)),
    ] {
        let m = of_int(2, int_word(encoding, 0, 16), 2, 0);
        assert_eq!(only(&m, &[0xD0, 0x8A]), Reading { span, value });
    }
    for kind in [Kind::Enum, Kind::Enum64] {
        for (flag, value) in [
            (false, Value::Unsigned(35_536)),
            (true, Value::Signed(-30_000)),
        ] {
            let mut m = Make::new();
            m.raw(0, info(kind, flag, 0), 2, &[]);
            m.union(2, false, &[[0, 1, 0]]);
            assert_eq!(only(&m, &[0xD0, 0x8A, 0xFF]), Reading { span, value });
        }
    }
}

/// The page's bit field: offset 100, INT offset 2, width 4.
#[test]
fn the_pages_bit_field() {
    let m = of_int(4, int_word(0, 2, 4), 14, 100);
    let mut record = [0xFF; 14];
    record[12] = 0x40;
    record[13] = 0x02;
    let reading = only(&m, &record);
    assert_eq!(
        reading.span,
        Span {
            first: 102,
            bits: 4
        }
    );
    assert_eq!(reading.value, Value::Unsigned(0b1001));
    let signed = of_int(4, int_word(1, 2, 4), 14, 100);
    assert_eq!(only(&signed, &record).value, Value::Signed(-7));
}

#[test]
fn one_bit_and_sixty_four() {
    let bit = |encoding| of_int(1, int_word(encoding, 7, 1), 1, 0);
    assert_eq!(only(&bit(0), &[0x80]).value, Value::Unsigned(1));
    assert_eq!(only(&bit(1), &[0x80]).value, Value::Signed(-1));
    assert_eq!(only(&bit(1), &[0x7F]).value, Value::Signed(0));
    let wide = |encoding| of_int(8, int_word(encoding, 0, 64), 9, 3);
    let record = [0, 0, 0, 0, 0, 0, 0, 0, 4];
    assert_eq!(only(&wide(0), &record).value, Value::Unsigned(1 << 63));
    assert_eq!(only(&wide(1), &record).value, Value::Signed(i64::MIN));
    assert_eq!(only(&wide(0), &[0xFF; 9]).value, Value::Unsigned(u64::MAX));
    assert_eq!(only(&wide(1), &[0xFF; 9]).value, Value::Signed(-1));
}

#[test]
fn longer_spans_are_filled() {
    let of = |encoding, width| of_int(16, int_word(encoding, 0, width), 17, 0);
    let mut record = [0; 17];
    record[0] = 5;
    record[8] = 1;
    let mut bytes = [0; 16];
    bytes[0] = 5;
    bytes[8] = 1;
    assert_eq!(only(&of(0, 65), &record).value, Value::Longer(bytes));
    bytes[8..].fill(0xFF);
    assert_eq!(only(&of(1, 65), &record).value, Value::Longer(bytes));
    // With 128 bits there is nothing to fill, whatever the sign.
    for encoding in [0, 1] {
        let reading = only(&of(encoding, 128), &[0xFF; 17]);
        assert_eq!(reading.value, Value::Longer([0xFF; 16]));
        assert_eq!(
            reading.span,
            Span {
                first: 0,
                bits: 128
            }
        );
    }
    assert_eq!(
        only(&of(1, 64), &record).value,
        Value::Signed(5),
        "64 bits are not longer"
    );
}

/// A field's sign is its own top bit; a width of 0 is the whole size, also of
/// an INT that is narrower.
#[test]
fn fields() {
    let signed = of_field(Kind::Int, false, 4, &[int_word(1, 0, 32)], field(3, 6));
    assert_eq!(only(&signed, &[0; 32]).span, Span { first: 6, bits: 3 });
    let with = |m: &Make, low: [u8; 2]| {
        let mut record = [0; 32];
        record[..2].copy_from_slice(&low);
        only(m, &record).value
    };
    assert_eq!(with(&signed, [0x3F, 0xFE]), Value::Signed(0));
    assert_eq!(with(&signed, [0x40, 0x01]), Value::Signed(-3));
    assert_eq!(with(&signed, [0xC0, 0x00]), Value::Signed(3));
    let an_enum = |flag| of_field(Kind::Enum, flag, 1, &[], field(3, 6));
    assert_eq!(with(&an_enum(true), [0x40, 0x01]), Value::Signed(-3));
    assert_eq!(with(&an_enum(false), [0x40, 0x01]), Value::Unsigned(5));
    let narrow = |word| of_field(Kind::Int, false, 2, &[int_word(1, 0, 8)], word);
    assert_eq!(with(&narrow(field(0, 0)), [0x80, 0x00]), Value::Signed(128));
    assert_eq!(
        with(&narrow(field(0, 0)), [0x00, 0x80]),
        Value::Signed(-32_768)
    );
    assert_eq!(
        with(&narrow(field(9, 0)), [0x80, 0x01]),
        Value::Signed(-128)
    );
}

/// An INT, a struct of it and of a pointer, and a TYPEDEF of the struct.
fn several() -> Make {
    let mut m = Make::new();
    let name = m.string("n");
    m.int(4);
    m.ptr(0);
    let of_int = m.typedef(name, 1);
    let of_pointer = m.typedef(name, 2);
    let members = [
        [0, 1, 0],
        [0, 2, 64],
        [0, of_int, 128],
        [0, of_pointer, 192],
    ];
    let holder = m.structure(32, false, &members);
    m.typedef(name, holder);
    m.union(0, false, &[]);
    m
}

#[test]
fn refusals_in_order() {
    let m = several();
    let whole = [7; 32];
    assert_eq!(m.count(), 7);
    for (number, member, record, answer) in [
        (8, 0, &whole[..], 21),
        (u32::MAX, 9, &[], 21),
        (0, 0, &whole, 31),
        (1, 0, &whole, 31),
        (6, 0, &whole, 31),
        (6, 9, &[], 31),
        (5, 0, &whole[..31], 30),
        (5, 1, &whole[..31], 30),
        (5, 4, &[], 30),
        (5, 4, &whole, 32),
        (5, u32::MAX, &whole, 32),
        (7, 0, &[], 32),
        (5, 1, &whole, 33),
        (5, 3, &whole, 33),
    ] {
        assert_eq!(
            refusal(&m, number, member, record),
            answer,
            "{number} {member}"
        );
    }
    let read = Reading {
        span: Span {
            first: 128,
            bits: 32,
        },
        value: Value::Unsigned(0x0707_0707),
    };
    assert_eq!(asked(&m, 5, 2, &whole), Ok(read));
    assert_eq!(asked(&m, 5, 2, &[7; 40]), Ok(read));
}

/// 34 before 35 before 21, and how the slices end after each.
#[test]
fn refused_and_big_endian_tables() {
    let good = several().blob();
    let big = turned(&good);
    let mut bad = several();
    bad.at(1).third = 3;
    let bad = bad.blob();
    let report = Report::new(10, 1, 24);
    for (blob, answer) in [
        (&good, ReadRefusal::NoSuchType),
        (&big, ReadRefusal::BigEndian),
        (&bad, ReadRefusal::Table(report)),
        (&turned(&bad), ReadRefusal::Table(report)),
    ] {
        let (mut index, mut work) = ([9; 10], [9; 8]);
        assert_eq!(
            read_member(blob, &mut index, &mut work, 8, 0, &[]),
            Err(answer)
        );
        let filled = [0, 24, 40, 52, 64, 76, 136, 148, 0, 0];
        let is_34 = answer.number() == 34;
        assert_eq!(index, if is_34 { [0; 10] } else { filled });
        assert_eq!(work, [0; 8]);
    }
    let nine = ReadRefusal::Table(Report::bare(9));
    let few = read_member(&good, &mut [9; 7], &mut [9; 8], 5, 0, &[7; 32]);
    assert_eq!(few, Err(nine));
    assert_eq!(nine.inner(), Some(Report::bare(9)));
}

/// A bit past 2^32 needs a record that no test can lend; its span is told.
#[test]
fn a_first_bit_may_pass_32_bits() {
    let m = of_int(16, int_word(1, 100, 28), 1 << 30, u32::MAX);
    let table = second::check::judge(&m.blob(), 3, 3).expect("accepted");
    let holder = table.record(2).expect("the struct");
    let span = second::members::span(&table, holder, holder.entries()[0]);
    let first = (1 << 32) + 99;
    assert_eq!(span, Some(Span { first, bits: 28 }));
    assert_eq!(
        read_checked(&table, 2, 0, &[0; 99]),
        Err(ReadRefusal::RecordTooShort)
    );
}

#[test]
fn what_a_vector_says() {
    let case = |blob: Vec<u8>, b: &[u8]| Case {
        op: MEMBER,
        index_places: 3,
        work_places: 4,
        x: 2,
        a: blob,
        b: b.to_vec(),
        ..Case::default()
    };
    let places = |list: &[u8]| sum(&list.iter().flat_map(|p| [*p, 0, 0, 0]).collect::<Vec<u8>>());
    let (index, work) = (places(&[0, 24, 40]), places(&[0; 4]));
    let m = of_int(2, int_word(1, 0, 16), 3, 8);
    let mut value = [0xFF; 16];
    value[..2].copy_from_slice(&[0xD0, 0x8A]);
    assert_eq!(
        numbers_of(&run(&case(m.blob(), &[0, 0xD0, 0x8A]))),
        [1, 0, 8, 16, index, work, sum(&value)]
    );
    let zeros = sum(&[0; 16]);
    assert_eq!(
        numbers_of(&run(&case(m.blob(), &[0, 0xD0]))),
        [30, 0, 0, 0, index, work, zeros]
    );
    let mut bad = m;
    bad.at(2).third = 2;
    assert_eq!(
        numbers_of(&run(&case(bad.blob(), &[0, 0xD0, 0x8A]))),
        [34, 15, 2, 40, places(&[0; 3]), work, zeros]
    );
}
