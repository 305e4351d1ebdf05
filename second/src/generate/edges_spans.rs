//! Every span that a member can be read from, without chance: each width from
//! 1 to 128 at each start bit, signed and not.

use crate::generate::edges::Part;
use crate::generate::edges_records::ask;
use crate::generate::random::Random;
use crate::make::{field, info, int_word, Make};
use crate::table::Kind;
use crate::vectors::Case;

pub const PARTS: &[Part] = &[
    ("int-spans", |found, thin| {
        every_span(found, thin, with_ints, &[0, 1])
    }),
    ("field-spans", |found, thin| {
        every_span(found, thin, with_fields, &[2, 3])
    }),
];

/// A span, and whether the type that it is read by is signed.
#[derive(Clone, Copy)]
struct Sought {
    first: u32,
    width: u32,
    signed: bool,
}

impl Sought {
    /// The least size that holds a span of the width.
    fn least_bytes(&self) -> u32 {
        self.width.div_ceil(8).next_power_of_two()
    }

    /// A struct that ends with the byte that the span ends in.
    fn holder_bytes(&self) -> u32 {
        (self.first + self.width).div_ceil(8)
    }
}

/// Every one, in the tables that have it. Thinned, each span is in one of its
/// tables, with the records of these numbers only.
fn every_span(found: &mut Vec<Case>, thin: bool, tables: fn(Sought) -> Vec<Make>, few: &[usize]) {
    for sought in all_sought() {
        let mut tables = tables(sought);
        let mut records = records_of(sought).to_vec();
        if thin {
            let one = (sought.first + sought.width) as usize % tables.len();
            tables = vec![tables[one].clone()];
            records = few.iter().map(|which| records[*which].clone()).collect();
        }
        for m in &tables {
            records.iter().for_each(|b| ask(found, m, 2, 0, b));
        }
    }
}

/// Spans that begin in one of the record's first three bytes.
fn all_sought() -> Vec<Sought> {
    let mut found = Vec::new();
    for width in 1..=128 {
        for start in 0..8 {
            let first = start + 8 * (width % 3);
            found.extend([false, true].map(|signed| Sought {
                first,
                width,
                signed,
            }));
        }
    }
    found
}

/// The span's bits alone, the others alone, the top bit alone, bits without
/// order, and all.
fn records_of(sought: Sought) -> [Vec<u8>; 5] {
    let end = sought.first + sought.width;
    let inside = |bit: u32| bit >= sought.first && bit < end;
    let mut r = Random::new(u64::from(1_000 * sought.first + sought.width));
    let bytes = sought.holder_bytes();
    [
        with_bits(bytes, inside),
        with_bits(bytes, |bit| !inside(bit)),
        with_bits(bytes, |bit| bit == end - 1),
        with_bits(bytes, |_| r.one_in(2)),
        with_bits(bytes, |_| true),
    ]
}

/// A record of so many bytes with the bits that pass a test.
pub fn with_bits(bytes: u32, mut is_set: impl FnMut(u32) -> bool) -> Vec<u8> {
    let mut record = vec![0; bytes as usize];
    for bit in 0..8 * bytes {
        if is_set(bit) {
            record[bit as usize / 8] |= 1 << (bit % 8);
        }
    }
    record
}

/// Without kind_flag: the first bit is the member's offset, the INT's as far as
/// that can be, or of both.
fn with_ints(sought: Sought) -> Vec<Make> {
    let least = sought.least_bytes();
    let room = |bytes: u32| (8 * bytes - sought.width).min(sought.first);
    let shapes = [(16, 0), (16, room(16)), (least, room(least))];
    let tables = shapes.map(|(bytes, offset)| {
        let mut m = Make::new();
        let word = int_word(u32::from(sought.signed), offset, sought.width);
        m.bare(Kind::Int, 0, bytes, &[word]);
        let member = [0, 1, sought.first - offset];
        m.structure(sought.holder_bytes(), false, &[member]);
        m
    });
    tables.to_vec()
}

/// With kind_flag: fields of INTs that are as wide as their size or narrower,
/// and of enums, up to 64 bits.
fn with_fields(sought: Sought) -> Vec<Make> {
    let least = sought.least_bytes();
    let int = |bytes, width| {
        let word = int_word(u32::from(sought.signed), 0, width);
        (info(Kind::Int, false, 0), bytes, vec![word])
    };
    let an_enum = |kind| (info(kind, sought.signed, 0), least, Vec::new());
    let mut bases = vec![int(16, 128), int(least, 8 * least), int(16, 8)];
    if sought.width <= 64 {
        bases.extend([an_enum(Kind::Enum), an_enum(Kind::Enum64)]);
    }
    let table = |(info, bytes, tail): (u32, u32, Vec<u32>)| {
        let mut m = Make::new();
        m.raw(0, info, bytes, &tail);
        let member = [0, 1, field(sought.width, sought.first)];
        m.structure(sought.holder_bytes(), true, &[member]);
        m
    };
    bases.into_iter().map(table).collect()
}
