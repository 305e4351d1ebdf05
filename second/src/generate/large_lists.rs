//! Lists at the limits, without chance: bodies around what one field and two
//! fields hold, what is carried on wrongly, and tables at both limits.

use crate::generate::fields::{ask_list, ask_table, fields_of, list_of, written, Field};
use crate::generate::large::{padded, pointers};
use crate::generate::turn::turned_case;
use crate::limits::{BYTE_LIMIT, FULL_PLACES, TYPE_LIMIT};
use crate::list::{put_body, CARRY, FULL_BODY};
use crate::make::Make;
use crate::table::Kind;
use crate::vectors::{Case, MOST_BYTES};

/// All of them, in both orders. Thinned: one body that is just full, read and
/// written, one that ends where it should be carried on, and a record in two
/// fields, a word of which lies in both.
pub fn cases(thin: bool) -> Vec<Case> {
    let mut found = Vec::new();
    if thin {
        let m = texts(FULL_BODY);
        there_and_back(&mut found, &m);
        found.push(turned_case(&read(written(&fields_of(&m)[..1]), &m)));
        let m = with_entries(Kind::Enum, [1, 1], 8_191);
        found.push(turned_case(&read(list_of(&m), &m)));
        return found;
    }
    full_strings(&mut found);
    full_records(&mut found);
    carried(&mut found);
    limits(&mut found);
    found.extend(found.clone().iter().map(turned_case));
    found
}

/// No types, and empty strings of so many bytes.
fn texts(bytes: usize) -> Make {
    let strings = vec![0; bytes];
    let records = Vec::new();
    Make { records, strings }
}

/// A list that is said to be the table's, with just as many bytes as that has.
fn read(list: Vec<u8>, m: &Make) -> Case {
    let bytes = m.blob().len() as u32;
    let places = m.count() + 1;
    ask_table(list, (places, places), [bytes, bytes])
}

fn there_and_back(found: &mut Vec<Case>, m: &Make) {
    let list = list_of(m);
    let places = m.count() + 1;
    found.push(ask_list(m.blob(), (places, places), list.len() as u32));
    found.push(ask_list(m.blob(), (places, places), list.len() as u32 - 1));
    if list.len() <= MOST_BYTES as usize {
        found.push(read(list, m));
    }
}

/// Strings of what so many fields hold, one byte more and one less, with a
/// record behind them and without.
fn full_strings(found: &mut Vec<Case>) {
    for fields in 1..=4 {
        for bytes in [-1, 0, 1].map(|more| fields * FULL_BODY as i32 + more) {
            let mut m = texts(bytes as usize);
            there_and_back(found, &m);
            m.ptr(0);
            there_and_back(found, &m);
        }
    }
}

/// Records of each kind with entries, just below what so many fields hold and
/// just above it, with a record behind them.
fn full_records(found: &mut Vec<Case>) {
    for fields in 1..=3 {
        let bytes = fields * FULL_BODY - 12;
        for more in [0, 1] {
            for kind in [Kind::Enum, Kind::FuncProto] {
                there_and_back(found, &with_entries(kind, [1, 1], bytes / 8 + more));
            }
            for kind in [Kind::Struct, Kind::Union, Kind::Enum64] {
                there_and_back(found, &with_entries(kind, [1, 1, 0], bytes / 12 + more));
            }
        }
    }
}

fn with_entries<const W: usize>(kind: Kind, entry: [u32; W], count: usize) -> Make {
    let mut m = Make::new();
    m.string("n");
    let third = m.int(4);
    let third = if kind == Kind::FuncProto { third } else { 4 };
    m.listed(kind, false, 0, third, &vec![entry; count]);
    m.ptr(2);
    m
}

/// What stands behind a full field: of strings and of a record.
fn carried(found: &mut Vec<Case>) {
    let enumeration = with_entries(Kind::Enum, [1, 1], 8_191);
    for (m, at) in [(texts(FULL_BODY), 1), (enumeration, 3)] {
        let fields = fields_of(&m);
        let front = &fields[..at];
        let whole = written(&fields[..=at]);
        let mut add = |more: &[Field]| {
            let list = written(&[front, more].concat());
            found.push(read(list, &m));
        };
        let rest = &fields[at].bytes;
        for tag in [0, 1, 2, 6, 19, 20, 32, 33, 126, CARRY, 128, 255] {
            add(&[Field::new(tag, rest)]);
            add(&[Field::new(tag, &[])]);
            add(&[Field::new(CARRY, rest), Field::new(tag, &[])]);
        }
        let full = Field::new(CARRY, &[0; FULL_BODY]);
        add(&[full.clone()]);
        add(&[full.clone(), Field::new(CARRY, &[])]);
        add(&[full, Field::new(2, &[])]);
        for length in written(front).len()..whole.len() {
            found.push(read(whole[..length].to_vec(), &m));
        }
    }
    // A record's body that is just full is none, with the field it is due.
    let mut list = vec![32, 1, 0, 0];
    put_body(&mut list, 2, &[0; FULL_BODY]);
    let short = list[..list.len() - 3].to_vec();
    for list in [list, short] {
        found.push(ask_table(list, (9, 9), [70_000, 70_000]));
    }
}

/// Types and bytes at the limit and one past it, with slices of full size and
/// longer ones; a record of just four full fields, which no table has room for.
fn limits(found: &mut Vec<Case>) {
    for types in [TYPE_LIMIT, TYPE_LIMIT + 1] {
        there_and_back(found, &pointers(types));
    }
    for bytes in [BYTE_LIMIT - 1, BYTE_LIMIT, BYTE_LIMIT + 1] {
        let m = texts(bytes as usize - 24);
        there_and_back(found, &m);
        let list = list_of(&m);
        for lent in [[BYTE_LIMIT; 2], [BYTE_LIMIT, MOST_BYTES], [MOST_BYTES; 2]] {
            found.push(ask_table(list.clone(), (1, 1), lent));
        }
    }
    let both = padded(&pointers(TYPE_LIMIT), BYTE_LIMIT as usize);
    let places = (FULL_PLACES, FULL_PLACES);
    found.push(ask_list(both, places, MOST_BYTES));
    let four = with_entries(Kind::Enum64, [1, 1, 0], 21_844);
    there_and_back(found, &four);
    found.push(ask_table(list_of(&four), (4, 4), [BYTE_LIMIT; 2]));
}
