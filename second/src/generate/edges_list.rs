//! Lists read at the edges of what a list is, without chance: every tag in each
//! place, every cut, every kind under every tag, each order of fields.

use crate::generate::edges::{each_kind, one_of, Part};
use crate::generate::edges_joins::second_tables;
use crate::generate::fields::{ask_table, fields_of, list_of, record_bytes, written, Field};
use crate::list::CARRY;
use crate::make::Make;
use crate::table::Kind;
use crate::vectors::Case;

pub const PARTS: &[Part] = &[
    ("list-tags", tags),
    ("list-cut", cut),
    ("list-places", |found, _| places(found)),
    ("list-kinds", |found, _| each_kind(found, kinds)),
    ("list-bodies", |found, _| each_kind(found, bodies)),
    ("list-heads", |found, _| each_kind(found, heads)),
    ("list-lengths", |found, _| lengths(found)),
    ("list-faults", |found, _| faults(found)),
    ("list-tables", |found, _| tables(found)),
];

/// A list with more than enough of everything.
fn add(found: &mut Vec<Case>, list: Vec<u8>) {
    found.push(ask_table(list, (9, 9), [250, 250]));
}

fn add_fields(found: &mut Vec<Case>, fields: &[Field]) {
    add(found, written(fields));
}

/// A pointer to void.
fn pointer() -> Field {
    Field::new(2, &[0, 0, 0, 0, 0, 0, 0, 2, 0, 0, 0, 0])
}

fn strings(tag: u8) -> Field {
    Field::new(tag, &[0])
}

/// Every tag in front, behind the strings and behind a record: empty and alone;
/// if not thinned, with its length cut off and with a record's bytes too.
fn tags(found: &mut Vec<Case>, thin: bool) {
    let mut add = |list| found.push(ask_table(list, (3, 3), [60, 60]));
    for tag in 0..=255 {
        let empty = written(&[Field::new(tag, &[])]);
        let whole = written(&[Field::new(tag, &pointer().bytes)]);
        let mut pieces = vec![&empty[..], &empty[..1]];
        if !thin {
            pieces.extend([&empty[..2], &whole, &whole[..14]]);
        }
        for front in [vec![], vec![strings(32)], vec![strings(32), pointer()]] {
            let start = written(&front);
            pieces
                .iter()
                .for_each(|piece| add([&start, *piece].concat()));
        }
    }
}

/// A record of every kind in turn, the list cut at each place.
fn cut(found: &mut Vec<Case>, thin: bool) {
    each_kind(found, |found, kind| {
        let list = list_of(&one_of(kind));
        let before = list.len() - 3 - record_bytes(&one_of(kind).records[4]).len();
        for length in before..list.len() {
            add(found, list[..length].to_vec());
        }
    });
    let tables = second_tables();
    for m in &tables[..if thin { 1 } else { tables.len() }] {
        let list = list_of(m);
        for length in 0..=list.len() {
            add(found, list[..length].to_vec());
        }
    }
}

/// Every row of up to four fields of four sorts: either order's strings, a
/// record, and what carries on.
fn places(found: &mut Vec<Case>) {
    let sorts = [strings(32), strings(33), pointer(), Field::new(CARRY, &[])];
    let mut rows: Vec<Vec<Field>> = vec![vec![]];
    let mut last = rows.clone();
    for _ in 0..4 {
        let longer = |row: &Vec<Field>| {
            let next = sorts
                .iter()
                .map(|sort| [&row[..], &[sort.clone()]].concat());
            next.collect::<Vec<Vec<Field>>>()
        };
        last = last.iter().flat_map(longer).collect();
        rows.extend(last.clone());
    }
    for row in rows {
        add_fields(found, &row);
    }
}

/// A record of the kind under every tag that a record can have.
fn kinds(found: &mut Vec<Case>, kind: Kind) {
    let fields = fields_of(&one_of(kind));
    for tag in 1..=19 {
        let mut other = fields.clone();
        other[5].tag = tag;
        add_fields(found, &other);
    }
}

/// Its body a few bytes shorter and longer, empty, in two fields, twice in one,
/// and carried on by nothing.
fn bodies(found: &mut Vec<Case>, kind: Kind) {
    let fields = fields_of(&one_of(kind));
    let body = fields[5].bytes.clone();
    let twice = [&body[..], &body].concat();
    for length in (0..=16).chain(body.len() - 8..=body.len() + 12) {
        let mut other = fields.clone();
        other[5].bytes = twice[..length.min(twice.len())].to_vec();
        add_fields(found, &other);
    }
    for half in [0, 4, 12, body.len()] {
        for tag in [CARRY, kind as u8] {
            let mut other = fields.clone();
            other[5].bytes.truncate(half);
            other.push(Field::new(tag, &body[half..]));
            add_fields(found, &other);
        }
    }
}

/// Every bit of its info word turned, under its own tag: another kind, another
/// vlen, or what the table's report says.
fn heads(found: &mut Vec<Case>, kind: Kind) {
    for bit in 0..32 {
        let mut fields = fields_of(&one_of(kind));
        fields[5].bytes[4 + bit / 8] ^= 1 << (bit % 8);
        add_fields(found, &fields);
    }
}

/// The length of each field a little and a lot off.
fn lengths(found: &mut Vec<Case>) {
    for kind in [Kind::Ptr, Kind::Struct] {
        let fields = fields_of(&one_of(kind));
        for at in 0..fields.len() {
            let front = written(&fields[..at]).len();
            for shift in [
                1u16,
                2,
                4,
                12,
                255,
                256,
                257,
                0x8000,
                u16::MAX,
                u16::MAX - 3,
            ] {
                let mut list = written(&fields);
                let length = (fields[at].bytes.len() as u16).wrapping_add(shift);
                list[front + 1..front + 3].copy_from_slice(&length.to_le_bytes());
                add(found, list);
            }
        }
    }
}

/// Each sort of fault before each other, behind the strings and in front.
fn faults(found: &mut Vec<Case>) {
    let bad = [
        written(&[Field::new(20, &[])]),
        vec![20, 9],
        vec![4, 255, 255],
        vec![32, 255, 255],
        vec![CARRY, 255, 255],
        written(&[strings(32)]),
        written(&[strings(33)]),
        written(&[Field::new(CARRY, &[0])]),
        written(&[Field::new(3, &pointer().bytes)]),
        written(&[Field::new(2, &[])]),
    ];
    for first in &bad {
        for second in &bad {
            add(found, [&first[..], second].concat());
            let start = written(&[strings(32)]);
            add(found, [&start[..], first, second].concat());
        }
    }
}

/// Each role of a word, each kind, and strings alone.
fn tables(found: &mut Vec<Case>) {
    for m in second_tables() {
        let places = m.count() + 1;
        let bytes = m.blob().len() as u32;
        found.push(ask_table(list_of(&m), (places, places), [bytes, bytes]));
    }
    each_kind(found, |found, kind| add(found, list_of(&one_of(kind))));
    for text in [&b""[..], b"\0", b"\0\0", b"a", b"\0a", b"a\0", b"\0a\0"] {
        let m = Make {
            records: Vec::new(),
            strings: text.to_vec(),
        };
        add(found, list_of(&m));
    }
}
