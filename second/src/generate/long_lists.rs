//! Long lists read and long tables written out: bodies around what one field
//! and two fields hold, and tables at the limits and past them.

use crate::generate::fields::{ask_list, ask_table, fields_of, list_of, written, Field};
use crate::generate::large::pointers;
use crate::generate::list_cases::{damaged, lent_bytes};
use crate::generate::long::{self, damaged as damaged_blob};
use crate::generate::random::Random;
use crate::limits::{BYTE_LIMIT, FULL_PLACES, TYPE_LIMIT};
use crate::list::{CARRY, FULL_BODY};
use crate::make::Make;
use crate::table::Kind;
use crate::vectors::{Case, MOST_BYTES, MOST_PLACES};

/// Damage where a body is carried on, or should be.
const CARRIED: u32 = 55;

const READ_AIMS: [u32; 20] = [
    0, 0, 0, 0, 0, 50, 51, 52, CARRIED, CARRIED, CARRIED, CARRIED, CARRIED, 53, 53, 53, 1, 5, 8, 9,
];

/// Any report of a long table but those that have an aim of their own.
const DAMAGED: u32 = 10;

const WRITTEN_AIMS: [u32; 14] = [
    0, 0, 0, 0, 0, 53, 53, 53, 1, 8, 9, DAMAGED, DAMAGED, DAMAGED,
];

pub fn read(r: &mut Random) -> Case {
    let aim = r.pick(&READ_AIMS);
    until_it_fits(r, aim, attempt_to_read)
}

pub fn write(r: &mut Random) -> Case {
    let aim = r.pick(&WRITTEN_AIMS);
    until_it_fits(r, aim, attempt_to_write)
}

/// A table may have more bytes than a case can lend, and its list far more.
fn until_it_fits(r: &mut Random, aim: u32, attempt: fn(&mut Random, u32) -> Case) -> Case {
    loop {
        let case = attempt(r, aim);
        if case.a.len() <= MOST_BYTES as usize {
            return case;
        }
    }
}

fn attempt_to_read(r: &mut Random, aim: u32) -> Case {
    let mut m = table(r, aim);
    if aim == 5 {
        let last = m.strings.len() - 1;
        m.strings[last] = 1;
    }
    let list = match aim {
        50..=52 => damaged(r, &m, aim),
        CARRIED => carried_wrongly(r, &m),
        _ => list_of(&m),
    };
    let exact = m.blob().len() as u32;
    let bytes = match aim {
        // Slices of full size are too short for a table past the limit.
        53 if r.one_in(3) => [BYTE_LIMIT, BYTE_LIMIT].map(|full| full.min(exact - 1)),
        _ => lent_bytes(r, exact, aim),
    };
    let places = places(r, &m, aim);
    ask_table(list, (places, places), bytes)
}

fn attempt_to_write(r: &mut Random, aim: u32) -> Case {
    let m = table(r, aim);
    let exact = list_of(&m).len() as u32;
    let output_bytes = match aim {
        53 => exact - r.pick(&[1, 1, 3, 1_000]),
        _ => exact + r.pick(&[0, 0, 1, 100]),
    };
    let places = places(r, &m, aim);
    let blob = match aim {
        DAMAGED => damaged_blob(r, m),
        _ => m.blob(),
    };
    ask_list(blob, (places, places), output_bytes)
}

fn places(r: &mut Random, m: &Make, aim: u32) -> u32 {
    let count = m.count();
    match aim {
        9 => count,
        _ => r.pick(&[count + 1, count + 40, FULL_PLACES.max(count), MOST_PLACES]),
    }
}

/// Long strings, long records, many records, or all of it; for 1 and 8 one past
/// the limit.
fn table(r: &mut Random, aim: u32) -> Make {
    let mut m = match (aim, r.below(5)) {
        (8, _) => return pointers(TYPE_LIMIT + r.pick(&[1, 1, 2])),
        (_, 0) => pointers(TYPE_LIMIT),
        (_, 1) => {
            let bytes = r.between(10_000, 200_000) as usize;
            long::table(r, bytes)
        }
        _ => long::table(r, 1_000),
    };
    // Three full fields fit behind so many bytes.
    if m.blob().len() < 60_000 && r.one_in(2) {
        add_long_record(r, &mut m);
    }
    let length = m.blob().len();
    let left = (BYTE_LIMIT as usize).saturating_sub(length);
    match aim {
        1 => m.strings.extend(vec![0; left + r.pick(&[1, 1, 7])]),
        _ if r.one_in(6) => m.strings.extend(vec![0; left]),
        _ => lengthen(r, &mut m, left),
    }
    m
}

/// Strings of as many bytes as one field holds, as two hold, one less, one more.
fn lengthen(r: &mut Random, m: &mut Make, left: usize) {
    let fields = r.pick(&[1, 1, 1, 2, 2, 3]);
    let wanted = fields * FULL_BODY + r.pick(&[0, 0, 1, 2]) - r.pick(&[0, 1]);
    let missing = wanted.saturating_sub(m.strings.len());
    if missing <= left {
        m.strings.extend(vec![0; missing]);
    }
}

/// A record just below what some fields hold, or just above it.
pub fn add_long_record(r: &mut Random, m: &mut Make) -> u32 {
    let bytes = r.pick(&[1, 1, 2, 3]) * FULL_BODY - 12;
    let more = r.below(2);
    let name = m.string("long");
    match r.below(4) {
        0 => m.listed(
            Kind::Enum,
            false,
            0,
            4,
            &entries(bytes / 8, more, [name, 7]),
        ),
        1 => m.listed(
            Kind::Enum64,
            true,
            0,
            8,
            &entries(bytes / 12, more, [name, 1, 2]),
        ),
        2 => {
            let of = m.int(4);
            m.proto(0, &entries(bytes / 8, more, [name, of]))
        }
        _ => {
            let of = m.int(4);
            m.union(4, false, &entries(bytes / 12, more, [name, of, 0]))
        }
    }
}

fn entries<const W: usize>(below: usize, more: u32, entry: [u32; W]) -> Vec<[u32; W]> {
    vec![entry; below + more as usize]
}

/// A full field and what stands behind it, changed.
fn carried_wrongly(r: &mut Random, m: &Make) -> Vec<u8> {
    let mut fields = fields_of(m);
    let is_carry = |at: &usize| fields[*at].tag == CARRY;
    let found: Vec<usize> = (0..fields.len()).filter(is_carry).collect();
    let Some(at) = r.pick_any(&found) else {
        return written(&fields);
    };
    let tag = r.pick(&[1, 2, 4, 6, 13, 19, 32, 33]);
    match r.below(9) {
        // The end stands where another is due.
        0 => fields.truncate(at),
        1 => {
            fields.remove(at);
        }
        2 => fields[at].tag = tag,
        3 => fields[at].tag = r.pick(&[0, 20, 126, 128]),
        // One more behind the last.
        4 => fields.insert(at + 1, Field::new(CARRY, &[])),
        // Not full, or full where it should not be.
        5 => {
            let byte = fields[at - 1].bytes.pop();
            fields[at].bytes.splice(0..0, byte);
        }
        6 => fields[at].bytes.resize(FULL_BODY, 0),
        7 => {
            let kept = r.below(fields[at].bytes.len() as u32 + 3);
            let front = written(&fields[..at]).len() + kept as usize;
            return written(&fields)[..front].to_vec();
        }
        _ => {
            let length = fields[at].bytes.len();
            fields[at].bytes.resize(length.saturating_sub(4), 0);
        }
    }
    written(&fields)
}
