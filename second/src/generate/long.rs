//! Long tables of every kind and shape, and cases of them: small accepted
//! tables behind each other, then renumbered and pointing anywhere.

use crate::generate::check_cases::damage;
use crate::generate::edges_joins::{call, length};
use crate::generate::large::padded;
use crate::generate::pieces::{kind_of, table_of};
use crate::generate::random::Random;
use crate::generate::record_cases::{question, AIMS};
use crate::generate::turn::{in_some_order, mixed};
use crate::generate::{damage_bytes, large_records, valid, Scale};
use crate::join::raised;
use crate::limits::{BYTE_LIMIT, FULL_PLACES, TYPE_LIMIT};
use crate::make::{Make, Raw};
use crate::table::Kind;
use crate::vectors::{Case, CHECK, MOST_BYTES, MOST_PLACES};

const BYTES: usize = BYTE_LIMIT as usize;

/// An accepted table of at most so many bytes, and nearly as many.
pub fn table(r: &mut Random, bytes: usize) -> Make {
    let mut m = Make::new();
    let mut length = m.blob().len();
    loop {
        let part = valid::table(r, Scale::Small);
        length += part.blob().len() - 25;
        if length > bytes {
            break;
        }
        put_behind(&mut m, &part);
    }
    valid::turn_pointers(r, &mut m);
    if r.one_in(2) {
        valid::shuffle(r, &mut m);
    }
    m
}

/// Adds the records and strings of another table, raised.
pub fn put_behind(m: &mut Make, part: &Make) {
    let Some(table) = table_of(part) else {
        return;
    };
    let (types, strings) = (m.count(), m.strings.len() as u32 - 1);
    for record in &table.records {
        let words = raised(record, types, strings);
        m.records.push(Raw {
            name: words[0],
            info: words[1],
            third: words[2],
            tail: words[3..].to_vec(),
        });
    }
    m.strings.extend(&part.strings[1..]);
}

/// A table of any length; some have as many types or bytes as may be.
fn of_any_length(r: &mut Random) -> Make {
    let filled = r.below(8);
    // Pointers up to the type limit fit behind so many bytes.
    let most = if filled == 0 { 150_000 } else { BYTE_LIMIT };
    let bytes = r.between(10_000, most) as usize;
    let mut m = table(r, bytes);
    match filled {
        0 => {
            let missing = TYPE_LIMIT - m.count();
            (0..missing).for_each(|_| add_pointer(r, &mut m));
        }
        1 => m.strings.extend(vec![0; BYTES - m.blob().len()]),
        _ => (),
    }
    m
}

/// A pointer to void, or to a pointer in front of it.
pub fn add_pointer(r: &mut Random, m: &mut Make) {
    let last = m.count();
    let is_pointer = kind_of(m, last) == Some(Kind::Ptr);
    m.ptr(if is_pointer && r.one_in(2) { last } else { 0 });
}

/// A check of a long table, accepted or with one damage.
pub fn check(r: &mut Random) -> Case {
    let m = of_any_length(r);
    // Damage may add types; then one place more than types is report 9.
    let places = m.count() + r.pick(&[1, 40]);
    let a = if r.one_in(2) { m.blob() } else { damaged(r, m) };
    Case {
        op: CHECK,
        index_places: places,
        work_places: places,
        a,
        ..Case::default()
    }
}

/// A long table with one of the reports 2 to 7 and 10 to 15, most likely.
pub fn damaged(r: &mut Random, mut m: Make) -> Vec<u8> {
    match r.pick(&[2, 3, 4, 5, 6, 7, 10, 11, 12, 13, 14, 15]) {
        6 => damage_bytes::cut_records(r, &mut m),
        7 => damage_bytes::unknown_kind(r, &mut m),
        number if number >= 10 => {
            damage(r, &mut m, number);
            m.blob()
        }
        number => {
            let mut blob = m.blob();
            damage_bytes::phase_1(r, &mut blob, number);
            blob
        }
    }
}

/// A member of a long table, read or refused on any ground.
pub fn member(r: &mut Random) -> Case {
    let m = if r.one_in(4) {
        large_records::table(r)
    } else {
        of_any_length(r)
    };
    let aim = r.pick(&AIMS);
    let case = question(r, &m, Scale::Long, aim);
    if aim != 34 {
        return case;
    }
    let a = damaged(r, m);
    in_some_order(r, Case { a, ..case })
}

/// Two long tables, most of them joined; else 9 inside or one of the grounds.
pub fn join(r: &mut Random) -> Case {
    let case = of_one_order(r);
    if r.one_in(8) {
        mixed(r, case)
    } else {
        case
    }
}

fn of_one_order(r: &mut Random) -> Case {
    match r.pick(&[0, 0, 0, 0, 0, 0, 9, 16, 17, 18, 19, 20]) {
        9 => with_places(r, 0),
        16 => {
            let (a, b) = pair(r, BYTES);
            let a = damaged(r, a);
            lend(r, a, b.blob(), 0)
        }
        17 => {
            let (a, b) = pair(r, BYTES);
            let b = damaged(r, b);
            lend(r, a.blob(), b, 0)
        }
        18 => around_type_limit(r),
        19 => {
            let together = BYTES + r.pick(&[0, 1, 1, 2, 5_000]);
            around_byte_limit(r, together, 0)
        }
        20 => {
            let short = r.pick(&[1, 1, 2, 1_000]);
            around_byte_limit(r, BYTES, short)
        }
        _ => with_places(r, 1),
    }
}

/// Places for all types of the larger table and so many more: 1 is enough.
fn with_places(r: &mut Random, more: u32) -> Case {
    let together = r.between(30_000, BYTE_LIMIT) as usize;
    let (a, b) = pair(r, together);
    let places = a.count().max(b.count()) + more;
    Case {
        index_places: places,
        ..lend(r, a.blob(), b.blob(), 0)
    }
}

/// Two tables of at most so many bytes when joined.
pub fn pair(r: &mut Random, together: usize) -> (Make, Make) {
    let first = r.between(1_000, together as u32 - 1_000) as usize;
    let a = table(r, first);
    let b = table(r, together + 25 - a.blob().len());
    (a, b)
}

/// As many types together as may be, or a few more.
fn around_type_limit(r: &mut Random) -> Case {
    let together = TYPE_LIMIT - 1 + r.pick(&[0, 1, 1, 2, 2, 3]);
    let (a, b) = pair_of_types(r, together);
    lend(r, a.blob(), b.blob(), 0)
}

/// Two tables of so many types: pointers fill up what is missing.
pub fn pair_of_types(r: &mut Random, together: u32) -> (Make, Make) {
    let (mut a, mut b) = pair(r, 48_000);
    let missing = together - a.count() - b.count();
    let first = r.below(missing);
    for number in 0..missing {
        add_pointer(r, if number < first { &mut a } else { &mut b });
    }
    (a, b)
}

/// Strings fill up to this joined length; the output is so much shorter.
fn around_byte_limit(r: &mut Random, together: usize, short: u32) -> Case {
    let (a, b) = pair(r, BYTES);
    let rest = together + 25 - a.blob().len();
    lend(r, a.blob(), padded(&b, rest.min(BYTES)), short)
}

/// Full slices, and an output of the joined length, longer, or shorter.
fn lend(r: &mut Random, a: Vec<u8>, b: Vec<u8>, short: u32) -> Case {
    let joined = length(&a, &b);
    let output_bytes = match short {
        0 => joined + r.pick(&[0, 0, 1, 100]),
        _ => joined.saturating_sub(short),
    };
    let places = r.pick(&[FULL_PLACES, FULL_PLACES, MOST_PLACES]);
    call(&a, &b, places, output_bytes.min(MOST_BYTES))
}
