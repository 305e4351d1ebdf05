//! .BTF.ext sections at the byte limit, without chance: one group of very many
//! records, very many groups of one, one very long record; and tables at the
//! limits beside them.

use crate::ext_parts::RECORD_SORTS;
use crate::generate::edges_ext::table;
use crate::generate::edges_ext_parts::record;
use crate::generate::ext_cases::ask_ext;
use crate::generate::ext_questions::ask_record;
use crate::generate::large::{padded, pointers};
use crate::generate::turn::turned_case;
use crate::limits::{BYTE_LIMIT, FULL_PLACES, TYPE_LIMIT};
use crate::make_ext::{record_starts, MakeExt};
use crate::vectors::{Case, MOST_PLACES};

/// All of them, in both orders. Thinned: as many records as fit, accepted and
/// the last at fault, one byte too many, and a record of the last of very many
/// groups.
pub fn cases(thin: bool) -> Vec<Case> {
    let mut found = Vec::new();
    let full = of_one_group(1);
    found.push(beside(&full));
    found.push(beside(&at_fault(&full, 1)));
    let mut long = full.blob();
    long.push(0);
    found.push(ask_ext(table().blob(), long, (6, 6)));
    found.push(ask_record(of_many_groups(1).blob(), 1, 16_381));
    if thin {
        return found;
    }
    (1..=3).for_each(|part| sections(&mut found, part));
    lengths(&mut found);
    tables(&mut found);
    found.extend(found.clone().iter().map(turned_case));
    found
}

fn beside(e: &MakeExt) -> Case {
    ask_ext(table().blob(), e.blob(), (6, 6))
}

/// As many words as a section has room for behind what is there already.
fn room(e: &MakeExt) -> usize {
    (BYTE_LIMIT as usize - e.blob().len()) / 4
}

/// One group of as many records as fit. Other parts that are just their record
/// size fill up the rest, where that is so short.
pub fn of_one_group(part: usize) -> MakeExt {
    let words = RECORD_SORTS[part - 1].words();
    let mut e = MakeExt::new(if part == 1 { 2 } else { 3 });
    e.size(part, 4 * words as u32);
    e.size(if part == 2 { 1 } else { 2 }, 16);
    let count = (room(&e) - 2) / words;
    e.put_group(part, 1, count as u32, &record(part, words).repeat(count));
    e
}

/// As many groups of one record as fit.
pub fn of_many_groups(part: usize) -> MakeExt {
    let words = RECORD_SORTS[part - 1].words();
    let mut e = MakeExt::new(if part == 3 { 3 } else { 2 });
    e.size(part, 4 * words as u32);
    for name in 0..room(&e) / (words + 2) {
        e.put_group(part, name as u32 % 4, 1, &record(part, words));
    }
    e
}

/// One record of all the bytes that there are, and so many words more.
fn of_one_record(part: usize, more: usize) -> MakeExt {
    let mut e = MakeExt::new(3);
    let words = room(&e) - 3 + more;
    e.size(part, 4 * words as u32);
    e.put_group(part, 1, 1, &record(part, words));
    e
}

/// Its last record has a type or a name that it cannot have.
fn at_fault(e: &MakeExt, part: usize) -> MakeExt {
    let mut e = e.clone();
    let words = RECORD_SORTS[part - 1].words();
    let last = e.parts[part - 1].len() - words;
    e.parts[part - 1][last + 1] = u32::MAX;
    e
}

/// Whole, at fault in the last record and in the last group, and records of it.
fn sections(found: &mut Vec<Case>, part: usize) {
    for e in [of_one_group(part), of_many_groups(part)] {
        found.push(beside(&e));
        found.push(beside(&at_fault(&e, part)));
        let mut one_more = e.clone();
        let last = one_more.parts[part - 1].pop();
        found.push(beside(&one_more));
        one_more.parts[part - 1].extend(last.into_iter().chain([0]));
        found.push(beside(&one_more));
        let count = record_starts(&e.parts[part - 1]).len() as u32;
        for k in [0, 1, count / 2, count - 1, count] {
            found.push(ask_record(e.blob(), part as u32, k));
        }
        found.push(ask_record(one_more.blob(), part as u32, 0));
    }
    for more in [0, 1] {
        let e = of_one_record(part, more);
        found.push(beside(&e));
        found.push(ask_record(e.blob(), part as u32, 0));
        found.push(ask_record(e.blob(), part as u32, 1));
    }
}

/// Around the byte limit, whatever the bytes are; and all three parts long.
fn lengths(found: &mut Vec<Case>) {
    let section = of_one_record(1, 0).blob();
    for bytes in [BYTE_LIMIT - 1, BYTE_LIMIT, BYTE_LIMIT + 1, BYTE_LIMIT + 4] {
        for start in [&section[..], &[]] {
            let mut other = start.to_vec();
            other.resize(bytes as usize, 0);
            found.push(ask_ext(table().blob(), other.clone(), (6, 6)));
            found.push(ask_record(other, 1, 0));
        }
    }
    let mut e = MakeExt::new(3);
    for part in 1..=3 {
        let words = RECORD_SORTS[part - 1].words() + part;
        let count = 20_000 / words;
        e.size(part, 4 * words as u32);
        e.put_group(part, 0, count as u32, &record(part, words).repeat(count));
        e.put_group(part, 0, 1, &record(part, words));
    }
    found.push(beside(&e));
    (1..=3).for_each(|part| found.push(ask_record(e.blob(), part, 2_000)));
}

/// As many types as may be, the last a FUNC, and one more; strings up to the
/// byte limit, and one byte more.
fn tables(found: &mut Vec<Case>) {
    let mut m = pointers(TYPE_LIMIT - 2);
    let name = m.string("f");
    let prototype = m.proto(0, &[]);
    m.func(name, prototype);
    for number in [TYPE_LIMIT - 1, TYPE_LIMIT, TYPE_LIMIT + 1] {
        let mut e = MakeExt::new(3);
        e.group(1, 0, &[[0, number]]);
        found.push(ask_ext(m.blob(), e.blob(), (FULL_PLACES, FULL_PLACES)));
        e.parts[0].clear();
        e.group(3, 0, &[[0, number, 0, 0]]);
        found.push(ask_ext(m.blob(), e.blob(), (FULL_PLACES, FULL_PLACES)));
    }
    let section = of_one_group(2).blob();
    m.ptr(0);
    found.push(ask_ext(
        m.blob(),
        section.clone(),
        (MOST_PLACES, MOST_PLACES),
    ));
    for bytes in [BYTE_LIMIT as usize, BYTE_LIMIT as usize + 1] {
        let long = padded(&table(), bytes);
        found.push(ask_ext(long.clone(), section.clone(), (6, 6)));
        let strings = (bytes - table().blob().len() + table().strings.len()) as u32;
        for name in [strings - 1, strings] {
            let mut e = MakeExt::new(2);
            e.group(2, 0, &[[0, name, 0, 0]]);
            found.push(ask_ext(long.clone(), e.blob(), (6, 6)));
        }
    }
}
