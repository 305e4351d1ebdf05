//! Cases of lists read and written: lists of accepted tables, lists damaged in
//! each way, tables with each report, and slices around what is needed.

use crate::generate::check_cases::{aimed, broken, damage, slices, ACCEPTED, WILD};
use crate::generate::damage_fields::{cut_short, out_of_place, random_fields, unknown_tag};
use crate::generate::fields::{ask_list, ask_table, fields_of, list_of};
use crate::generate::random::Random;
use crate::generate::{long_lists, until, valid, Scale};
use crate::make::Make;
use crate::vectors::{run, Case, Seen};

/// Answers of a list that is read. A number below 16 is that of the report
/// inside 54; 1 and 8 are for long tables.
const READ_AIMS: [u32; 29] = [
    0, 0, 0, 0, 50, 50, 50, 51, 51, 51, 51, 52, 52, 52, 52, 52, 52, 53, 53, 53, 5, 9, 10, 11, 12,
    13, 14, 15, WILD,
];

/// The same of a table that is written out; 8 is for long tables.
const WRITTEN_AIMS: [u32; 23] = [
    0, 0, 0, 0, 53, 53, 53, 53, 1, 2, 3, 4, 5, 6, 7, 9, 10, 11, 12, 13, 14, 15, WILD,
];

pub fn read(r: &mut Random, scale: Scale) -> Case {
    if scale == Scale::Full && r.one_in(60) {
        return long_lists::read(r);
    }
    let aim = r.pick(&READ_AIMS);
    answering(r, scale, aim, attempt_to_read)
}

pub fn write(r: &mut Random, scale: Scale) -> Case {
    if scale == Scale::Full && r.one_in(60) {
        return long_lists::write(r);
    }
    let aim = r.pick(&WRITTEN_AIMS);
    answering(r, scale, aim, attempt_to_write)
}

type Attempt = fn(&mut Random, Scale, u32) -> Case;

fn answering(r: &mut Random, scale: Scale, aim: u32, attempt: Attempt) -> Case {
    let hits = |case: &Case| aim == WILD || answer(&run(case)) == aim;
    until(r, scale, 12, hits, |r| attempt(r, scale, aim))
}

/// The number of an answer, or of the report inside it.
pub fn answer(seen: &Seen) -> u32 {
    match seen.number {
        54 => seen.inner,
        number => number,
    }
}

/// An accepted table, at times the empty one or one of strings alone.
fn table(r: &mut Random, scale: Scale) -> Make {
    let mut m = match r.below(10) {
        0 => Make::new(),
        _ => valid::table(r, scale),
    };
    if r.one_in(8) {
        m.string("more");
    }
    m
}

fn attempt_to_read(r: &mut Random, scale: Scale, aim: u32) -> Case {
    let mut m = table(r, scale);
    // A table that would be refused too: the list's own grounds come first.
    if (50..=53).contains(&aim) && r.one_in(4) {
        let report = r.between(10, 15);
        damage(r, &mut m, report);
    }
    match aim {
        5 => strings(r, &mut m),
        10..=15 => damage(r, &mut m, aim),
        _ => (),
    }
    let list = match aim {
        50..=52 => damaged(r, &m, aim),
        WILD => wild(r, &m),
        _ => list_of(&m),
    };
    let places = slices(r, m.count() + 1, aim == 9);
    let bytes = lent_bytes(r, m.blob().len() as u32, aim);
    ask_table(list, places, bytes)
}

/// The list of a table with one damage.
pub fn damaged(r: &mut Random, m: &Make, aim: u32) -> Vec<u8> {
    let fields = fields_of(m);
    match aim {
        50 => unknown_tag(r, fields),
        51 => cut_short(r, fields),
        _ => out_of_place(r, fields),
    }
}

/// Strings that do not begin or end with a zero byte, or none.
fn strings(r: &mut Random, m: &mut Make) {
    let last = m.strings.len() - 1;
    match r.below(4) {
        0 => m.strings.clear(),
        1 => m.strings[0] = 1,
        2 => m.strings[last] = 0x74,
        _ => m.strings.push(255),
    }
}

/// Two damages, bytes turned, or fields that mean nothing.
fn wild(r: &mut Random, m: &Make) -> Vec<u8> {
    if r.one_in(3) {
        return random_fields(r);
    }
    let aim = r.between(50, 52);
    let mut list = damaged(r, m, aim);
    for _ in 0..r.between(1, 3) {
        if !list.is_empty() {
            let at = r.below(list.len() as u32) as usize;
            list[at] ^= 1 << r.below(8);
        }
    }
    list
}

/// Bytes lent in the output and the byte work slice, for a table of so many.
pub fn lent_bytes(r: &mut Random, exact: u32, aim: u32) -> [u32; 2] {
    let enough = |r: &mut Random| exact + r.pick(&[0, 0, 0, 1, 5, 40]);
    let longer = [enough(r), enough(r)];
    let is_short = match aim {
        53 => true,
        50..=52 | WILD => r.one_in(3),
        _ => false,
    };
    if !is_short {
        return longer;
    }
    let any = r.below(exact);
    let less = r.pick(&[0, 24, exact - 1, exact - 1, any]).min(exact - 1);
    match r.below(3) {
        0 => [less, longer[1]],
        1 => [longer[0], less],
        _ => [less, less],
    }
}

fn attempt_to_write(r: &mut Random, scale: Scale, aim: u32) -> Case {
    let m = table(r, scale);
    let exact = list_of(&m).len() as u32;
    let aimed = match aim {
        WILD => aimed(r, scale, WILD),
        53 => broken(r, scale, m, ACCEPTED),
        _ => broken(r, scale, m, aim),
    };
    let places = slices(r, aimed.places, aim == 9);
    let output_bytes = match aim {
        0 => exact + r.pick(&[0, 0, 0, 1, 5, 40]),
        53 => short_output(r, exact, aimed.blob.len() as u32),
        _ => r.pick(&[0, exact, exact - 1, exact + 20]),
    };
    ask_list(aimed.blob, places, output_bytes)
}

/// Shorter than the list; at times as long as its table would need.
fn short_output(r: &mut Random, exact: u32, table: u32) -> u32 {
    let any = r.below(exact);
    r.pick(&[
        0,
        exact - 1,
        exact - 1,
        exact - 3,
        any,
        table.min(exact - 1),
    ])
}
