//! What is lent to a list that is read and to one that is written, at its
//! edges; and every table that is written.

use crate::generate::edges::{each_kind, one_of, Part};
use crate::generate::edges_joins::{bad_third, refused, second_tables, SMALL_REPORTS};
use crate::generate::fields::{ask_list, ask_table, list_of};
use crate::make::Make;
use crate::table::Kind;
use crate::vectors::Case;

pub const PARTS: &[Part] = &[
    ("list-outputs", |found, _| outputs(found)),
    ("list-slices", |found, _| slices(found)),
    ("list-reports", |found, _| reports(found)),
    ("list-filled", |found, _| filled(found)),
    ("written-kinds", |found, _| written_kinds(found)),
    ("written-outputs", |found, _| written_outputs(found)),
    ("written-slices", |found, _| written_slices(found)),
    ("written-reports", |found, _| written_reports(found)),
];

/// A table of five types, the empty one, and one that is refused.
fn three() -> [Make; 3] {
    let mut bad = one_of(Kind::Struct);
    bad.at(1).third = 3;
    [one_of(Kind::Struct), Make::new(), bad]
}

/// Both byte slices around the table's length.
fn outputs(found: &mut Vec<Case>) {
    for m in three() {
        let exact = m.blob().len() as u32;
        let lengths = [0, 1, 24, exact - 1, exact, exact + 1, exact + 40];
        for output in lengths {
            for byte_work in lengths {
                found.push(ask_table(list_of(&m), (6, 8), [output, byte_work]));
            }
        }
    }
}

/// Each u32 slice with no place, with too few and with enough, behind 53 and
/// behind a fault of the list.
fn slices(found: &mut Vec<Case>) {
    for m in three() {
        let exact = m.blob().len() as u32;
        let list = list_of(&m);
        for places in 0..8 {
            for places in [(places, 7), (7, places)] {
                for bytes in [[exact, exact], [exact - 1, exact], [exact, 0]] {
                    found.push(ask_table(list.clone(), places, bytes));
                }
                let cut = list[..list.len() - 1].to_vec();
                found.push(ask_table(cut, places, [exact, exact]));
            }
        }
    }
}

/// Each report that a list's table can get, with the other grounds beside it.
fn reports(found: &mut Vec<Case>) {
    for report in [5, 10, 11, 12, 13, 14, 15, 0] {
        let mut m = bad_third(report);
        if report == 5 {
            m.strings[0] = 1;
        }
        let list = list_of(&m);
        for places in [(4, 4), (3, 4), (4, 0)] {
            for bytes in [[0, 0], [300, 300], [0, 300], [300, 0]] {
                found.push(ask_table(list.clone(), places, bytes));
            }
        }
        let mut unknown = list.clone();
        unknown.extend([20, 0, 0]);
        let mut carried = list.clone();
        carried.extend([127, 0, 0]);
        for list in [unknown, carried, list[..list.len() - 1].to_vec()] {
            found.push(ask_table(list, (4, 4), [300, 300]));
        }
    }
}

/// What b holds does not matter.
fn filled(found: &mut Vec<Case>) {
    for m in three() {
        let exact = m.blob().len();
        for bytes in [
            vec![0; exact],
            vec![0xFF; exact + 9],
            vec![7; exact - 1],
            m.blob(),
            list_of(&m),
        ] {
            found.push(Case {
                b: bytes,
                ..ask_table(list_of(&m), (6, 6), [200, 0])
            });
        }
    }
}

fn written_kinds(found: &mut Vec<Case>) {
    let mut add = |m: &Make| {
        let exact = list_of(m).len() as u32;
        let places = m.count() + 1;
        found.push(ask_list(m.blob(), (places, places), exact));
        found.push(ask_list(m.blob(), (places, places), exact + 9));
    };
    second_tables().iter().for_each(&mut add);
    for kind in crate::table::ALL_KINDS {
        add(&one_of(kind));
    }
    for strings in [vec![0; 2], vec![0; 300], b"\0a\0".to_vec()] {
        let records = Vec::new();
        add(&Make { records, strings });
    }
}

fn written_outputs(found: &mut Vec<Case>) {
    for m in three() {
        let exact = list_of(&m).len() as u32;
        let table = m.blob().len() as u32;
        for output in [0, 1, 3, exact - 1, exact, exact + 1, exact + 40, table] {
            found.push(ask_list(m.blob(), (6, 8), output));
        }
    }
    each_kind(found, |found, kind| {
        let m = one_of(kind);
        let exact = list_of(&m).len() as u32;
        found.push(ask_list(m.blob(), (6, 6), exact - 1));
    });
}

fn written_slices(found: &mut Vec<Case>) {
    for m in three() {
        let exact = list_of(&m).len() as u32;
        for places in 0..8 {
            for places in [(places, 7), (7, places)] {
                for output in [exact, exact - 1, 0] {
                    found.push(ask_list(m.blob(), places, output));
                }
            }
        }
    }
}

fn written_reports(found: &mut Vec<Case>) {
    for report in SMALL_REPORTS.into_iter().chain([0]) {
        for places in [(4, 4), (3, 4), (0, 0)] {
            for output in [0, 300] {
                found.push(ask_list(refused(report), places, output));
            }
        }
    }
}
