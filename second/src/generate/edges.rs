//! The rules one by one at their edges, without chance: every bit of an info
//! word, every byte of a name, every reference to every kind.

use crate::generate::turn::turned_case;
use crate::generate::{edges_apart, edges_apart_words};
use crate::generate::{edges_ext, edges_ext_parts, edges_ext_records};
use crate::generate::{edges_faults, edges_joins, edges_layout, edges_leaning};
use crate::generate::{edges_leaning_bases, edges_leaning_names, edges_leaning_sizes};
use crate::generate::{edges_leaning_types, edges_list, edges_list_lent};
use crate::generate::{edges_names, edges_offsets};
use crate::generate::{edges_order_joins, edges_order_sizes, edges_orders};
use crate::generate::{edges_pointers, edges_questions, edges_records, edges_sections};
use crate::generate::{edges_spans, edges_tails, edges_values, edges_walks};
use crate::make::{blob_of, info, put_word, word_at, Make};
use crate::reference::references;
use crate::table::{Kind, ALL_KINDS};
use crate::vectors::{Case, CHECK};
use std::collections::HashSet;

/// A part of the edges: its name, and what adds its cases. Thinned, every rule
/// keeps its edges, and fewer of them are crossed with each other.
pub type Part = (&'static str, fn(&mut Vec<Case>, bool));

const PARTS: &[Part] = &[
    ("headers", |found, _| headers(found)),
    ("slices", |found, _| slices(found)),
    ("heads", |found, _| each_kind(found, heads)),
    ("cut", |found, _| each_kind(found, cut_tails)),
    ("references", |found, _| each_kind(found, turned_references)),
];

/// All of them, in a fixed order, each once.
pub fn cases(thin: bool) -> Vec<Case> {
    in_parts(thin).into_iter().map(|(_, case)| case).collect()
}

/// Those of one part.
pub fn cases_of(part: &str, thin: bool) -> Vec<Case> {
    let all = in_parts(thin).into_iter();
    all.filter(|(name, _)| name == part)
        .map(|(_, case)| case)
        .collect()
}

/// Each with the name of its part. Those of the part NAME turned round are the
/// part NAME-turned.
pub fn in_parts(thin: bool) -> Vec<(String, Case)> {
    let mut met = HashSet::new();
    let mut all = Vec::new();
    let mut put = |name: String, found: Vec<Case>| {
        let new = found.into_iter().filter(|case| met.insert(case.clone()));
        all.extend(new.map(|case| (name.clone(), case)));
    };
    for (name, add_cases) in one_order() {
        let mut found = Vec::new();
        add_cases(&mut found, thin);
        let turned = found.iter().map(turned_case).collect();
        put(name.to_string(), found);
        put(format!("{name}-turned"), turned);
    }
    for (name, add_cases) in two_orders() {
        let mut found = Vec::new();
        add_cases(&mut found, thin);
        put(name.to_string(), found);
    }
    all
}

/// The parts whose tables are made in one order.
fn one_order() -> impl Iterator<Item = &'static Part> {
    let parts = [
        PARTS,
        edges_tails::PARTS,
        edges_names::PARTS,
        edges_faults::PARTS,
        edges_walks::PARTS,
        edges_pointers::PARTS,
        edges_layout::PARTS,
        edges_offsets::PARTS,
        edges_sections::PARTS,
        edges_questions::PARTS,
        edges_joins::PARTS,
        edges_leaning::PARTS,
        edges_leaning_types::PARTS,
        edges_apart::PARTS,
        edges_apart_words::PARTS,
        edges_list::PARTS,
        edges_list_lent::PARTS,
        edges_ext::PARTS,
        edges_ext_parts::PARTS,
        edges_ext_records::PARTS,
    ];
    parts.into_iter().flatten()
}

/// Those that have tables of both, and those of members, which no turned table
/// is read by.
fn two_orders() -> impl Iterator<Item = &'static Part> {
    let parts = [
        edges_orders::PARTS,
        edges_order_sizes::PARTS,
        edges_order_joins::PARTS,
        edges_spans::PARTS,
        edges_values::PARTS,
        edges_records::PARTS,
        edges_leaning_bases::PARTS,
        edges_leaning_sizes::PARTS,
        edges_leaning_names::PARTS,
    ];
    parts.into_iter().flatten()
}

pub fn each_kind(found: &mut Vec<Case>, add_cases: fn(&mut Vec<Case>, Kind)) {
    for kind in ALL_KINDS {
        add_cases(found, kind);
    }
}

pub fn add(found: &mut Vec<Case>, m: &Make) {
    add_blob(found, m.blob(), m.count() + 1);
}

pub fn add_blob(found: &mut Vec<Case>, a: Vec<u8>, places: u32) {
    found.push(Case {
        op: CHECK,
        index_places: places,
        work_places: places,
        a,
        ..Case::default()
    });
}

/// A name at 1 and an empty string at 3.
fn with_strings() -> Make {
    let mut m = Make::new();
    m.string("n");
    m.string("");
    m
}

const NAME: u32 = 1;

/// An accepted table with an INT, a prototype, a VAR and a STRUCT, then a
/// record of the kind, which is type 5 and the last.
pub fn one_of(kind: Kind) -> Make {
    let mut m = four_types();
    add_one(&mut m, kind);
    m
}

/// The four that a record of any kind can refer to.
pub fn four_types() -> Make {
    let mut m = with_strings();
    m.int(4);
    m.proto(0, &[]);
    m.var(NAME, 1);
    m.structure(4, false, &[[NAME, 1, 0]]);
    m
}

/// A record of the kind behind those four, wherever it stands.
pub fn add_one(m: &mut Make, kind: Kind) -> u32 {
    let member = [NAME, 1, 0];
    match kind {
        Kind::Int => m.int(4),
        Kind::Ptr | Kind::Volatile | Kind::Const | Kind::Restrict => m.bare(kind, 0, 1, &[]),
        Kind::Array => m.array(1, 1, 3),
        Kind::Struct | Kind::Union => m.listed(kind, false, NAME, 4, &[member, member]),
        Kind::Enum => m.listed(kind, false, NAME, 4, &[[NAME, 7]]),
        Kind::Enum64 => m.listed(kind, false, NAME, 8, &[[NAME, 7, 7]]),
        Kind::Fwd => m.bare(kind, NAME, 0, &[]),
        Kind::Typedef | Kind::TypeTag => m.bare(kind, NAME, 1, &[]),
        Kind::Func => m.func(NAME, 2),
        Kind::FuncProto => m.proto(1, &[[NAME, 1], [0, 0]]),
        Kind::Var => m.var(NAME, 1),
        Kind::Datasec => m.section(NAME, 4, &[[3, 0, 4]]),
        Kind::Float => m.bare(kind, NAME, 4, &[]),
        Kind::DeclTag => m.tag(NAME, 4, 0),
    }
}

/// Each header word, a little and a lot off; each length up to 25; string
/// sections that begin or end wrongly; lengths whose sum is too large.
fn headers(found: &mut Vec<Case>) {
    let blob = one_of(Kind::Ptr).blob();
    for place in (0..24).step_by(4) {
        for shift in [1, 2, 4, 1 << 8, 1 << 16, 1 << 24, 1 << 31, u32::MAX] {
            let mut turned = blob.clone();
            let word = word_at(&blob, place);
            put_word(&mut turned, place, word.wrapping_add(shift));
            add_blob(found, turned, 6);
        }
    }
    for length in 0..=25 {
        add_blob(found, Make::new().blob()[..length].to_vec(), 1);
    }
    for strings in [&[][..], &[0], &[1], &[0, 0], &[1, 0], &[0, 1], &[0, 1, 0]] {
        add_blob(found, blob_of(&[], strings), 1);
    }
    // sums that are right in 32 bits only
    for type_len in [1 << 31, u32::MAX - 23, u32::MAX - 3, 128] {
        let mut turned = blob.clone();
        let left = (blob.len() as u32 - 24).wrapping_sub(type_len);
        for (place, word) in [(12, type_len), (16, type_len), (20, left)] {
            put_word(&mut turned, place, word);
        }
        add_blob(found, turned, 6);
    }
}

/// Each slice with no place, with too few and with enough, of a table of five
/// types and of the empty one, which needs one place too.
fn slices(found: &mut Vec<Case>) {
    for a in [one_of(Kind::Ptr).blob(), Make::new().blob()] {
        for places in 0..8 {
            for (index_places, work_places) in [(places, 7), (7, places)] {
                found.push(Case {
                    op: CHECK,
                    index_places,
                    work_places,
                    a: a.clone(),
                    ..Case::default()
                });
            }
        }
    }
}

/// Every bit of the info word turned, and many third words.
fn heads(found: &mut Vec<Case>, kind: Kind) {
    for bit in 0..32 {
        let mut m = one_of(kind);
        m.at(5).info ^= 1 << bit;
        add(found, &m);
    }
    for linkage in 0..5 {
        let mut m = one_of(kind);
        if kind == Kind::Func {
            m.at(5).info = info(kind, false, linkage);
            add(found, &m);
        }
    }
    for third in (0..=17).chain([24, 32, 64, 1 << 31, u32::MAX]) {
        let mut m = one_of(kind);
        m.at(5).third = third;
        add(found, &m);
    }
}

/// The type section ends after each word of the last record.
fn cut_tails(found: &mut Vec<Case>, kind: Kind) {
    let m = one_of(kind);
    let words = m.type_words();
    for cut in 1..=3 + m.records[4].tail.len() {
        add_blob(found, blob_of(&words[..words.len() - cut], &m.strings), 6);
    }
}

/// Every reference of a record, to one type of every kind, to void and past
/// the types. A table for each kind referred to keeps them short.
fn turned_references(found: &mut Vec<Case>, kind: Kind) {
    for other in ALL_KINDS {
        let mut m = one_of(kind);
        let to = add_one(&mut m, other);
        turn_each(found, &m, &[to]);
    }
    let others = [0, 1, 2, 3, 4, 5, 6, 7, 1 << 31, u32::MAX];
    turn_each(found, &one_of(kind), &others);
}

fn turn_each(found: &mut Vec<Case>, whole: &Make, others: &[u32]) {
    let Some(table) = crate::generate::pieces::table_of(whole) else {
        return;
    };
    for reference in references(&table.records[4]) {
        for to in others {
            let mut m = whole.clone();
            match reference.word {
                2 => m.at(5).third = *to,
                word => m.at(5).tail[word - 3] = *to,
            }
            add(found, &m);
        }
    }
}
