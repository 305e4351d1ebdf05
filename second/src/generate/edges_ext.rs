//! A .BTF.ext section at the edges of its header, without chance: every length,
//! every bit of its opening, every header length, each word of where its parts
//! lie. And what is lent, and each report of the table.

use crate::generate::edges::{one_of, Part};
use crate::generate::edges_joins::{refused, SMALL_REPORTS};
use crate::generate::ext_cases::ask_ext;
use crate::generate::turn::turned_ext;
use crate::make::{put_word, word_at, Make};
use crate::make_ext::{group_heads, MakeExt};
use crate::table::Kind;
use crate::vectors::Case;

pub const PARTS: &[Part] = &[
    ("ext-lengths", lengths),
    ("ext-openings", |found, _| openings(found)),
    ("ext-headers", headers),
    ("ext-words", header_words),
    ("ext-sums", |found, _| sums(found)),
    ("ext-shapes", |found, _| shapes(found)),
    ("ext-slices", |found, _| slices(found)),
    ("ext-tables", |found, _| tables(found)),
];

/// The table beside which edges stand: five types, of which the last is a FUNC,
/// and four bytes of strings.
pub fn table() -> Make {
    one_of(Kind::Func)
}

/// Two groups in each of so many parts, nothing at fault beside that table.
pub fn whole(parts: usize) -> MakeExt {
    let mut e = MakeExt::new(parts);
    e.group(1, 1, &[[0, 5], [8, 5]]);
    e.group(1, 2, &[[0, 5]]);
    e.group(2, 1, &[[0, 1, 2, 1_030], [8, 0, 3, 1]]);
    e.group(2, 0, &[[0, 3, 0, 0]]);
    if parts == 3 {
        e.group(3, 1, &[[0, 1, 2, 0], [8, 0, 0, 9]]);
        e.group(3, 3, &[[16, 5, 1, 7]]);
    }
    e
}

/// Parts that are just their record size.
pub fn sizes(parts: usize) -> MakeExt {
    let mut e = MakeExt::new(parts);
    (1..=parts).for_each(|part| e.size(part, 16));
    e
}

pub fn add(found: &mut Vec<Case>, section: Vec<u8>) {
    found.push(ask_ext(table().blob(), section, (6, 6)));
}

/// Each length of sections of all sorts, and bytes behind them.
fn lengths(found: &mut Vec<Case>, thin: bool) {
    for parts in [2, 3] {
        for e in [MakeExt::new(parts), sizes(parts), whole(parts)] {
            let section = e.blob();
            let all = section.len();
            let kept = |length: &usize| !thin || *length < 44 || length + 9 > all;
            for length in (0..all).filter(kept) {
                add(found, section[..length].to_vec());
            }
            for more in [1, 2, 3, 4, 8, 12] {
                add(found, [&section[..], &vec![0; more]].concat());
            }
        }
    }
}

/// Every bit of the first four bytes, those of the other order before words of
/// either, and bytes that change places.
fn openings(found: &mut Vec<Case>) {
    let section = whole(3).blob();
    for bit in 0..32 {
        let mut other = section.clone();
        other[bit / 8] ^= 1 << (bit % 8);
        add(found, other);
    }
    add(found, turned_ext(&section));
    add(found, turned_ext(&MakeExt::new(2).blob()));
    for (first, second) in [(0, 1), (2, 3), (0, 3), (1, 2)] {
        let mut other = section.clone();
        other.swap(first, second);
        add(found, other);
    }
    let mut other = section.clone();
    other[..4].reverse();
    add(found, other.clone());
    // With 43 and 44 behind it, and with 41 before it.
    put_word(&mut other, 4, 25);
    put_word(&mut other, 8, 4);
    for length in [4, 8, 23, 24, other.len()] {
        add(found, other[..length].to_vec());
    }
}

/// Every header length around those that there are, of sections of each length
/// around these, and of whole ones.
fn headers(found: &mut Vec<Case>, thin: bool) {
    let odd = [64, 256, 24 << 8, 24 << 24, 32 << 24, 1 << 31, u32::MAX];
    let lengths = [24, 31, 32, 28, 33, 36];
    for length in (0..=40).chain(odd) {
        for bytes in lengths[..if thin { 3 } else { 6 }].iter().copied() {
            let mut section = MakeExt::new(3).blob();
            section.resize(bytes, 0);
            put_word(&mut section, 4, length);
            add(found, section);
        }
        for parts in [2, 3] {
            let mut section = whole(parts).blob();
            put_word(&mut section, 4, length);
            add(found, section);
        }
    }
}

/// What a word of the header is off by; the first few where fewer are wanted.
const SHIFTS: [u32; 9] = [1, 4, 1 << 31, u32::MAX - 3, 2, 3, 1 << 8, 1 << 24, u32::MAX];

/// Each offset and length a little and a lot off, of parts that are empty and
/// of others.
fn header_words(found: &mut Vec<Case>, thin: bool) {
    let mut second_only = MakeExt::new(3);
    second_only.size(2, 16);
    let empty = [MakeExt::new(2), MakeExt::new(3)];
    let filled = [second_only, sizes(3), whole(2), whole(3)];
    for e in empty.iter().chain(&filled) {
        for place in (8..4 + 4 * e.header().len()).step_by(4) {
            for shift in &SHIFTS[..if thin { 4 } else { SHIFTS.len() }] {
                let mut section = e.blob();
                let word = word_at(&section, place).wrapping_add(*shift);
                put_word(&mut section, place, word);
                add(found, section);
            }
        }
    }
}

/// Two parts whose lengths add up, but are no multiples of 4, add up in 32 bits
/// only, or stand the other way round; gaps and parts that overlap.
fn sums(found: &mut Vec<Case>) {
    for parts in [2, 3] {
        let section = whole(parts).blob();
        let [first, second] = [12, 20].map(|place| word_at(&section, place));
        let mut put = |changes: &[(usize, u32)]| {
            let mut section = section.clone();
            for (place, word) in changes {
                put_word(&mut section, *place, *word);
            }
            add(found, section);
        };
        for by in [1, 2, 3, 4, first, 1 << 31, u32::MAX, u32::MAX - 3] {
            let (longer, shorter) = (first.wrapping_add(by), second.wrapping_sub(by));
            put(&[(12, longer), (16, longer), (20, shorter)]);
        }
        put(&[(8, second), (16, 0)]);
        put(&[(16, 0)]);
        put(&[(16, first - 4), (20, second + 4)]);
        put(&[(16, first + 4), (20, second - 4)]);
        put(&[(8, 4), (12, first - 4)]);
    }
}

/// Every choice of empty parts, parts without groups, and parts of one group
/// and two.
fn shapes(found: &mut Vec<Case>) {
    for parts in [2, 3] {
        let full = whole(parts);
        for choice in 0..4usize.pow(parts as u32) {
            let mut e = full.clone();
            for part in 0..parts {
                let words = match choice / 4usize.pow(part as u32) % 4 {
                    0 => 0,
                    1 => 1,
                    2 => group_heads(&full.parts[part])[1],
                    _ => full.parts[part].len(),
                };
                e.parts[part].truncate(words);
            }
            add(found, e.blob());
        }
    }
}

/// Each slice with no place, with too few and with enough, beside sections that
/// are accepted and refused.
fn slices(found: &mut Vec<Case>) {
    for m in [table(), Make::new()] {
        for section in [MakeExt::new(2).blob(), whole(3).blob(), Vec::new()] {
            for places in 0..8 {
                for places in [(places, 7), (7, places)] {
                    found.push(ask_ext(m.blob(), section.clone(), places));
                }
            }
        }
    }
}

/// Each report of the table beside sections that are accepted and refused.
fn tables(found: &mut Vec<Case>) {
    let section = MakeExt::new(3).blob();
    let cut = section[..23].to_vec();
    for report in SMALL_REPORTS.into_iter().chain([0]) {
        for b in [&section, &turned_ext(&section), &cut, &whole(2).blob()] {
            for places in [(4, 4), (3, 4), (0, 0)] {
                found.push(ask_ext(refused(report), b.clone(), places));
            }
        }
    }
}
