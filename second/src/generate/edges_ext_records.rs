//! One record of a .BTF.ext section at the edges of what is there, without
//! chance: every record and the one behind the last, odd parts, and sections
//! that are broken anywhere.

use crate::ext_parts::RECORD_SORTS;
use crate::generate::damage_ext_parts::{name_words, type_words, wrapping_count};
use crate::generate::edges::Part;
use crate::generate::edges_ext::{sizes, whole};
use crate::generate::edges_ext_parts::record;
use crate::generate::ext_questions::ask_record;
use crate::generate::turn::turned_ext;
use crate::make::{put_word, word_at};
use crate::make_ext::{group_heads, MakeExt};
use crate::vectors::Case;

pub const PARTS: &[Part] = &[
    ("ext-record-each", |found, _| each(found)),
    ("ext-record-odd", |found, _| odd(found)),
    ("ext-record-longer", |found, _| longer(found)),
    ("ext-record-opening", |found, _| openings(found)),
    ("ext-record-cut", cut),
    ("ext-record-header", headers),
    ("ext-record-broken", |found, _| broken(found)),
    ("ext-record-free", |found, _| free(found)),
];

/// The first record of each part that there may be.
fn first_of_each(found: &mut Vec<Case>, section: &[u8]) {
    for part in 1..=3 {
        found.push(ask_record(section.to_vec(), part, 0));
    }
}

/// Every record of whole sections, and those behind the last.
fn each(found: &mut Vec<Case>) {
    for parts in [2, 3] {
        for e in [whole(parts), sizes(parts), MakeExt::new(parts)] {
            for part in 1..=3 {
                for k in 0..=4 {
                    found.push(ask_record(e.blob(), part, k));
                }
            }
        }
    }
}

fn odd(found: &mut Vec<Case>) {
    for parts in [2, 3] {
        let section = whole(parts).blob();
        for part in [0, 4, 5, 255, 256, 257, 1 << 24, 1 << 31, u32::MAX] {
            for k in [0, 3] {
                found.push(ask_record(section.clone(), part, k));
            }
        }
        for part in 1..=3 {
            for k in [255, 256, 1 << 16, 1 << 31, u32::MAX] {
                found.push(ask_record(section.clone(), part, k));
            }
        }
    }
}

/// Records with extra words, in groups of one to three.
fn longer(found: &mut Vec<Case>) {
    for part in 1..=3 {
        for more in [1, 2, 9] {
            let words = RECORD_SORTS[part - 1].words() + more;
            let mut e = MakeExt::new(3);
            e.size(part, 4 * words as u32);
            for count in 1..=3 {
                let records: Vec<u32> = (0..count * words as u32).collect();
                e.put_group(part, count, count, &records);
            }
            for k in 0..=6 {
                found.push(ask_record(e.blob(), part as u32, k));
            }
        }
    }
}

/// Every bit of the first four bytes, and one order's before the other's words.
fn openings(found: &mut Vec<Case>) {
    let section = whole(3).blob();
    for bit in 0..32 {
        let mut other = section.clone();
        other[bit / 8] ^= 1 << (bit % 8);
        found.push(ask_record(other, 1, 0));
    }
    for (first, second) in [(0, 1), (2, 3)] {
        let mut other = section.clone();
        other.swap(first, second);
        found.push(ask_record(other.clone(), 1, 0));
        found.push(ask_record(turned_ext(&other), 1, 0));
    }
}

/// Each length, and bytes behind the end.
fn cut(found: &mut Vec<Case>, thin: bool) {
    for parts in [2, 3] {
        let section = whole(parts).blob();
        let all = section.len();
        let kept = |length: &usize| !thin || *length < 44 || length + 9 > all;
        for length in (0..all).filter(kept) {
            found.push(ask_record(section[..length].to_vec(), 1, 0));
        }
        for more in [1, 4, 8] {
            first_of_each(found, &[&section[..], &vec![0; more]].concat());
        }
        for section in [MakeExt::new(parts).blob(), sizes(parts).blob()] {
            first_of_each(found, &section[..section.len() - 1]);
        }
    }
}

/// Each word of the header off.
fn headers(found: &mut Vec<Case>, thin: bool) {
    let shifts = [1, 4, u32::MAX - 3, 8, 1 << 31, u32::MAX];
    for parts in [2, 3] {
        let e = whole(parts);
        for place in (4..4 + 4 * e.header().len()).step_by(4) {
            for shift in &shifts[..if thin { 3 } else { 6 }] {
                let mut section = e.blob();
                let word = word_at(&section, place).wrapping_add(*shift);
                put_word(&mut section, place, word);
                first_of_each(found, &section);
            }
        }
    }
}

/// A fault of each sort in one part, asked of every part.
fn broken(found: &mut Vec<Case>) {
    let full = whole(3);
    for part in 1..=3 {
        let words = &full.parts[part - 1];
        let mut change = |at: usize, word: u32| {
            let mut e = full.clone();
            e.parts[part - 1][at] = word;
            first_of_each(found, &e.blob());
        };
        for size in [0, 4, words[0] - 4, words[0] + 1, words[0] + 4, u32::MAX - 3] {
            change(0, size);
        }
        for head in group_heads(words) {
            let count = words[head + 1];
            let wraps = wrapping_count(words[0]) + count;
            for other in [0, count + 1, count - 1, wraps, u32::MAX] {
                change(head + 1, other);
            }
        }
        for cut in 0..words.len() {
            let mut e = full.clone();
            e.parts[part - 1].truncate(cut);
            first_of_each(found, &e.blob());
        }
        for more in [&[0][..], &[0, 0], &[0, 1]] {
            let mut e = full.clone();
            e.parts[part - 1].extend(more);
            first_of_each(found, &e.blob());
        }
        let mut e = MakeExt::new(3);
        e.size(part, words[0]);
        e.put_group(part, 7, 1, &record(part, words[0] as usize / 4));
        first_of_each(found, &e.blob());
    }
}

/// Names and types of any number: there is no table to ask.
fn free(found: &mut Vec<Case>) {
    let e = whole(3);
    for (part, at) in name_words(&e).into_iter().chain(type_words(&e)) {
        for word in [0, 4, 6, u32::MAX] {
            let mut other = e.clone();
            other.parts[part - 1][at] = word;
            for k in 0..3 {
                found.push(ask_record(other.blob(), part as u32, k));
            }
        }
    }
}
