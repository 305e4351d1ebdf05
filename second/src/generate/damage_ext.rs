//! Damage for the reports 41 to 44: the length of a .BTF.ext section, its
//! opening and the words of its header.

use crate::ext_parts::{LONG_HEADER, SHORT_HEADER};
use crate::generate::random::Random;
use crate::generate::turn::turned_ext;
use crate::generate::Scale;
use crate::limits::BYTE_LIMIT;
use crate::make::{put_word, word_at};

/// Changes a section; one that is cut short already stays as it is.
pub fn damage_header(r: &mut Random, section: &mut Vec<u8>, scale: Scale, number: u32) {
    if section.len() < SHORT_HEADER {
        return;
    }
    match number {
        41 => length(r, section, scale),
        42 => opening(r, section),
        43 => header_length(r, section),
        _ => parts(r, section),
    }
}

fn length(r: &mut Random, section: &mut Vec<u8>, scale: Scale) {
    if scale == Scale::Full && r.one_in(8) {
        let bytes = BYTE_LIMIT + r.pick(&[0, 1, 1, 4, 64]);
        section.resize(bytes as usize, 0);
        return;
    }
    let any = r.below(24);
    section.truncate(r.pick(&[0, 4, 20, 23, 23, 24, any]) as usize);
}

/// One of the first four bytes changed, the other order's four, or the same four
/// in other places.
fn opening(r: &mut Random, section: &mut Vec<u8>) {
    match r.below(6) {
        0 => *section = turned_ext(section),
        // The words stay as they are.
        1 => section.swap(0, 1),
        2 => section.swap(2, 3),
        3 => section[r.pick(&[2, 3])] = r.pick(&[0, 1, 2, 255]),
        4 => section[r.below(4) as usize] ^= 1 << r.below(8),
        _ => section[..4].reverse(),
    }
}

fn header_length(r: &mut Random, section: &mut Vec<u8>) {
    if r.one_in(4) {
        // As long as may be, and cut before that.
        section.truncate(r.between(24, 32) as usize);
        put_word(section, 4, LONG_HEADER as u32);
        return;
    }
    let any = r.word();
    let lengths = [0, 8, 16, 20, 23, 25, 28, 31, 33, 36, 40, 24 << 24, any];
    put_word(section, 4, r.pick(&lengths));
}

fn parts(r: &mut Random, section: &mut Vec<u8>) {
    match r.below(8) {
        // The header says one part more or less than it has.
        0 => {
            let other = match word_at(section, 4) {
                24 => LONG_HEADER,
                _ => SHORT_HEADER,
            };
            put_word(section, 4, other as u32);
        }
        1 => {
            let more = r.pick(&[1, 2, 3, 4, 8]);
            section.extend(vec![0; more]);
        }
        2 => {
            let less = r.pick(&[1, 2, 3, 4, 8]);
            section.truncate((section.len() - less).max(SHORT_HEADER));
        }
        3 => moved_bytes(r, section),
        4 => changed_over(section),
        _ => {
            let places = header_places(section);
            let place = r.pick(&places);
            let shift = r.pick(&[1, 2, 4, 4, 16, 1 << 31, u32::MAX, u32::MAX - 3]);
            let word = word_at(section, place).wrapping_add(shift);
            put_word(section, place, word);
        }
    }
}

/// The places of the offsets and lengths.
fn header_places(section: &[u8]) -> Vec<usize> {
    let end = if section.len() < LONG_HEADER {
        SHORT_HEADER
    } else {
        word_at(section, 4).clamp(24, 32) as usize
    };
    (8..end).step_by(4).collect()
}

/// The first part is longer and the second as much shorter, or the other way
/// round: the sum stays, perhaps in 32 bits only.
fn moved_bytes(r: &mut Random, section: &mut [u8]) {
    let by = r.pick(&[1, 2, 3, u32::MAX, 1 << 31, u32::MAX - 3]);
    let [first, second] = [12, 20].map(|place| word_at(section, place));
    put_word(section, 12, first.wrapping_add(by));
    put_word(section, 16, word_at(section, 16).wrapping_add(by));
    put_word(section, 20, second.wrapping_sub(by));
}

/// The second part is said to stand before the first.
fn changed_over(section: &mut [u8]) {
    let second = word_at(section, 20);
    put_word(section, 8, second);
    put_word(section, 16, 0);
}
