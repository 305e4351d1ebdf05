//! Damage for the reports 1 to 8: the header, the sections and the walk.

use crate::generate::pieces::kind_of;
use crate::generate::random::Random;
use crate::make::{blob_of, put_word, word_at, Make};

/// Damage of one of the reports 1 to 5 at a blob with a whole header.
pub fn phase_1(r: &mut Random, blob: &mut Vec<u8>, number: u32) {
    if blob.len() < 24 {
        return;
    }
    match number {
        1 => blob.truncate(r.pick(&[0, 1, 3, 4, 8, 12, 20, 22, 23, 23, 24, 25])),
        2 => first_word(r, blob),
        3 => {
            let length = r.pick(&[0, 1, 16, 20, 23, 25, 28, 0x0018_0000, 0x0118, u32::MAX]);
            put_word(blob, 4, length);
        }
        4 => sections(r, blob),
        _ => strings(r, blob),
    }
}

fn first_word(r: &mut Random, blob: &mut [u8]) {
    match r.below(7) {
        0 => blob[3] = r.pick(&[1, 2, 128]),
        1 => blob[2] = r.pick(&[0, 2, 255]),
        // The other order's magic before these words, or half of each.
        2 => blob.swap(0, 1),
        3 => blob[0] = blob[1],
        4 => blob[..4].reverse(),
        // Version and flags turned round, which they are in neither order.
        5 => blob.swap(2, 3),
        _ => blob[r.below(4) as usize] ^= 1 << r.below(8),
    }
}

/// Report 4: offsets, lengths, and sums that are wrong or wrap.
fn sections(r: &mut Random, blob: &mut Vec<u8>) {
    let (type_len, str_len) = (word_at(blob, 12), word_at(blob, 20));
    match r.below(7) {
        0 => put_word(blob, 8, r.pick(&[1, 4, 24, 1 << 31, u32::MAX])),
        1 => {
            // The sum holds, but the type section is no whole words.
            let shift = r.between(1, 3);
            put_word(blob, 12, type_len.wrapping_add(shift));
            put_word(blob, 16, type_len.wrapping_add(shift));
            put_word(blob, 20, str_len.wrapping_sub(shift));
        }
        2 => put_word(
            blob,
            16,
            type_len.wrapping_add(r.pick(&[1, 4, u32::MAX, 1 << 31])),
        ),
        3 => put_word(
            blob,
            20,
            str_len.wrapping_add(r.pick(&[1, 2, u32::MAX, 1 << 31])),
        ),
        4 => blob.push(0),
        5 => {
            blob.pop();
        }
        _ => {
            // In 32 bits the sum comes out right.
            let shift = r.pick(&[1 << 31, 0xFFFF_FFF0, 0xFFFF_FFFC, 4, 1 << 16]);
            put_word(blob, 12, type_len.wrapping_sub(shift));
            put_word(blob, 16, type_len.wrapping_sub(shift));
            put_word(blob, 20, str_len.wrapping_add(shift));
        }
    }
}

/// Report 5: no strings, or a first or last byte that isn't zero.
fn strings(r: &mut Random, blob: &mut Vec<u8>) {
    let str_len = word_at(blob, 20) as usize;
    if str_len == 0 || str_len > blob.len() - 24 {
        return;
    }
    let first = blob.len() - str_len;
    let last = blob.len() - 1;
    match r.below(4) {
        0 => {
            blob.truncate(first);
            put_word(blob, 20, 0);
        }
        1 => blob[first] = r.pick(&[1, 0x74, 255]),
        2 => blob[last] = r.pick(&[1, 0x74, 255]),
        _ => {
            // The last zero byte cut off; a section of one byte stays.
            if str_len > 1 {
                blob.pop();
                put_word(blob, 20, str_len as u32 - 1);
            }
        }
    }
}

/// Report 6: a type section that ends too early for its last record.
pub fn cut_records(r: &mut Random, m: &mut Make) -> Vec<u8> {
    let mut words = m.type_words();
    match r.below(4) {
        0 => words.extend(vec![r.word() & 0x1FFF_FFFF; r.between(1, 2) as usize]),
        1 => longer_list(r, m, &mut words),
        _ => {
            let cut = r.between(1, 4).min(words.len() as u32);
            words.truncate(words.len() - cut as usize);
        }
    }
    blob_of(&words, &m.strings)
}

/// More entries announced than there are.
fn longer_list(r: &mut Random, m: &mut Make, words: &mut Vec<u32>) {
    let last = m.count();
    let listed = kind_of(m, last).is_some_and(|kind| kind.entry_words().is_some());
    if !listed {
        let kind = r.pick(&[4, 5, 6, 13, 15, 19]);
        m.raw(0, kind << 24, 0, &[]);
    }
    let number = m.count();
    let vlen = m.at(number).info & 0xFFFF;
    let more = r.pick(&[1, 1, 2, 0xFFFF]);
    m.at(number).set_vlen((vlen + more).min(0xFFFF));
    *words = m.type_words();
}

/// Report 7: an unknown kind somewhere, perhaps with its head cut too.
pub fn unknown_kind(r: &mut Random, m: &mut Make) -> Vec<u8> {
    if m.records.is_empty() || r.one_in(4) {
        m.raw(0, 0, 0, &[]);
    }
    let number = r.between(1, m.count());
    let kind = r.pick(&[0, 0, 20, 20, 21, 24, 30, 31, 31, 19]);
    m.at(number).set_kind_number(kind);
    let mut words = m.type_words();
    if r.one_in(8) {
        words.pop();
    }
    blob_of(&words, &m.strings)
}
