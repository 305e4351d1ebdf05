//! Cases of the check: blobs aimed at each report, and wild ones.

use crate::generate::random::Random;
use crate::generate::{damage_bytes, damage_layout, damage_references, damage_words};
use crate::generate::{large, until, valid, Scale};
use crate::limits::FULL_PLACES;
use crate::make::{blob_of, put_word, word_at, Make};
use crate::vectors::{run, Case, CHECK};

/// Aims beyond the reports.
pub const ACCEPTED: u32 = 0;
pub const WILD: u32 = 16;
pub const LARGE: u32 = 17;

/// A blob and the places it asks of the slices.
pub struct Aimed {
    pub blob: Vec<u8>,
    pub places: u32,
}

/// An aim, all reports alike; large tables are rarer.
pub fn aim(r: &mut Random, scale: Scale) -> u32 {
    loop {
        let aim = r.below(18);
        let needs_large = aim == 8 || aim == LARGE;
        if !needs_large || (scale == Scale::Full && r.one_in(3)) {
            return aim;
        }
    }
}

pub fn case(r: &mut Random, scale: Scale) -> Case {
    let aim = aim(r, scale);
    let hits = |case: &Case| aim >= WILD || run(case).number == aim;
    until(r, scale, 6, hits, |r| {
        let aimed = aimed(r, scale, aim);
        let (index_places, work_places) = slices(r, aimed.places, aim == 9);
        Case {
            op: CHECK,
            index_places,
            work_places,
            a: aimed.blob,
            ..Case::default()
        }
    })
}

/// Lengths lent for so many places asked.
pub fn slices(r: &mut Random, places: u32, short: bool) -> (u32, u32) {
    let enough = |r: &mut Random| places + r.pick(&[0, 0, 0, 1, 2, 10]);
    let (index, work) = (enough(r), enough(r));
    if !short {
        return (index, work);
    }
    let any = r.below(places);
    let less = r.pick(&[0, places - 1, places - 1, any]);
    match r.below(3) {
        0 => (less, work),
        1 => (index, less),
        _ => (less, less),
    }
}

/// A blob aimed at a report; what it really gets is for the gate to say.
pub fn aimed(r: &mut Random, scale: Scale, aim: u32) -> Aimed {
    if aim == 8 {
        return Aimed {
            blob: large::around_type_limit(r),
            places: FULL_PLACES,
        };
    }
    if aim == LARGE {
        let m = large::table(r);
        return Aimed {
            blob: m.blob(),
            places: m.count() + 1,
        };
    }
    if aim == WILD {
        return wild(r, scale);
    }
    let m = valid::table(r, scale);
    broken(r, scale, m, aim)
}

/// An accepted table with damage for one of the reports, if any.
pub fn broken(r: &mut Random, scale: Scale, mut m: Make, aim: u32) -> Aimed {
    if aim != ACCEPTED && r.one_in(4) {
        let number = r.between(10, 15);
        damage(r, &mut m, number);
    }
    if aim >= 10 {
        damage(r, &mut m, aim);
    }
    let blob = match aim {
        1 if scale == Scale::Full && r.one_in(6) => large::around_byte_limit(r, &m),
        1..=5 => header_damage(r, &m, aim),
        6 => damage_bytes::cut_records(r, &mut m),
        7 => damage_bytes::unknown_kind(r, &mut m),
        _ => m.blob(),
    };
    Aimed {
        blob,
        places: m.count() + 1,
    }
}

/// Damage of one of the reports 10 to 15.
pub fn damage(r: &mut Random, m: &mut Make, number: u32) {
    match number {
        10 => damage_words::head(r, m),
        11 => damage_words::names(r, m),
        12 => damage_words::tails(r, m),
        13 => damage_references::reference(r, m),
        14 => damage_references::ring(r, m),
        _ => damage_layout::layout(r, m),
    }
}

/// One of the reports 1 to 5, sometimes with another beside it.
fn header_damage(r: &mut Random, m: &Make, number: u32) -> Vec<u8> {
    let mut blob = m.blob();
    if r.one_in(4) {
        let other = r.between(2, 5);
        damage_bytes::phase_1(r, &mut blob, other);
    }
    damage_bytes::phase_1(r, &mut blob, number);
    blob
}

/// Several damages at once, or bytes that mean nothing.
fn wild(r: &mut Random, scale: Scale) -> Aimed {
    let mut m = valid::table(r, scale);
    let blob = match r.below(6) {
        0 => random_bytes(r),
        1 => random_words(r),
        2 => turned_bits(r, m.blob()),
        3 => turned_words(r, m.blob()),
        _ => {
            for _ in 0..r.between(2, 3) {
                let number = r.between(10, 15);
                damage(r, &mut m, number);
            }
            m.blob()
        }
    };
    Aimed {
        blob,
        places: m.count() + 4,
    }
}

pub fn random_bytes(r: &mut Random) -> Vec<u8> {
    let length = r.pick(&[0, 4, 23, 24, 25, 40, 80]);
    (0..length).map(|_| r.word() as u8).collect()
}

/// Random words behind a good header. Mostly they look like records.
pub fn random_words(r: &mut Random) -> Vec<u8> {
    let mut words = Vec::new();
    for k in 0..r.below(16) {
        let small = r.below(6);
        let looks_like_info = (r.between(0, 20) << 24) | r.below(2);
        let any = r.word();
        words.push(match (k % 3, r.below(4)) {
            (_, 0) => any,
            (1, _) => looks_like_info,
            _ => small,
        });
    }
    blob_of(&words, b"\0a\0b_1\0")
}

fn turned_bits(r: &mut Random, mut blob: Vec<u8>) -> Vec<u8> {
    for _ in 0..r.between(1, 3) {
        let at = r.below(blob.len() as u32) as usize;
        blob[at] ^= 1 << r.below(8);
    }
    blob
}

/// A word of the type section or the header set to another value.
fn turned_words(r: &mut Random, mut blob: Vec<u8>) -> Vec<u8> {
    for _ in 0..r.between(1, 2) {
        let words = (24 + word_at(&blob, 12)) / 4;
        let low = if words > 6 && !r.one_in(6) { 6 } else { 0 };
        let at = 4 * r.between(low, words - 1) as usize;
        let value = match r.below(3) {
            0 => r.below(8),
            1 => word_at(&blob, at).wrapping_add(r.pick(&[1, u32::MAX])),
            _ => r.word(),
        };
        put_word(&mut blob, at, value);
        if at < 24 {
            break;
        }
    }
    blob
}
