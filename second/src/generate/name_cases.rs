//! Cases of the name question: offsets near the edges, good and bad blobs.

use crate::generate::check_cases::{aim, aimed};
use crate::generate::random::Random;
use crate::generate::{damage_words, valid, Scale};
use crate::make::word_at;
use crate::vectors::{Case, NAME};

pub fn case(r: &mut Random, scale: Scale) -> Case {
    let blob = match r.below(4) {
        0 => {
            // The names still stand where a later phase would refuse.
            let aim = aim(r, scale);
            aimed(r, scale, aim).blob
        }
        1 => {
            let number = r.between(1, 5);
            aimed(r, scale, number).blob
        }
        2 => {
            let mut m = valid::table(r, scale);
            damage_words::names(r, &mut m);
            m.blob()
        }
        _ => valid::table(r, scale).blob(),
    };
    let x = offset(r, &blob);
    Case {
        op: NAME,
        x,
        a: blob,
        ..Case::default()
    }
}

/// Around 0, around the string length, and where 32 bits would wrap.
fn offset(r: &mut Random, blob: &[u8]) -> u32 {
    if blob.len() < 24 {
        return r.pick(&[0, 1, u32::MAX]);
    }
    let (type_len, str_len) = (word_at(blob, 12), word_at(blob, 20));
    match r.below(10) {
        0 => 0,
        1 => str_len.wrapping_sub(1),
        2 => str_len,
        3 => str_len.wrapping_add(1),
        4 => r.pick(&[u32::MAX, 1 << 31, u32::MAX - 23]),
        5 => 0u32
            .wrapping_sub(24)
            .wrapping_sub(type_len)
            .wrapping_add(r.below(30)),
        _ => r.below(str_len),
    }
}
