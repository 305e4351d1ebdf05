//! Scenes for report 15: members at the edges of their rules.

use crate::generate::damage_layout::{any_nature, wrapped};
use crate::generate::pieces::*;
use crate::generate::random::Random;
use crate::make::{field, Make};
use crate::size::SizeAnswer;
use crate::table::Kind;

/// A size in bytes at, just over or just under an end in bits.
fn bytes_around(r: &mut Random, end: u64) -> u32 {
    let shift = r.pick(&[0, 0, 0, 1, 2, 3]);
    let bytes = match shift {
        0 => end.div_ceil(8),
        1 => end / 8,
        2 => end.div_ceil(8).saturating_sub(1),
        _ => end.div_ceil(8) + 1,
    };
    bytes.min(u64::from(u32::MAX)) as u32
}

/// Where a member with kind_flag 0 ends, by the size question.
fn end_of(m: &Make, of: u32, offset: u32) -> u64 {
    let base = base_of(m, of);
    let length = match (kind_of(m, base), size_of(m, of)) {
        (Some(Kind::Int), _) => {
            let word = m.records[base as usize - 1]
                .tail
                .first()
                .copied()
                .unwrap_or(0);
            u64::from((word >> 16) & 0xFF) + u64::from(word & 0xFF)
        }
        (_, SizeAnswer::Exact(bytes)) => 8 * u64::from(bytes),
        _ => 0,
    };
    u64::from(offset) + length
}

pub fn one_with_flag_0(r: &mut Random, m: &mut Make) {
    let of = if r.one_in(2) {
        let width = r.between(1, 20);
        let int = m.odd_int(4, r.below(12), width);
        wrapped(r, m, int)
    } else {
        any_nature(r, m)
    };
    let offset = r.pick(&[0, 0, 8, 64, 1, 4, 7, 9, 12, 100]);
    let bytes = bytes_around(r, end_of(m, of, offset));
    let name = identifier(r, m);
    m.structure(bytes, false, &[[name, of, offset]]);
}

pub fn one_with_flag_1(r: &mut Random, m: &mut Make) {
    let of = match r.below(3) {
        0 => any_nature(r, m),
        1 => {
            // Regular and not, sized as its width and not.
            let width = r.pick(&[7, 8, 16, 16, 31, 32]);
            let int = m.odd_int(r.pick(&[4, 8]), r.pick(&[0, 0, 0, 8]), width);
            wrapped(r, m, int)
        }
        _ => {
            let base = regular_int(r, m);
            wrapped(r, m, base)
        }
    };
    let whole = match size_of(m, of) {
        SizeAnswer::Exact(bytes) => bytes.min(0x00FF_FFFF) * 8,
        _ => 8,
    };
    let width = r.pick(&[
        0,
        0,
        1,
        whole.min(255),
        (whole + 1).min(255),
        whole / 2 & 0xFF,
    ]);
    let offset = r.pick(&[0, 0, 8, 16, 1, 3, 7, 0x00FF_FFF8, 0x00FF_FFFF]);
    let length = if width == 0 { whole } else { width };
    let bytes = bytes_around(r, u64::from(offset) + u64::from(length));
    let name = identifier(r, m);
    m.structure(bytes, true, &[[name, of, field(width, offset)]]);
}

pub fn one_in_union(r: &mut Random, m: &mut Make) {
    let flag = r.one_in(2);
    let name = identifier(r, m);
    let first = any_nature(r, m);
    let second = regular_int(r, m);
    let offset = r.pick(&[0, 0, 0, 1, 8]);
    let width = if flag { r.pick(&[0, 0, 1, 8]) } else { 0 };
    let furthest = end_of(m, first, 0).max(end_of(m, second, offset));
    let bytes = bytes_around(r, furthest);
    m.union(
        bytes,
        flag,
        &[[name, first, 0], [name, second, field(width, offset)]],
    );
}

/// Two or three members whose offsets rise, stand or fall.
pub fn order(r: &mut Random, m: &mut Make) {
    let flag = r.one_in(2);
    let of = regular_int(r, m);
    let name = identifier(r, m);
    let mut members = Vec::new();
    let mut offset: u32 = 16;
    for _ in 0..r.between(2, 3) {
        offset = match r.below(5) {
            // three falls pass 0, and the last lies far outside
            0 => offset.wrapping_sub(8),
            1 => offset + 8,
            2 => offset + 1,
            _ => offset,
        };
        // A field's width stands above its offset and may fall freely.
        let width = if flag { r.pick(&[0, 1, 2, 8]) } else { 0 };
        members.push([name, of, field(width, offset)]);
    }
    m.structure(64, flag, &members);
}

/// Offsets and sizes whose sums and products pass 32 bits.
pub fn huge(r: &mut Random, m: &mut Make) {
    let index = regular_int(r, m);
    let name = identifier(r, m);
    let large = r.pick(&[1 << 29, (1 << 29) - 1, (1 << 29) + 1, u32::MAX, 1 << 31]);
    let of = match r.below(4) {
        0 => m.structure(large, false, &[]),
        1 => {
            let byte = m.int(1);
            m.array(byte, index, large)
        }
        2 => m.odd_int(16, r.pick(&[0, 8, 100]), r.pick(&[8, 9, 28])),
        _ => m.int(r.pick(&[1, 2, 16])),
    };
    let offset = r.pick(&[0, 8, 0xFFFF_FFF8, 0xFFFF_FFF0, 0xFFFF_FFFF, 1 << 31]);
    let bytes = bytes_around(r, end_of(m, of, offset));
    // What 32 bits would make of the end must not pass for it.
    let wrapped = (end_of(m, of, offset) as u32).div_ceil(8);
    let bytes = if r.one_in(3) { wrapped } else { bytes };
    m.structure(bytes, false, &[[name, of, offset]]);
}
