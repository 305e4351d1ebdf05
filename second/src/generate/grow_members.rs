//! One more STRUCT or UNION whose members fit.

use crate::generate::pieces::*;
use crate::generate::random::Random;
use crate::make::{field, info, Make};
use crate::table::Kind;

pub fn grow_members(r: &mut Random, m: &mut Make, kind: Kind) -> u32 {
    let flag = r.one_in(2);
    let name = zero_or_identifier(r, m);
    let mut tail = Vec::new();
    let mut offset: u64 = 0;
    let mut furthest: u64 = 0;
    for _ in 0..r.below(4) {
        if kind == Kind::Struct {
            offset += r.pick(&[0, 0, 1, 4, 8, 16, 32]);
        }
        let Some((of, word, start, end)) = member(r, m, flag, offset) else {
            break;
        };
        if kind == Kind::Union && start != 0 {
            continue;
        }
        tail.extend([zero_or_identifier(r, m), of, word]);
        // The next offset may not fall; mostly it lies behind this member.
        offset = if kind == Kind::Struct && r.one_in(3) {
            start
        } else {
            end
        };
        furthest = furthest.max(end);
        if kind == Kind::Union {
            offset = 0;
        }
    }
    let bytes = furthest.div_ceil(8) + r.pick(&[0, 0, 0, 1, 8]);
    let vlen = tail.len() as u32 / 3;
    m.raw(
        name,
        info(kind, flag, vlen),
        bytes.min(u64::from(u32::MAX)) as u32,
        &tail,
    )
}

/// A member at an offset or soon after: type, offset word, start, end.
fn member(r: &mut Random, m: &mut Make, flag: bool, at: u64) -> Option<(u32, u32, u64, u64)> {
    let (of, bytes) = sized(r, m);
    let base = base_of(m, of);
    let whole = 8 * u64::from(bytes);
    let aligned = at.div_ceil(8) * 8;
    let kind = kind_of(m, base);
    let (width, start, length) = if !flag && kind == Some(Kind::Int) {
        let word = m.records[base as usize - 1].tail[0];
        (
            0,
            at,
            u64::from((word >> 16) & 0xFF) + u64::from(word & 0xFF),
        )
    } else if flag && kind == Some(Kind::Int) && !is_regular(m, base) {
        return None;
    } else if flag && matches!(kind, Some(Kind::Int | Kind::Enum | Kind::Enum64)) && r.one_in(2) {
        // A damaged base may have no bytes.
        let width = r.between(1, (whole as u32).max(1));
        (width, at, u64::from(width))
    } else {
        (0, aligned, whole)
    };
    let most = if flag { 0xFF_FFFF } else { 0xFFFF_FFFF };
    let end = start + length;
    if start > most || end.div_ceil(8) > 0xFFFF_FFFF {
        return None;
    }
    let word = if flag {
        field(width, start as u32)
    } else {
        start as u32
    };
    Some((of, word, start, end))
}
