//! Phase 6, the members of a STRUCT or UNION.

use crate::size::{exact_size, Size};
use crate::table::{Kind, Record, Table};

pub fn breaks_members(table: &Table, holder: &Record) -> bool {
    breaks_bit_offsets(holder)
        || holder
            .entries()
            .iter()
            .any(|member| breaks_span(table, holder, member))
}

/// A member's own bit offset: the whole word, or its low 24 bits with
/// kind_flag 1.
fn bit_offset(holder: &Record, member: &[u32]) -> u32 {
    if holder.kind_flag() {
        member[2] & 0x00FF_FFFF
    } else {
        member[2]
    }
}

/// Bit offsets don't fall in a struct and are 0 in a union.
fn breaks_bit_offsets(holder: &Record) -> bool {
    let offsets: Vec<u32> = holder
        .entries()
        .iter()
        .map(|member| bit_offset(holder, member))
        .collect();
    if holder.kind == Kind::Union {
        offsets.iter().any(|offset| *offset != 0)
    } else {
        offsets.windows(2).any(|pair| pair[1] < pair[0])
    }
}

/// A member has a span, which ends by 8 times the holder's size.
fn breaks_span(table: &Table, holder: &Record, member: &[u32]) -> bool {
    match span(table, holder, member) {
        Some(span) => span.end() > 8 * u64::from(holder.third),
        None => true,
    }
}

/// The bits of a holder that a member takes. A first bit may pass 2^32.
#[derive(Clone, Copy, PartialEq, Eq, Debug)]
pub struct Span {
    pub first: u64,
    pub bits: u64,
}

impl Span {
    fn end(&self) -> u64 {
        self.first + self.bits
    }
}

/// Nothing where a rule of the span itself is broken: a member has a size that
/// doesn't overflow.
pub fn span(table: &Table, holder: &Record, member: &[u32]) -> Option<Span> {
    let Size::Exact(bytes) = exact_size(table, member[1]) else {
        return None;
    };
    let base = base(table, member[1])?;
    if holder.kind_flag() {
        span_with_flag_1(holder, member, base, bytes)
    } else {
        span_with_flag_0(member, base, bytes)
    }
}

/// Follows TYPEDEF, qualifiers and TYPE_TAG.
pub fn base(table: &Table, type_number: u32) -> Option<&Record> {
    let mut record = table.record(type_number)?;
    while matches!(
        record.kind,
        Kind::Typedef | Kind::Volatile | Kind::Const | Kind::Restrict | Kind::TypeTag
    ) {
        record = table.record(record.third)?;
    }
    Some(record)
}

/// All 32 bits of the word are offset, so the sum needs 64.
fn span_with_flag_0(member: &[u32], base: &Record, bytes: u32) -> Option<Span> {
    let offset = u64::from(member[2]);
    if base.kind != Kind::Int {
        return whole_bytes(offset, bytes);
    }
    Some(Span {
        first: offset + u64::from(base.int_offset()),
        bits: u64::from(base.int_width()),
    })
}

/// The same where the word's top 8 bits are the field width.
fn span_with_flag_1(holder: &Record, member: &[u32], base: &Record, bytes: u32) -> Option<Span> {
    let width = u64::from(member[2] >> 24);
    let offset = u64::from(bit_offset(holder, member));
    if base.kind == Kind::Int && !base.int_is_regular() {
        return None;
    }
    if width == 0 {
        return whole_bytes(offset, bytes);
    }
    if !base.is_integer_or_enum() || width > 8 * u64::from(bytes) {
        return None;
    }
    Some(Span {
        first: offset,
        bits: width,
    })
}

/// 8 times size, from a multiple of 8.
fn whole_bytes(offset: u64, bytes: u32) -> Option<Span> {
    if offset % 8 != 0 {
        return None;
    }
    Some(Span {
        first: offset,
        bits: 8 * u64::from(bytes),
    })
}
