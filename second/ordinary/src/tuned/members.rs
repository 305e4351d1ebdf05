//! The members of a STRUCT or UNION, by what is known of their types.

use super::references::Seen;
use super::state::*;
use crate::kinds::*;
use crate::words::{words, Order};

/// The entries of a STRUCT or UNION.
pub struct Members<'a> {
    pub known: Known<'a>,
    pub info: u32,
    pub size: u32,
    pub tail: &'a [u8],
}

/// The short way, for a record without kind_flag: VALUE, or 0 where a member is
/// open. Nothing where a member may be at fault: all are plain, and those that
/// are done are INTs or whole bytes, none in front of the one before. Offsets
/// that don't fall are all 0 if the last is, as they must be in a union.
#[inline(always)]
pub fn simple<O: Order>(members: &Members) -> Option<u32> {
    let limit = 8 * u64::from(members.size);
    let (mut last, mut all) = (0, VALUE);
    for member in members.tail.as_chunks::<12>().0 {
        let [_, of, offset] = words::<O, 12, 3>(member);
        let (state, word) = members.known.at(of);
        if state & PLAIN == 0 || offset < last {
            return None;
        }
        all &= state;
        last = offset;
        if state & VALUE != 0 {
            let bits = if state & WHOLE != 0 && offset & 7 == 0 {
                8 * u64::from(word)
            } else if state & INTEGER != 0 {
                u64::from(int_end(word))
            } else {
                return None;
            };
            if u64::from(offset) + bits > limit {
                return None;
            }
        }
    }
    if last != 0 && kind(members.info) == UNION {
        return None;
    }
    Some(all)
}

/// What its members' references say of any STRUCT or UNION. An open member's
/// span means nothing, and the layout is judged where none is.
pub fn members<O: Order>(members: &Members) -> Seen {
    let limit = 8 * u64::from(members.size);
    let has_fields = members.info >> 31 == 1;
    let (mut last, mut all, mut kept) = (0, u32::MAX, true);
    for member in members.tail.as_chunks::<12>().0 {
        let [_, of, at] = words::<O, 12, 3>(member);
        let (state, word) = members.known.at(of);
        let (offset, bits) = if has_fields {
            (at & 0x00FF_FFFF, field_bits(state, word, at))
        } else {
            (at, bits(state, word, at))
        };
        let ends = bits.is_some_and(|bits| u64::from(offset) + bits <= limit);
        kept &= ends && offset >= last;
        all &= state;
        last = offset;
    }
    kept &= last == 0 || kind(members.info) == STRUCT;
    let found = BYTES | all & VALUE | CHAIN;
    Seen::judged(all & PLAIN != 0, kept, found, members.size)
}

/// How many bits behind its offset a member with kind_flag 0 ends; nothing
/// where it breaks a rule.
fn bits(state: u32, word: u32, offset: u32) -> Option<u64> {
    match state & CLASS {
        REGULAR | ODD => Some(u64::from(int_end(word))),
        BYTES | ENUMERATED if offset & 7 == 0 => Some(8 * u64::from(word)),
        _ => None,
    }
}

/// An INT's offset and width together.
#[inline(always)]
fn int_end(word: u32) -> u32 {
    (word >> 16 & 0xFF) + (word & 0xFF)
}

/// The same with kind_flag 1, where the top 8 bits of the word are the width of
/// a field, or 0.
fn field_bits(state: u32, word: u32, at: u32) -> Option<u64> {
    let all = 8 * u64::from(size_of(state, word)?);
    let width = u64::from(at >> 24);
    match (state & CLASS, width) {
        (ODD, _) => None,
        (_, 0) => (at & 7 == 0).then_some(all),
        (BYTES, _) => None,
        _ => (width <= all).then_some(width),
    }
}
