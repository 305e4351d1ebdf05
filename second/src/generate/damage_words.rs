//! Damage for the reports of phase 3: heads, names and tail words. Values
//! just inside the rules are among the choices too.

use crate::generate::pieces::*;
use crate::generate::random::Random;
use crate::make::Make;
use crate::table::{Kind, ALL_KINDS};

/// Report 10: one of its four rules at some record.
pub fn head(r: &mut Random, m: &mut Make) {
    match r.below(4) {
        0 => spare_bit(r, m),
        1 => kind_flag(r, m),
        2 => vlen(r, m),
        _ => third_word(r, m),
    }
}

fn spare_bit(r: &mut Random, m: &mut Make) {
    let kind = r.pick(&ALL_KINDS);
    let number = some_of(r, m, kind);
    let bit = r.pick(&[16, 17, 18, 19, 20, 21, 22, 23, 29, 30]);
    m.at(number).info |= 1 << bit;
}

fn kind_flag(r: &mut Random, m: &mut Make) {
    let kind = r.pick(&ALL_KINDS);
    let number = some_of(r, m, kind);
    m.at(number).info |= 1 << 31;
}

fn vlen(r: &mut Random, m: &mut Make) {
    let kind = r.pick(&ALL_KINDS);
    if kind.entry_words().is_some() {
        return vlen_of_func(r, m);
    }
    let number = some_of(r, m, kind);
    let vlen = r.pick(&[0, 1, 2, 3, 0x100, 0x8000, 0xFFFF]);
    m.at(number).set_vlen(vlen);
}

fn vlen_of_func(r: &mut Random, m: &mut Make) {
    let number = some_of(r, m, Kind::Func);
    let linkage = r.pick(&[0, 1, 2, 3, 4, 0x8000]);
    m.at(number).set_vlen(linkage);
}

fn third_word(r: &mut Random, m: &mut Make) {
    let listed = [
        Kind::Array,
        Kind::Fwd,
        Kind::Int,
        Kind::Enum,
        Kind::Enum64,
        Kind::Float,
    ];
    let kind = r.pick(&listed);
    let number = some_of(r, m, kind);
    let small = r.below(18);
    let other = r.pick(&[24, 32, 64, 128, 0x102, 0x0001_0004, 1 << 31, u32::MAX]);
    m.at(number).third = if r.one_in(3) { other } else { small };
}

/// Report 11: the name of some record or of one of its entries.
pub fn names(r: &mut Random, m: &mut Make) {
    let kind = r.pick(&ALL_KINDS);
    let number = some_of(r, m, kind);
    let offset = odd_name(r, m, kind);
    let named_entries = kind != Kind::Datasec && kind.entry_words().is_some();
    let words = kind.entry_words().unwrap_or(1);
    let record = m.at(number);
    let entries = record.tail.len() / words;
    if named_entries && entries > 0 && !r.one_in(3) {
        record.tail[words * r.below(entries as u32) as usize] = offset;
    } else {
        record.name = offset;
    }
}

/// Offsets near the end of the strings, and texts near the edges of the
/// rules.
fn odd_name(r: &mut Random, m: &mut Make, kind: Kind) -> u32 {
    let length = m.strings.len() as u32;
    match r.below(8) {
        0 => 0,
        1 => length - 1,
        2 => length,
        3 => r.pick(&[length + 1, length + 24, 1 << 31, u32::MAX]),
        4 => long_name(r, m),
        5 | 6 => edge_text(r, m),
        _ if kind == Kind::Datasec => section_edge(r, m),
        _ => r.below(length),
    }
}

fn long_name(r: &mut Random, m: &mut Make) -> u32 {
    let length = r.pick(&[126, 127, 128, 129]);
    let letter = r.pick(b"aZ_");
    m.string(vec![letter; length])
}

/// The characters beside the ranges of letters and digits.
fn edge_text(r: &mut Random, m: &mut Make) -> u32 {
    let odd = r.pick(b"/0 9:@A Z[^_`az{ ~\x7F\x80\xFF!\x1F.-");
    let text = match r.below(3) {
        0 => vec![odd],
        1 => vec![b'a', odd],
        _ => vec![odd, b'b', b'7'],
    };
    m.string(text)
}

fn section_edge(r: &mut Random, m: &mut Make) -> u32 {
    let edge = r.pick(&[31, 32, 33, 34, 125, 126, 127, 128, 255]);
    m.string([b'.', edge])
}

/// Report 12: the tail of an INT, a VAR or a prototype.
pub fn tails(r: &mut Random, m: &mut Make) {
    match r.below(5) {
        0 => linkage(r, m),
        1 => parameter(r, m),
        _ => int_tail(r, m),
    }
}

fn linkage(r: &mut Random, m: &mut Make) {
    let number = some_of(r, m, Kind::Var);
    let linkage = r.pick(&[0, 1, 2, 3, 4, 0x100, 1 << 31, u32::MAX]);
    if let Some(word) = m.at(number).tail.first_mut() {
        *word = linkage;
    }
}

fn int_tail(r: &mut Random, m: &mut Make) {
    let number = some_of(r, m, Kind::Int);
    let limit = m.at(number).third.saturating_mul(8).min(255);
    let below = r.below(limit + 1);
    let rule = r.below(6);
    let encoding = r.below(16);
    let spare = r.pick(&[8, 9, 10, 11, 12, 13, 14, 15, 28, 29, 30, 31]);
    let beyond = r.below(2);
    let Some(word) = m.at(number).tail.first_mut() else {
        return;
    };
    *word = match rule {
        0 => *word & !0xFF,
        1 => (*word & !0x0FFF_FFFF) | (encoding << 24) | (*word & 0x00FF_FFFF),
        2 => *word | (1 << spare),
        // Offset and width end at the limit or one bit past it.
        3 | 4 => (*word & 0x0F00_0000) | (below << 16) | ((limit - below + beyond) & 0xFF),
        _ => (*word & 0x0F00_00FF) | ((limit.wrapping_sub(*word & 0xFF) + beyond) & 0xFF) << 16,
    };
}

/// A parameter of type 0, here or there, named or not.
fn parameter(r: &mut Random, m: &mut Make) {
    let number = some_of(r, m, Kind::FuncProto);
    let name = match r.below(4) {
        0 => identifier(r, m),
        1 => m.strings.len() as u32 + r.below(2),
        _ => 0,
    };
    let of = plain(r, m);
    let record = m.at(number);
    let at = r.below(record.tail.len() as u32 / 2 + 1) as usize;
    let follows = r.one_in(2);
    let mut parameters: Vec<u32> = record.tail[..2 * at].to_vec();
    parameters.extend([name, 0]);
    if follows {
        parameters.extend([0, of]);
    }
    record.set_vlen(parameters.len() as u32 / 2);
    record.tail = parameters;
}
