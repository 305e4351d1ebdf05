//! Names, types and sizes to choose from while a table grows.

use crate::chain::CHAIN_KINDS;
use crate::generate::grow::grow;
use crate::generate::random::Random;
use crate::header::phase_1;
use crate::make::Make;
use crate::names::{is_identifier, is_section_name};
use crate::reference::is_plain;
use crate::size::{size, SizeAnswer};
use crate::table::{Kind, Table};
use crate::walk::phase_2;

/// What a DECL_TAG may point at.
pub const TAGGABLE: [Kind; 5] = [
    Kind::Struct,
    Kind::Union,
    Kind::Func,
    Kind::Var,
    Kind::Typedef,
];

/// The table as the walk of phase 2 reads it, if it reads it at all.
pub fn table_of(m: &Make) -> Option<Table> {
    let blob = m.blob();
    phase_2(&blob, phase_1(&blob).ok()?).ok()
}

/// The byte place of every record, behind a 0 for void.
pub fn index_of(m: &Make) -> Vec<u32> {
    let mut index = vec![0];
    let mut place = 24;
    for record in &m.records {
        index.push(place);
        place += 12 + 4 * record.tail.len() as u32;
    }
    index
}

/// The size question doesn't trust the table, so a damaged one may be asked.
pub fn size_of(m: &Make, type_number: u32) -> SizeAnswer {
    size(&m.blob(), &index_of(m), type_number)
}

/// Follows TYPEDEF, qualifiers and TYPE_TAG, for at most n steps.
pub fn base_of(m: &Make, type_number: u32) -> u32 {
    let mut number = type_number;
    for _ in 0..m.records.len() {
        match kind_of(m, number) {
            Some(Kind::Typedef | Kind::Volatile | Kind::Const) => number = third_of(m, number),
            Some(Kind::Restrict | Kind::TypeTag) => number = third_of(m, number),
            _ => break,
        }
    }
    number
}

/// The types where the steps of the second sort of walk from a type start. A
/// ring is gone round once.
pub fn chain_from(m: &Make, type_number: u32) -> Vec<u32> {
    let mut chain = Vec::new();
    let mut number = type_number;
    let is_link = |number| kind_of(m, number).is_some_and(|kind| CHAIN_KINDS.contains(&kind));
    while is_link(number) && !chain.contains(&number) {
        chain.push(number);
        number = third_of(m, number);
    }
    chain
}

fn third_of(m: &Make, type_number: u32) -> u32 {
    m.records[type_number as usize - 1].third
}

pub fn kind_of(m: &Make, type_number: u32) -> Option<Kind> {
    let before = (type_number as usize).checked_sub(1)?;
    Kind::from_number(m.records.get(before)?.kind_number())
}

/// The types of a table that pass a test.
pub fn types_where(m: &Make, test: impl Fn(u32) -> bool) -> Vec<u32> {
    (1..=m.count()).filter(|number| test(*number)).collect()
}

/// A type of a kind, grown where there is none, and sometimes else too.
pub fn some_of(r: &mut Random, m: &mut Make, kind: Kind) -> u32 {
    let found = types_where(m, |number| kind_of(m, number) == Some(kind));
    match r.pick_any(&found) {
        Some(number) if !r.one_in(4) => number,
        _ => grow(r, m, kind),
    }
}

/// A plain type that is there already, or an INT grown now.
pub fn plain(r: &mut Random, m: &mut Make) -> u32 {
    let found = types_where(m, |number| kind_of(m, number).is_some_and(is_plain));
    match r.pick_any(&found) {
        Some(number) => number,
        None => grow(r, m, Kind::Int),
    }
}

/// Void, or a plain type.
pub fn void_or_plain(r: &mut Random, m: &mut Make) -> u32 {
    if r.one_in(4) {
        0
    } else {
        plain(r, m)
    }
}

/// A plain type whose size is exact, and what it is.
pub fn sized(r: &mut Random, m: &mut Make) -> (u32, u32) {
    for _ in 0..8 {
        let number = plain(r, m);
        if let SizeAnswer::Exact(bytes) = size_of(m, number) {
            return (number, bytes);
        }
    }
    (m.int(4), 4)
}

/// A plain type with a size, be it one that overflows.
pub fn sized_or_overflowing(r: &mut Random, m: &mut Make) -> u32 {
    for _ in 0..8 {
        let number = plain(r, m);
        if matches!(
            size_of(m, number),
            SizeAnswer::Exact(_) | SizeAnswer::Overflow
        ) {
            return number;
        }
    }
    m.int(2)
}

/// Is this INT regular?
pub fn is_regular(m: &Make, type_number: u32) -> bool {
    let tail = &m.records[type_number as usize - 1].tail;
    match tail.first() {
        Some(word) => (word >> 16) & 0xFF == 0 && [8, 16, 32, 64, 128].contains(&(word & 0xFF)),
        None => false,
    }
}

pub fn regular_int(r: &mut Random, m: &mut Make) -> u32 {
    let found = types_where(m, |number| {
        kind_of(m, number) == Some(Kind::Int) && is_regular(m, number)
    });
    match r.pick_any(&found) {
        Some(number) => number,
        None => {
            let bytes = r.pick(&[1, 2, 4, 8, 16]);
            m.int(bytes)
        }
    }
}

/// An offset to a text that passes a test: mostly one that is there, which
/// may be the rest of a longer name, else a new one.
fn text_where(r: &mut Random, m: &mut Make, new: &[u8], test: fn(&[u8]) -> bool) -> u32 {
    let found: Vec<u32> = (0..m.strings.len() as u32)
        .filter(|offset| {
            let rest = &m.strings[*offset as usize..];
            rest.iter()
                .position(|byte| *byte == 0)
                .is_some_and(|end| test(&rest[..end]))
        })
        .collect();
    match r.pick_any(&found) {
        Some(offset) if !r.one_in(4) => offset,
        _ => m.string(new),
    }
}

pub fn identifier(r: &mut Random, m: &mut Make) -> u32 {
    let first = r.pick(b"abkzAMZ_");
    let length = r.pick(&[0, 0, 1, 2, 3]);
    let mut text = vec![first];
    for _ in 0..length {
        text.push(r.pick(b"azAZ059_mQ"));
    }
    text_where(r, m, &text, is_identifier)
}

pub fn zero_or_identifier(r: &mut Random, m: &mut Make) -> u32 {
    if r.one_in(2) {
        0
    } else {
        identifier(r, m)
    }
}

/// INT and FLOAT take any offset, also one to an empty string.
pub fn any_name(r: &mut Random, m: &mut Make) -> u32 {
    match r.below(4) {
        0 => 0,
        1 => m.strings.len() as u32 - 1,
        2 => r.below(m.strings.len() as u32),
        _ => identifier(r, m),
    }
}

pub fn tag_text(r: &mut Random, m: &mut Make) -> u32 {
    let new: &[u8] = r.pick(&[b"t", b"1", b" ", b"a b", b"\xFF", b"-x", b"user"]);
    text_where(r, m, new, |text| !text.is_empty())
}

pub fn section_name(r: &mut Random, m: &mut Make) -> u32 {
    let new: &[u8] = r.pick(&[b".data", b".bss", b"!~", b"7", b"a-b", b".rodata"]);
    text_where(r, m, new, is_section_name)
}
