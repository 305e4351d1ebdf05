//! The first pass: phases 2 and 3 of all records, and phases 4 to 6 of each
//! that only refers to those in front of it. The kinds that come most often are
//! judged here, the others in `records`.

use super::members::{simple, Members};
use super::names::is_identifier;
use super::records::*;
use super::references::*;
use super::state::*;
use super::Table;
use crate::header::FIRST_PLACE;
use crate::kinds::*;
use crate::words::{words, Order};
use crate::Report;

/// What follows a record, or nothing where the walk ends.
pub type Rest<'a> = Option<&'a [u8]>;

/// Walks all records and answers how many there are.
pub fn walk<O: Order>(table: &Table) -> Result<usize, Report> {
    // one length for both, so that a place is tested once
    let words = &table.words[..table.states.len()];
    let table = &Table { words, ..*table };
    let mut rest = &table.records[FIRST_PLACE..];
    let mut number = 1;
    let Some(void) = table.states.first() else {
        return Err(stopped::<O>(table, number, rest));
    };
    void.set(VOID);
    while let Some(next) = taken::<O>(table, number, rest) {
        rest = next;
        number += 1;
    }
    if rest.is_empty() {
        Ok(number - 1)
    } else {
        Err(stopped::<O>(table, number, rest))
    }
}

/// Goes on with phase 2 alone from a record that ended the walk: its reports
/// come before those of a later phase.
#[cold]
fn stopped<O: Order>(table: &Table, number: usize, rest: &[u8]) -> Report {
    let at = |report: u32, number: usize, rest: &[u8]| Report {
        number: report,
        type_number: number as u32,
        place: (table.records.len() - rest.len()) as u32,
    };
    let (mut walked, mut left) = (number, rest);
    while !left.is_empty() {
        if walked > TYPE_LIMIT {
            return at(8, walked, left);
        }
        let Some((head, tail)) = left.split_first_chunk::<12>() else {
            return at(6, walked, left);
        };
        let [_, info, _] = words::<O, 12, 3>(head);
        let Some(bytes) = tail_bytes(info) else {
            return at(7, walked, left);
        };
        let Some(next) = tail.get(bytes..) else {
            return at(6, walked, left);
        };
        (walked, left) = (walked + 1, next);
    }
    if walked > table.states.len() {
        Report::bare(9)
    } else {
        at(table.faults.refused.get(), number, rest)
    }
}

/// A record's head, and all that follows it.
#[derive(Clone, Copy)]
pub struct Record<'a> {
    pub number: usize,
    pub place: u32,
    pub name: u32,
    pub info: u32,
    pub third: u32,
    pub tail: &'a [u8],
}

impl<'a> Record<'a> {
    #[inline(always)]
    pub fn read<O: Order>(table: &Table<'a>, number: usize, rest: &'a [u8]) -> Option<Self> {
        let (head, tail) = rest.split_first_chunk::<12>()?;
        if number >= table.states.len() {
            return None;
        }
        let [name, info, third] = words::<O, 12, 3>(head);
        Some(Record {
            number,
            place: (table.records.len() - rest.len()) as u32,
            name,
            info,
            third,
            tail,
        })
    }

    /// The types in front of this one.
    #[inline(always)]
    pub fn known(&self, table: &Table<'a>) -> Known<'a> {
        Known {
            states: &table.states[..self.number],
            words: &table.words[..self.number],
            beyond: UNSEEN,
        }
    }

    /// Remembers it, with a state that has its kind.
    #[inline(always)]
    pub fn put(&self, table: &Table<'a>, state: u32, seen: Seen) {
        table.states[self.number].set(self.place | state | seen.found);
        table.words[self.number].set(seen.word);
        if seen.fault != 0 {
            table.note(seen.fault, self.number);
        }
    }
}

#[inline(always)]
fn taken<'a, O: Order>(table: &Table<'a>, number: usize, rest: &'a [u8]) -> Rest<'a> {
    let record = Record::read::<O>(table, number, rest)?;
    match kind(record.info) {
        INT => int::<O>(table, record),
        PTR => ptr(table, record),
        VOLATILE | CONST | RESTRICT => qualifier(table, record),
        TYPEDEF => typedef(table, record),
        STRUCT | UNION => match simple_structure::<O>(table, record) {
            None => structure::<O>(table, number, rest),
            next => next,
        },
        ARRAY => array_of::<O>(table, number, rest),
        ENUM => enumeration::<O, 8>(table, number, rest),
        ENUM64 => enumeration::<O, 12>(table, number, rest),
        FWD => fwd::<O>(table, number, rest),
        FUNC => func::<O>(table, number, rest),
        FUNC_PROTO => proto::<O>(table, number, rest),
        VAR => var::<O>(table, number, rest),
        DATASEC => datasec::<O>(table, number, rest),
        FLOAT => float::<O>(table, number, rest),
        DECL_TAG => decl_tag::<O>(table, number, rest),
        TYPE_TAG => type_tag::<O>(table, number, rest),
        _ => None,
    }
}

/// Most INTs have all bits of their size.
#[inline(always)]
fn int<'a, O: Order>(table: &Table<'a>, record: Record<'a>) -> Rest<'a> {
    let (tail, rest) = record.tail.split_first_chunk::<4>()?;
    let (word, size) = (O::word(*tail), record.third);
    if record.info != INT << 24 || !one_of(INT_SIZES, size) {
        return table.refuse(10);
    }
    if record.name as usize >= table.strings.len() {
        return table.refuse(11);
    }
    let class = if word & 0xF0FF_FFFF == 8 * size {
        REGULAR
    } else {
        class_of(table, word, size)?
    };
    if !one_of(ENCODINGS, word >> 24) {
        return table.refuse(12);
    }
    let seen = Seen::done(class, word | size << 8);
    record.put(table, of_kind(INT), seen);
    Some(rest)
}

/// Of any other INT.
#[inline(never)]
fn class_of(table: &Table, word: u32, size: u32) -> Option<u32> {
    let (width, offset) = (word & 0xFF, word >> 16 & 0xFF);
    if word & 0xF000_FF00 != 0 || width == 0 || offset + width > 8 * size {
        return table.refuse(12);
    }
    let is_regular = offset == 0 && width >= 8 && width.is_power_of_two();
    Some(if is_regular { REGULAR } else { ODD })
}

#[inline(always)]
fn ptr<'a>(table: &Table<'a>, record: Record<'a>) -> Rest<'a> {
    bare(table, record)?;
    let seen = pointer(record.known(table), record.third);
    record.put(table, of_kind(PTR), seen);
    Some(record.tail)
}

#[inline(always)]
fn qualifier<'a>(table: &Table<'a>, record: Record<'a>) -> Rest<'a> {
    bare(table, record)?;
    let seen = alias(record.known(table), record.third);
    let state = record.info >> (24 - KIND_AT) | PLAIN | REFERABLE;
    record.put(table, state, seen);
    Some(record.tail)
}

/// A head of nothing but a kind and a type.
#[inline(always)]
pub fn bare(table: &Table, record: Record) -> Option<()> {
    if record.info & 0xE0FF_FFFF != 0 {
        return table.refuse(10);
    }
    if record.name != 0 {
        return table.refuse(11);
    }
    Some(())
}

#[inline(always)]
fn typedef<'a>(table: &Table<'a>, record: Record<'a>) -> Rest<'a> {
    if record.info != TYPEDEF << 24 {
        return table.refuse(10);
    }
    named(table, record.name)?;
    let seen = alias(record.known(table), record.third);
    record.put(table, of_kind(TYPEDEF), seen);
    Some(record.tail)
}

/// The short way of most structs and unions; nothing for one that is at fault
/// or has bit fields. Names come first and references then, since both at once
/// want more registers than there are.
#[inline(always)]
fn simple_structure<'a, O: Order>(table: &Table<'a>, record: Record<'a>) -> Rest<'a> {
    let Record { info, third, .. } = record;
    let (tail, rest) = record.tail.split_at_checked(12 * vlen(info))?;
    if info & 0xE0FF_0000 != 0 || !is_named_or_not(table, record.name) {
        return None;
    }
    for member in tail.as_chunks::<12>().0 {
        let [name] = words::<O, 12, 1>(member);
        if !is_named_or_not(table, name) {
            return None;
        }
    }
    let value = simple::<O>(&Members {
        known: record.known(table),
        info,
        size: third,
        tail,
    })?;
    let state = info >> 24 << KIND_AT | PLAIN | REFERABLE;
    record.put(table, state, Seen::structure(value, third));
    Some(rest)
}

#[inline(always)]
pub fn named(table: &Table, name: u32) -> Option<()> {
    if is_identifier(table.strings, name) {
        Some(())
    } else {
        table.refuse(11)
    }
}

#[inline(always)]
fn is_named_or_not(table: &Table, name: u32) -> bool {
    name == 0 || is_identifier(table.strings, name)
}

#[inline(always)]
pub fn named_or_not(table: &Table, name: u32) -> Option<()> {
    if is_named_or_not(table, name) {
        Some(())
    } else {
        table.refuse(11)
    }
}
