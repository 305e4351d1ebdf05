//! The first pass, for the kinds that come less often or have long tails.

use super::members::{members, Members};
use super::names::is_section_name;
use super::references::*;
use super::state::*;
use super::walk::{bare, named, named_or_not, Record, Rest};
use super::Table;
use crate::kinds::*;
use crate::words::{words, Order};

/// Spare bits of an info word, and those with kind_flag.
const SPARE: u32 = 0x60FF_0000;
const SPARE_OR_FLAG: u32 = 0xE0FF_0000;
const WITHOUT_FLAG: u32 = 0x7FFF_FFFF;

#[inline(never)]
pub fn array_of<'a, O: Order>(table: &Table<'a>, number: usize, rest: &'a [u8]) -> Rest<'a> {
    let record = Record::read::<O>(table, number, rest)?;
    let (tail, rest) = record.tail.split_first_chunk::<12>()?;
    if record.third != 0 {
        return table.refuse(10);
    }
    bare(table, record)?;
    let seen = array(record.known(table), words::<O, 12, 3>(tail));
    record.put(table, of_kind(ARRAY), seen);
    Some(rest)
}

#[inline(never)]
pub fn structure<'a, O: Order>(table: &Table<'a>, number: usize, rest: &'a [u8]) -> Rest<'a> {
    let record = Record::read::<O>(table, number, rest)?;
    let Record { info, third, .. } = record;
    let (tail, rest) = record.tail.split_at_checked(12 * vlen(info))?;
    if info & SPARE != 0 {
        return table.refuse(10);
    }
    named_or_not(table, record.name)?;
    for member in tail.as_chunks::<12>().0 {
        let [name] = words::<O, 12, 1>(member);
        named_or_not(table, name)?;
    }
    let seen = members::<O>(&Members {
        known: record.known(table),
        info,
        size: third,
        tail,
    });
    record.put(table, of_kind(kind(info)), seen);
    Some(rest)
}

/// ENUM and ENUM64, whose entries have so many bytes.
#[inline(never)]
pub fn enumeration<'a, O: Order, const ENTRY: usize>(
    table: &Table<'a>,
    number: usize,
    rest: &'a [u8],
) -> Rest<'a> {
    let record = Record::read::<O>(table, number, rest)?;
    let Record { info, third, .. } = record;
    let (tail, rest) = record.tail.split_at_checked(ENTRY * vlen(info))?;
    if info & SPARE != 0 || !one_of(ENUM_SIZES, third) {
        return table.refuse(10);
    }
    named_or_not(table, record.name)?;
    for value in tail.as_chunks::<ENTRY>().0 {
        let [name] = words::<O, ENTRY, 1>(value);
        named(table, name)?;
    }
    let seen = Seen::done(ENUMERATED, third);
    record.put(table, of_kind(kind(info)), seen);
    Some(rest)
}

#[inline(never)]
pub fn fwd<'a, O: Order>(table: &Table<'a>, number: usize, rest: &'a [u8]) -> Rest<'a> {
    let record = Record::read::<O>(table, number, rest)?;
    if record.info & WITHOUT_FLAG != FWD << 24 || record.third != 0 {
        return table.refuse(10);
    }
    named(table, record.name)?;
    record.put(table, of_kind(FWD), Seen::done(NO_SIZE, 0));
    Some(record.tail)
}

#[inline(never)]
pub fn func<'a, O: Order>(table: &Table<'a>, number: usize, rest: &'a [u8]) -> Rest<'a> {
    let record = Record::read::<O>(table, number, rest)?;
    if record.info & !1 != FUNC << 24 {
        return table.refuse(10);
    }
    named(table, record.name)?;
    let seen = function(record.known(table), record.third);
    record.put(table, of_kind(FUNC), seen);
    Some(record.tail)
}

#[inline(never)]
pub fn proto<'a, O: Order>(table: &Table<'a>, number: usize, rest: &'a [u8]) -> Rest<'a> {
    let record = Record::read::<O>(table, number, rest)?;
    let Record { info, third, .. } = record;
    let (tail, rest) = record.tail.split_at_checked(8 * vlen(info))?;
    if info & SPARE_OR_FLAG != 0 {
        return table.refuse(10);
    }
    if record.name != 0 {
        return table.refuse(11);
    }
    let all_named = parameters::<O>(table, tail)?;
    let seen = prototype::<O>(record.known(table), third, tail);
    record.put(table, of_kind(FUNC_PROTO) | all_named, seen);
    Some(rest)
}

/// The parameters' names, and where one of type 0 stands: NAMED, or 0 where one
/// has no name.
fn parameters<O: Order>(table: &Table, tail: &[u8]) -> Option<u32> {
    let (mut kept, mut state) = (true, NAMED);
    let mut last = [1, 1];
    for parameter in tail.as_chunks::<8>().0 {
        // the one before was not the last
        kept &= last[1] != 0;
        if last[0] == 0 {
            state = 0;
        }
        last = words::<O, 8, 2>(parameter);
        named_or_not(table, last[0])?;
    }
    let [name, of] = last;
    if !kept || of == 0 && name != 0 {
        return table.refuse(12);
    }
    Some(if name == 0 && of != 0 { 0 } else { state })
}

#[inline(never)]
pub fn var<'a, O: Order>(table: &Table<'a>, number: usize, rest: &'a [u8]) -> Rest<'a> {
    let record = Record::read::<O>(table, number, rest)?;
    let (linkage, rest) = record.tail.split_first_chunk::<4>()?;
    if record.info != VAR << 24 {
        return table.refuse(10);
    }
    named(table, record.name)?;
    if O::word(*linkage) > 2 {
        return table.refuse(12);
    }
    let seen = variable(record.known(table), record.third);
    record.put(table, of_kind(VAR), seen);
    Some(rest)
}

#[inline(never)]
pub fn datasec<'a, O: Order>(table: &Table<'a>, number: usize, rest: &'a [u8]) -> Rest<'a> {
    let record = Record::read::<O>(table, number, rest)?;
    let Record { info, third, .. } = record;
    let (tail, rest) = record.tail.split_at_checked(12 * vlen(info))?;
    if info & SPARE_OR_FLAG != 0 {
        return table.refuse(10);
    }
    if !is_section_name(table.strings, record.name) {
        return table.refuse(11);
    }
    let seen = section::<O>(record.known(table), third, tail);
    record.put(table, of_kind(DATASEC), seen);
    Some(rest)
}

#[inline(never)]
pub fn float<'a, O: Order>(table: &Table<'a>, number: usize, rest: &'a [u8]) -> Rest<'a> {
    let record = Record::read::<O>(table, number, rest)?;
    if record.info != FLOAT << 24 || !one_of(FLOAT_SIZES, record.third) {
        return table.refuse(10);
    }
    if record.name as usize >= table.strings.len() {
        return table.refuse(11);
    }
    record.put(table, of_kind(FLOAT), Seen::done(BYTES, record.third));
    Some(record.tail)
}

#[inline(never)]
pub fn decl_tag<'a, O: Order>(table: &Table<'a>, number: usize, rest: &'a [u8]) -> Rest<'a> {
    let record = Record::read::<O>(table, number, rest)?;
    let (component, rest) = record.tail.split_first_chunk::<4>()?;
    tag_head(table, record, DECL_TAG)?;
    let (known, component) = (record.known(table), O::word(*component));
    let seen = tag::<O>(known, table.records, record.third, component);
    record.put(table, of_kind(DECL_TAG), seen);
    Some(rest)
}

#[inline(never)]
pub fn type_tag<'a, O: Order>(table: &Table<'a>, number: usize, rest: &'a [u8]) -> Rest<'a> {
    let record = Record::read::<O>(table, number, rest)?;
    tag_head(table, record, TYPE_TAG)?;
    let seen = alias(record.known(table), record.third);
    record.put(table, of_kind(TYPE_TAG), seen);
    Some(record.tail)
}

/// A name that is not empty.
fn tag_head(table: &Table, record: Record, kind: u32) -> Option<()> {
    if record.info & WITHOUT_FLAG != kind << 24 {
        return table.refuse(10);
    }
    match table.strings.get(record.name as usize) {
        None | Some(0) => table.refuse(11),
        Some(_) => Some(()),
    }
}
