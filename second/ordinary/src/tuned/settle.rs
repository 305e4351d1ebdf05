//! The second pass: phases 4 to 6 of the records that the first left open.

use super::members::{members, simple, Members};
use super::references::*;
use super::state::*;
use super::Table;
use crate::kinds::*;
use crate::words::{words, Order};

/// From the last type to the first. This settles all that only refer to later
/// ones, and sees every reference of the records that were open, so that every
/// 13 is known afterwards.
pub fn downwards<O: Order>(table: &Table) {
    let known = table.known();
    for (number, state) in known.states.iter().enumerate().rev() {
        let state = state.get();
        if state & DONE == DONE {
            continue;
        }
        let record = Walked::at::<O>(table, state);
        match record.and_then(|record| simply::<O>(known, record)) {
            Some((found, word)) => {
                table.states[number].set(state & !FOUND | found);
                known.words[number].set(word);
            }
            None => judge::<O>(table, number),
        }
    }
}

/// The short way of most open records: what is found, and the word. Nothing for
/// one that may be at fault.
#[inline(always)]
pub fn simply<'a, O: Order>(known: Known<'a>, record: Walked<'a>) -> Option<(u32, u32)> {
    if one_of(ALIASES, record.kind) {
        return alias(known, record.third).without_fault();
    }
    match record.kind {
        STRUCT | UNION if record.info >> 31 == 0 => {
            let value = simple::<O>(&record.members(known)?)?;
            Seen::structure(value, record.third).without_fault()
        }
        PTR => pointer(known, record.third).without_fault(),
        ARRAY => array(known, record.words::<O, 12, 3>()?).without_fault(),
        _ => None,
    }
}

/// A record that has been walked over, so that it is whole.
#[derive(Clone, Copy)]
pub struct Walked<'a> {
    pub kind: u32,
    pub info: u32,
    pub third: u32,
    /// All that follows the head.
    pub tail: &'a [u8],
}

impl<'a> Walked<'a> {
    #[inline(always)]
    pub fn at<O: Order>(table: &Table<'a>, state: u32) -> Option<Walked<'a>> {
        let place = place_of(state);
        let head = table.records.get(place..place + 12)?;
        let [_, info, third] = words::<O, 12, 3>(head.first_chunk()?);
        Some(Walked {
            kind: kind_of(state),
            info,
            third,
            tail: &table.records[place + 12..],
        })
    }

    /// The bytes of its entries.
    #[inline(always)]
    pub fn entries(&self, bytes: usize) -> Option<&'a [u8]> {
        self.tail.get(..bytes * vlen(self.info))
    }

    #[inline(always)]
    pub fn members(&self, known: Known<'a>) -> Option<Members<'a>> {
        Some(Members {
            known,
            info: self.info,
            size: self.third,
            tail: self.entries(12)?,
        })
    }

    /// The words behind its head, as many as a kind without entries has.
    #[inline(always)]
    pub fn words<O: Order, const BYTES: usize, const WORDS: usize>(&self) -> Option<[u32; WORDS]> {
        Some(words::<O, BYTES, WORDS>(self.tail.first_chunk()?))
    }
}

/// Judges the references of an open record by what is known now.
#[inline(never)]
pub fn judge<O: Order>(table: &Table, number: usize) {
    let state = table.states[number].get();
    let Some(seen) = seen::<O>(table, state) else {
        return;
    };
    table.states[number].set(state & !FOUND | seen.found);
    table.words[number].set(seen.word);
    if seen.fault != 0 {
        table.note(seen.fault, number);
    }
}

/// Nothing for a record that is cut short, which none is by then.
fn seen<O: Order>(table: &Table, state: u32) -> Option<Seen> {
    let known = table.known();
    let record = Walked::at::<O>(table, state)?;
    let third = record.third;
    Some(match record.kind {
        PTR => pointer(known, third),
        ARRAY => array(known, record.words::<O, 12, 3>()?),
        STRUCT | UNION => members::<O>(&record.members(known)?),
        VAR => variable(known, third),
        FUNC => function(known, third),
        FUNC_PROTO => prototype::<O>(known, third, record.entries(8)?),
        DATASEC => section::<O>(known, third, record.entries(12)?),
        DECL_TAG => {
            let [component] = record.words::<O, 4, 1>()?;
            tag::<O>(known, table.records, third, component)
        }
        _ => alias(known, third),
    })
}
