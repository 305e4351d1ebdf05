//! The checker that is written for speed. Its time goes with the length of the
//! table, whatever the table holds.
//!
//! One pass over the records judges phases 2 and 3, and phases 4 to 6 of every
//! record that refers to earlier ones only (`walk`, `records`). A second pass,
//! from the last to the first, judges those that refer to later ones (`settle`),
//! and a search the few that are left (`rings`). What a record may ask of
//! another is remembered with that one (`state`), so nothing is walked twice.

mod members;
mod names;
mod records;
mod references;
mod rings;
mod settle;
mod state;
mod walk;

use crate::header::sections;
use crate::kinds::TYPE_LIMIT;
use crate::words::{HighFirst, LowFirst, Order};
use crate::Report;
use state::{place_of, Known, DONE, PLACE};
use std::cell::Cell;

/// Checks a blob. The index afterwards holds the byte places on acceptance and
/// is all 0 otherwise; the work slice is all 0 either way.
pub fn check(blob: &[u8], index: &mut [u32], work: &mut [u32]) -> Result<u32, Report> {
    let judged = judge(blob, index, work);
    work.fill(0);
    match judged {
        Ok(count) => {
            let (used, spare) = index.split_at_mut(count as usize + 1);
            used.iter_mut().for_each(|state| *state &= PLACE);
            spare.fill(0);
        }
        Err(_) => index.fill(0),
    }
    judged
}

fn judge(blob: &[u8], index: &mut [u32], work: &mut [u32]) -> Result<u32, Report> {
    let sections = sections(blob)?;
    let places = index.len().min(work.len()).min(TYPE_LIMIT + 1);
    let table = Table {
        records: sections.records,
        strings: sections.strings,
        states: Cell::from_mut(&mut index[..places]).as_slice_of_cells(),
        words: Cell::from_mut(&mut work[..places]).as_slice_of_cells(),
        faults: &Faults::default(),
    };
    if sections.high_first {
        table.judge::<HighFirst>()
    } else {
        table.judge::<LowFirst>()
    }
}

/// A table under judgement. What changes is in cells, so that every function
/// has the rest in registers.
#[derive(Clone, Copy)]
struct Table<'a> {
    /// The blob up to its strings.
    records: &'a [u8],
    strings: &'a [u8],
    /// As many places of the index and of the work slice as both have, and no
    /// more than a table can need.
    states: &'a [Cell<u32>],
    words: &'a [Cell<u32>],
    faults: &'a Faults,
}

/// What is wrong so far: the report of phase 3 that ended the walk, and the
/// smallest types with the reports of phases 4 and 6.
#[derive(Default)]
struct Faults {
    refused: Cell<u32>,
    first_13: Cell<Option<usize>>,
    first_15: Cell<Option<usize>>,
}

impl<'a> Table<'a> {
    /// The earliest phase speaks, then the smallest type.
    fn judge<O: Order>(mut self) -> Result<u32, Report> {
        let count = walk::walk::<O>(&self)?;
        self.states = &self.states[..=count];
        self.words = &self.words[..=count];
        let some_open = !self.all_done();
        if some_open {
            settle::downwards::<O>(&self);
        }
        self.reported(13, &self.faults.first_13)?;
        if some_open && !self.all_done() {
            rings::search::<O>(&self)?;
        }
        self.reported(15, &self.faults.first_15)?;
        Ok(count as u32)
    }

    /// Is nothing left to be asked of any type?
    fn all_done(&self) -> bool {
        let states = self.states.iter();
        states.fold(DONE, |all, state| all & state.get()) == DONE
    }

    /// All types, for what is asked when all are known.
    fn known(&self) -> Known<'a> {
        Known {
            states: self.states,
            words: &self.words[..self.states.len()],
            beyond: 0,
        }
    }

    /// Ends the walk with a report of phase 3.
    #[cold]
    #[inline(never)]
    fn refuse<T>(&self, report: u32) -> Option<T> {
        self.faults.refused.set(report);
        None
    }

    /// Remembers report 13 or 15 of a type, if none smaller has it.
    #[cold]
    #[inline(never)]
    fn note(&self, report: u32, number: usize) {
        let first = match report {
            13 => &self.faults.first_13,
            _ => &self.faults.first_15,
        };
        let smallest = first.get().map_or(number, |first| first.min(number));
        first.set(Some(smallest));
    }

    fn reported(&self, report: u32, first: &Cell<Option<usize>>) -> Result<(), Report> {
        match first.get() {
            Some(number) => Err(self.report(report, number)),
            None => Ok(()),
        }
    }

    fn report(&self, number: u32, of: usize) -> Report {
        Report {
            number,
            type_number: of as u32,
            place: place_of(self.states[of].get()) as u32,
        }
    }
}
