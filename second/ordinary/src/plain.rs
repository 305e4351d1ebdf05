//! The checker that is written to be short: one phase after the other, each
//! over all types, and a chain is walked for each size that is asked.

mod layout;
mod records;
mod rings;

use crate::header::{sections, FIRST_PLACE};
use crate::kinds::{kind, tail_bytes, TYPE_LIMIT};
use crate::words::{HighFirst, LowFirst, Order};
use crate::Report;

/// Checks a blob. The index afterwards holds the byte places on acceptance and
/// is all 0 otherwise; the work slice is all 0 either way.
pub fn check(blob: &[u8], index: &mut [u32], work: &mut [u32]) -> Result<u32, Report> {
    index.fill(0);
    work.fill(0);
    let judged = judge(blob, index, work);
    if judged.is_err() {
        index.fill(0);
    }
    work.fill(0);
    judged
}

fn judge(blob: &[u8], index: &mut [u32], work: &mut [u32]) -> Result<u32, Report> {
    let sections = sections(blob)?;
    let mut table = Table {
        high_first: sections.high_first,
        records: sections.records,
        strings: sections.strings,
        places: index,
        count: 0,
    };
    table.count = table.walk(work.len())?;
    table.smallest(|number| table.breaks_record(number))?;
    table.smallest(|number| table.breaks_reference(number).then_some(13))?;
    if let Some(number) = table.first_endless(work) {
        return Err(report_at(14, number, table.place(number)));
    }
    table.smallest(|number| table.breaks_layout(number).then_some(15))?;
    Ok(table.count)
}

struct Table<'a> {
    high_first: bool,
    /// The blob up to its strings.
    records: &'a [u8],
    strings: &'a [u8],
    /// The index: where each record stands.
    places: &'a mut [u32],
    count: u32,
}

impl Table<'_> {
    /// Phase 2: how many records there are.
    fn walk(&mut self, work_places: usize) -> Result<u32, Report> {
        let (mut place, mut number) = (FIRST_PLACE, 0);
        while place < self.records.len() {
            number += 1;
            let refused = |report| Err(report_at(report, number as u32, place));
            if number > TYPE_LIMIT {
                return refused(8);
            }
            if place + 12 > self.records.len() {
                return refused(6);
            }
            let Some(tail) = tail_bytes(self.word(place + 4)) else {
                return refused(7);
            };
            if place + 12 + tail > self.records.len() {
                return refused(6);
            }
            if let Some(slot) = self.places.get_mut(number) {
                *slot = place as u32;
            }
            place += 12 + tail;
        }
        if self.places.len().min(work_places) <= number {
            return Err(Report::bare(9));
        }
        Ok(number as u32)
    }

    /// The smallest type that a report is found for.
    fn smallest(&self, found: impl Fn(u32) -> Option<u32>) -> Result<(), Report> {
        for number in 1..=self.count {
            if let Some(report) = found(number) {
                return Err(report_at(report, number, self.place(number)));
            }
        }
        Ok(())
    }

    fn word(&self, place: usize) -> u32 {
        let four = self.records[place..].first_chunk().expect("a whole record");
        if self.high_first {
            HighFirst::word(*four)
        } else {
            LowFirst::word(*four)
        }
    }

    fn place(&self, number: u32) -> usize {
        self.places[number as usize] as usize
    }

    fn name(&self, number: u32) -> u32 {
        self.word(self.place(number))
    }

    fn info(&self, number: u32) -> u32 {
        self.word(self.place(number) + 4)
    }

    /// A type's kind; 0 for void, nothing for a number above the last.
    fn kind(&self, number: u32) -> Option<u32> {
        match number {
            0 => Some(0),
            _ if number > self.count => None,
            _ => Some(kind(self.info(number))),
        }
    }

    fn third(&self, number: u32) -> u32 {
        self.word(self.place(number) + 8)
    }

    /// A word behind the head.
    fn tail(&self, number: u32, at: usize) -> u32 {
        self.word(self.place(number) + 12 + 4 * at)
    }
}

fn report_at(number: u32, type_number: u32, place: usize) -> Report {
    Report {
        number,
        type_number,
        place: place as u32,
    }
}
