//! The gate: checking a blob, phase by phase.

use crate::chain::report_14;
use crate::head::report_10;
use crate::header::phase_1;
use crate::layout::report_15;
use crate::names::report_11;
use crate::reference::report_13;
use crate::report::Report;
use crate::table::{Record, Table};
use crate::tail::report_12;
use crate::walk::{phase_2, report_9};

/// Checks a blob. The index afterwards holds the byte places on acceptance
/// and is all 0 otherwise; the work slice is all 0 either way.
pub fn check(blob: &[u8], index: &mut [u32], work: &mut [u32]) -> Result<u32, Report> {
    Ok(checked(blob, index, work)?.count())
}

/// The same, with the table that was accepted for an answer.
pub fn checked(blob: &[u8], index: &mut [u32], work: &mut [u32]) -> Result<Table, Report> {
    let judged = judge(blob, index.len(), work.len());
    index.fill(0);
    work.fill(0);
    let table = judged?;
    fill_places(index, &table);
    Ok(table)
}

/// Place k of the index is where record k stands in the blob that has it.
pub fn fill_places(index: &mut [u32], table: &Table) {
    for (before, record) in table.records.iter().enumerate() {
        index[before + 1] = record.place as u32;
    }
}

/// The earliest phase speaks.
pub fn judge(blob: &[u8], index_places: usize, work_places: usize) -> Result<Table, Report> {
    let sections = phase_1(blob)?;
    let table = phase_2(blob, sections)?;
    if report_9(&table, index_places, work_places) {
        return Err(Report::bare(9));
    }
    phases_3_to_6(&table)?;
    Ok(table)
}

/// What is asked of records that have their places, in whichever blob.
pub fn phases_3_to_6(table: &Table) -> Result<(), Report> {
    phase_3(table)?;
    smallest_type(table, 13, report_13)?;
    if let Some(type_number) = report_14(table) {
        return Err(naming(table, 14, type_number));
    }
    smallest_type(table, 15, report_15)
}

/// The smallest type, then the smallest number.
fn phase_3(table: &Table) -> Result<(), Report> {
    for (record, type_number) in table.records.iter().zip(1..) {
        if report_10(record) {
            return Err(naming(table, 10, type_number));
        }
        if report_11(table, record) {
            return Err(naming(table, 11, type_number));
        }
        if report_12(record) {
            return Err(naming(table, 12, type_number));
        }
    }
    Ok(())
}

fn smallest_type(
    table: &Table,
    number: u32,
    broken: fn(&Table, &Record) -> bool,
) -> Result<(), Report> {
    match table
        .records
        .iter()
        .position(|record| broken(table, record))
    {
        Some(before) => Err(naming(table, number, before as u32 + 1)),
        None => Ok(()),
    }
}

/// A report on a type of the table, which stands at its record's place.
fn naming(table: &Table, number: u32, type_number: u32) -> Report {
    let place = table.records[type_number as usize - 1].place;
    Report::new(number, type_number, place as u32)
}
