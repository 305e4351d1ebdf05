//! A module's table that leans on a base: its check, reports 25 and 26.

use crate::check::{fill_places, judge, phases_3_to_6};
use crate::header::phase_1_leaning;
use crate::order::Order;
use crate::report::Report;
use crate::table::Table;
use crate::walk::{phase_2_behind, report_9};

/// Why a module's table is refused, in the order in which the grounds are
/// asked.
#[derive(Clone, Copy, PartialEq, Eq, Debug)]
pub enum LeaningRefusal {
    Base(Report),
    OrdersDiffer,
    /// One of the reports 1 to 15. Its type goes on from the base's, and its
    /// place is in the module's blob.
    Module(Report),
}

impl LeaningRefusal {
    pub fn number(&self) -> u32 {
        match self {
            LeaningRefusal::Base(_) => 25,
            LeaningRefusal::OrdersDiffer => 26,
            LeaningRefusal::Module(report) => report.number,
        }
    }

    /// The refused base's own report.
    pub fn inner(&self) -> Option<Report> {
        match self {
            LeaningRefusal::Base(report) => Some(*report),
            _ => None,
        }
    }
}

/// Checks a module's table against its base and answers how many types both
/// have. The index afterwards holds each record's place in the blob that has it
/// on acceptance and is all 0 otherwise; the work slice is all 0 either way.
pub fn check_leaning(
    base: &[u8],
    module: &[u8],
    index: &mut [u32],
    work: &mut [u32],
) -> Result<u32, LeaningRefusal> {
    let judged = judge_leaning(base, module, index.len(), work.len());
    index.fill(0);
    work.fill(0);
    let both = judged?;
    fill_places(index, &both);
    Ok(both.count())
}

/// The base is checked with the lent slices, before all else.
pub fn judge_leaning(
    base: &[u8],
    module: &[u8],
    index_places: usize,
    work_places: usize,
) -> Result<Table, LeaningRefusal> {
    let table = judge(base, index_places, work_places).map_err(LeaningRefusal::Base)?;
    if begins_otherwise(table.order, module) {
        return Err(LeaningRefusal::OrdersDiffer);
    }
    judge_module(base.len(), table, module, index_places, work_places)
        .map_err(LeaningRefusal::Module)
}

/// Report 26, beside a base of this order: two bytes are enough, whatever
/// follows them.
pub fn begins_otherwise(base_order: Order, module: &[u8]) -> bool {
    module.starts_with(&base_order.other().magic())
}

/// The earliest phase speaks. From phase 3 on the rules are asked of both
/// together; they keep holding for the base, which refers to itself alone.
fn judge_module(
    base_bytes: usize,
    base: Table,
    module: &[u8],
    index_places: usize,
    work_places: usize,
) -> Result<Table, Report> {
    let sections = phase_1_leaning(base_bytes, module)?;
    let own = phase_2_behind(base.count(), module, sections)?;
    let both = together(base, own);
    if report_9(&both, index_places, work_places) {
        return Err(Report::bare(9));
    }
    phases_3_to_6(&both)?;
    Ok(both)
}

/// The base's records and strings, then the module's, so that numbers and
/// offsets go on from the base's.
fn together(mut base: Table, module: Table) -> Table {
    base.records.extend(module.records);
    base.strings.extend(module.strings);
    base
}
