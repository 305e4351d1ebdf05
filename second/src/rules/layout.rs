//! Phase 6, report 15: the layout rules.

use crate::members::breaks_members;
use crate::size::{exact_size, Size};
use crate::table::{Kind, Record, Table};

/// Is a layout rule of this very type broken? Phases 1 to 5 have passed.
pub fn report_15(table: &Table, record: &Record) -> bool {
    match record.kind {
        Kind::Array => breaks_array(table, record),
        Kind::Struct | Kind::Union => breaks_members(table, record),
        Kind::Var => !matches!(exact_size(table, record.third), Size::Exact(_)),
        Kind::DeclTag => breaks_component(table, record),
        Kind::Func => breaks_prototype(table, record),
        Kind::Datasec => breaks_entry_sizes(table, record) || breaks_placing(record),
        _ => false,
    }
}

/// The element has a size, which may overflow; the index INT is regular.
fn breaks_array(table: &Table, record: &Record) -> bool {
    let element_sized = exact_size(table, record.tail[0]) != Size::NoSize;
    let index_regular = match table.record(record.tail[1]) {
        Some(index) => index.int_is_regular(),
        None => false,
    };
    !element_sized || !index_regular
}

/// The component is a count from 0 within the tagged type, or all ones for
/// the type itself. It is not a type number.
fn breaks_component(table: &Table, record: &Record) -> bool {
    let component = record.tail[0];
    if component == u32::MAX {
        return false;
    }
    let Some(tagged) = table.record(record.third) else {
        return true;
    };
    let below = match tagged.kind {
        Kind::Struct | Kind::Union => tagged.vlen(),
        // A last 0/0 counts as a parameter here.
        Kind::Func => table.record(tagged.third).map_or(0, Record::vlen),
        _ => 0,
    };
    component >= below
}

/// A FUNC's prototype names every parameter but a last 0/0.
fn breaks_prototype(table: &Table, record: &Record) -> bool {
    let Some(prototype) = table.record(record.third) else {
        return true;
    };
    let parameters = prototype.entries();
    parameters.iter().enumerate().any(|(k, parameter)| {
        let is_last_0_0 = k + 1 == parameters.len() && parameter[0] == 0 && parameter[1] == 0;
        parameter[0] == 0 && !is_last_0_0
    })
}

/// Each entry is at least its variable's exact size, where that has one. An
/// overflowing variable has one that no entry reaches.
fn breaks_entry_sizes(table: &Table, record: &Record) -> bool {
    record
        .entries()
        .iter()
        .any(|entry| match exact_size(table, entry[0]) {
            Size::Exact(bytes) => entry[2] < bytes,
            Size::Overflow => true,
            Size::NoSize => false,
        })
}

/// If the section's size isn't 0, each entry starts at or after the end of
/// the one before and ends inside the section.
fn breaks_placing(record: &Record) -> bool {
    if record.third == 0 {
        return false;
    }
    let mut reached: u64 = 0;
    for entry in record.entries() {
        let start = u64::from(entry[1]);
        let end = start + u64::from(entry[2]);
        if start < reached || end > u64::from(record.third) {
            return true;
        }
        reached = end;
    }
    false
}
