//! Phase 3, report 12: the words after a record's head.

use crate::table::{Kind, Record};

/// Asked after report 10 has passed, so an INT's size is one of the list.
pub fn report_12(record: &Record) -> bool {
    match record.kind {
        Kind::Int => breaks_int(record),
        Kind::Var => record.tail[0] > 2,
        Kind::FuncProto => breaks_parameters(record),
        _ => false,
    }
}

fn breaks_int(record: &Record) -> bool {
    let spare = record.tail[0] & 0xF000_FF00;
    let width = record.int_width();
    spare != 0
        || ![0, 1, 2, 4].contains(&record.int_encoding())
        || width < 1
        || record.int_offset() + width > 8 * record.third
}

/// A parameter of type 0 stands for variable arguments: last, without a name.
fn breaks_parameters(record: &Record) -> bool {
    let entries = record.entries();
    entries.iter().enumerate().any(|(k, entry)| {
        let is_last = k + 1 == entries.len();
        entry[1] == 0 && (!is_last || entry[0] != 0)
    })
}
