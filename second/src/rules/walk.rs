//! Phase 2: the walk over the type section, reports 6 to 9.

use crate::header::Sections;
use crate::limits::TYPE_LIMIT;
use crate::report::Report;
use crate::table::{kind_number_of, vlen_of, Kind, Record, Table};
use crate::table::{HEADER_BYTES, HEAD_BYTES};

pub fn phase_2(blob: &[u8], sections: Sections) -> Result<Table, Report> {
    phase_2_behind(0, blob, sections)
}

/// Walks the records one after the other and stops at the first fault. Their
/// numbers go on from so many types of a base, which the limit counts too.
pub fn phase_2_behind(base_count: u32, blob: &[u8], sections: Sections) -> Result<Table, Report> {
    let end = sections.strings_at();
    let mut place = HEADER_BYTES;
    let mut records = Vec::new();
    while place < end {
        // Report 8 comes before anything is read of the bytes that remain. Its
        // place is where the record too many would begin.
        let number = base_count + records.len() as u32 + 1;
        if report_8(number) {
            return Err(Report::new(8, number, place as u32));
        }
        let record = read_record(blob, sections, place, number)?;
        place += HEAD_BYTES + 4 * record.tail.len();
        records.push(record);
    }
    let strings = blob[end..].to_vec();
    Ok(Table {
        order: sections.order,
        records,
        strings,
    })
}

/// Asked where bytes remain: is the record that begins there one too many?
fn report_8(number: u32) -> bool {
    number > TYPE_LIMIT
}

/// Reads the record at a place: 6 for a head or tail that doesn't fit, 7 for
/// an unknown kind, which has no tail.
fn read_record(
    blob: &[u8],
    sections: Sections,
    place: usize,
    number: u32,
) -> Result<Record, Report> {
    let end = sections.strings_at();
    let word = |at| sections.order.word(blob, at);
    let refused = |report| Err(Report::new(report, number, place as u32));
    if place + HEAD_BYTES > end {
        return refused(6);
    }
    let info = word(place + 4);
    let Some(kind) = Kind::from_number(kind_number_of(info)) else {
        return refused(7);
    };
    let tail_words = kind.tail_words(vlen_of(info));
    let tail_at = place + HEAD_BYTES;
    if tail_at + 4 * tail_words > end {
        return refused(6);
    }
    Ok(Record {
        place,
        kind,
        name: word(place),
        info,
        third: word(place + 8),
        tail: (0..tail_words).map(|k| word(tail_at + 4 * k)).collect(),
    })
}

/// Void needs a place too, so n types ask n + 1 places of either slice.
pub fn report_9(table: &Table, index_places: usize, work_places: usize) -> bool {
    let needed = table.records.len() + 1;
    index_places < needed || work_places < needed
}
