//! Joining two tables.

use crate::check::judge;
use crate::limits::{BYTE_LIMIT, TYPE_LIMIT};
use crate::names::asked_of_entry;
use crate::reference::references;
use crate::report::Report;
use crate::table::{blob_in, Record, Table, HEAD_BYTES};

/// Why a join was refused, in the order in which the grounds are asked.
#[derive(Clone, Copy, PartialEq, Eq, Debug)]
pub enum JoinRefusal {
    First(Report),
    Second(Report),
    OrdersDiffer,
    TooManyTypes,
    TooLong,
    OutputTooShort,
}

impl JoinRefusal {
    pub fn number(&self) -> u32 {
        match self {
            JoinRefusal::First(_) => 16,
            JoinRefusal::Second(_) => 17,
            JoinRefusal::OrdersDiffer => 24,
            JoinRefusal::TooManyTypes => 18,
            JoinRefusal::TooLong => 19,
            JoinRefusal::OutputTooShort => 20,
        }
    }

    /// The refused table's own report.
    pub fn inner(&self) -> Option<Report> {
        match self {
            JoinRefusal::First(report) | JoinRefusal::Second(report) => Some(*report),
            _ => None,
        }
    }
}

/// Joins two blobs into the output and answers the joined length. No output
/// byte changes on refusal, nor past the joined length on success. Both u32
/// slices end all 0.
pub fn join(
    first: &[u8],
    second: &[u8],
    index: &mut [u32],
    work: &mut [u32],
    output: &mut [u8],
) -> Result<usize, JoinRefusal> {
    let joined = try_join(first, second, index.len(), work.len(), output.len());
    index.fill(0);
    work.fill(0);
    let joined = joined?;
    output[..joined.len()].copy_from_slice(&joined);
    Ok(joined.len())
}

/// The grounds of refusal in the paper's order, then the joined blob.
fn try_join(
    first: &[u8],
    second: &[u8],
    index_places: usize,
    work_places: usize,
    output_bytes: usize,
) -> Result<Vec<u8>, JoinRefusal> {
    // Each table is checked on its own with the lent slices.
    let first = judge(first, index_places, work_places).map_err(JoinRefusal::First)?;
    let second = judge(second, index_places, work_places).map_err(JoinRefusal::Second)?;
    if first.order != second.order {
        return Err(JoinRefusal::OrdersDiffer);
    }
    if first.count() + second.count() > TYPE_LIMIT {
        return Err(JoinRefusal::TooManyTypes);
    }
    let joined = joined_blob(&first, &second);
    if joined.len() > BYTE_LIMIT as usize {
        return Err(JoinRefusal::TooLong);
    }
    if output_bytes < joined.len() {
        return Err(JoinRefusal::OutputTooShort);
    }
    Ok(joined)
}

/// The header, the first's records, the second's raised, the first's strings,
/// the second's without their first byte, in the order that both have.
fn joined_blob(first: &Table, second: &Table) -> Vec<u8> {
    let mut types = Vec::new();
    for record in &first.records {
        types.extend(words_of(record));
    }
    for record in &second.records {
        types.extend(raised(
            record,
            first.count(),
            first.strings.len() as u32 - 1,
        ));
    }
    let strings = [&first.strings, &second.strings[1..]].concat();
    blob_in(first.order, &types, &strings)
}

/// A record as it stands: its head, then its tail.
pub fn words_of(record: &Record) -> Vec<u32> {
    let mut words = vec![record.name, record.info, record.third];
    words.extend(&record.tail);
    words
}

/// Every name offset but 0 rises by the first's strings less the shared zero
/// byte, every type number but 0 by the first's type count.
pub fn raised(record: &Record, types: u32, strings: u32) -> Vec<u32> {
    let raise = |number, by| if number == 0 { 0 } else { number + by };
    renumbered(record, |to| raise(to, types), |name| raise(name, strings))
}

/// A record with every type number and every name offset changed. A DECL_TAG's
/// component and all other words stay.
pub fn renumbered(
    record: &Record,
    type_number: impl Fn(u32) -> u32,
    name: impl Fn(u32) -> u32,
) -> Vec<u32> {
    let mut words = words_of(record);
    for at in name_words(record) {
        words[at] = name(words[at]);
    }
    for reference in references(record) {
        words[reference.word] = type_number(reference.to);
    }
    words
}

/// Where name offsets stand in a record, counted in words from its head.
pub fn name_words(record: &Record) -> Vec<usize> {
    let mut places = vec![0];
    if let (Some(_), Some(words)) = (asked_of_entry(record.kind), record.kind.entry_words()) {
        let head = HEAD_BYTES / 4;
        places.extend((0..record.vlen() as usize).map(|k| head + k * words));
    }
    places
}
