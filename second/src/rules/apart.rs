//! Taking a joined table apart into the two it was joined of: reports 60, 61.

use crate::check::checked;
use crate::join::{name_words, renumbered, words_of};
use crate::reference::references;
use crate::report::Report;
use crate::table::{blob_in, Record, Table};

/// The first table's own numbers: how many types it has, and how many bytes
/// its strings have.
#[derive(Clone, Copy, PartialEq, Eq, Hash, Debug)]
pub struct Cut {
    pub types: u32,
    pub strings: u32,
}

/// Why a table is not taken apart, in the order in which the grounds are asked.
#[derive(Clone, Copy, PartialEq, Eq, Debug)]
pub enum ApartRefusal {
    /// The table's own report, which is the answer itself.
    Table(Report),
    NoSuchPair,
    OutputTooShort,
}

impl ApartRefusal {
    pub fn number(&self) -> u32 {
        match self {
            ApartRefusal::Table(report) => report.number,
            ApartRefusal::NoSuchPair => 60,
            ApartRefusal::OutputTooShort => 61,
        }
    }
}

/// Takes a blob apart and answers both lengths. No byte of either output
/// changes on refusal, nor past its table on success. The slices end as the
/// check of the blob leaves them, whatever is answered.
pub fn take_apart(
    blob: &[u8],
    cut: Cut,
    index: &mut [u32],
    work: &mut [u32],
    first: &mut [u8],
    second: &mut [u8],
) -> Result<[usize; 2], ApartRefusal> {
    let table = checked(blob, index, work).map_err(ApartRefusal::Table)?;
    if !is_good(&table, cut) {
        return Err(ApartRefusal::NoSuchPair);
    }
    let [a, b] = parts(&table, cut);
    if first.len() < a.len() || second.len() < b.len() {
        return Err(ApartRefusal::OutputTooShort);
    }
    first[..a.len()].copy_from_slice(&a);
    second[..b.len()].copy_from_slice(&b);
    Ok([a.len(), b.len()])
}

/// The byte before the cut in the strings is zero, and neither a reference nor
/// a name crosses it.
pub fn is_good(table: &Table, cut: Cut) -> bool {
    let (types, strings) = (cut.types as usize, cut.strings as usize);
    if types > table.records.len() || strings == 0 || strings > table.strings.len() {
        return false;
    }
    let (earlier, later) = table.records.split_at(types);
    table.strings[strings - 1] == 0
        && earlier.iter().all(|record| stays_before(record, cut))
        && later.iter().all(|record| stays_behind(record, cut))
}

fn stays_before(record: &Record, cut: Cut) -> bool {
    names(record).iter().all(|name| *name < cut.strings)
        && references(record).iter().all(|one| one.to <= cut.types)
}

/// A name in front of the cut crosses it even if its string is empty.
fn stays_behind(record: &Record, cut: Cut) -> bool {
    let is_own = |name: &u32| *name == 0 || *name >= cut.strings;
    names(record).iter().all(is_own)
        && references(record)
            .iter()
            .all(|one| one.to == 0 || one.to > cut.types)
}

/// Every name offset that a record holds.
fn names(record: &Record) -> Vec<u32> {
    let words = words_of(record);
    name_words(record).iter().map(|at| words[*at]).collect()
}

/// The two tables of a good cut, in the order of the whole. The zero byte that
/// the second's strings begin with stands in front of the first's.
fn parts(table: &Table, cut: Cut) -> [Vec<u8>; 2] {
    let (earlier, later) = table.records.split_at(cut.types as usize);
    let (before, behind) = table.strings.split_at(cut.strings as usize);
    let first: Vec<u32> = earlier.iter().flat_map(words_of).collect();
    let second: Vec<u32> = later.iter().flat_map(|one| lowered(one, cut)).collect();
    [
        blob_in(table.order, &first, before),
        blob_in(table.order, &second, &[&[0], behind].concat()),
    ]
}

/// What a join raised is lowered by as much.
fn lowered(record: &Record, cut: Cut) -> Vec<u32> {
    let lower = |number, by| if number == 0 { 0 } else { number - by };
    renumbered(
        record,
        |to| lower(to, cut.types),
        |name| lower(name, cut.strings - 1),
    )
}
