//! The .BTF.ext section beside its table: reports 40 to 48. How it lies in its
//! bytes is `ext_parts`.

use crate::check::checked;
use crate::ext_parts::{parts_of, report_41, Group, Groups, RecordSort};
use crate::report::Report;
use crate::table::{Kind, Table};

/// Why a section is refused, in the order of the numbers.
#[derive(Clone, Copy, PartialEq, Eq, Debug)]
pub enum ExtRefusal {
    Table(Report),
    Length,
    Opening,
    HeaderLength,
    Parts,
    RecordSize,
    Group,
    Name,
    Type,
}

impl ExtRefusal {
    pub fn number(&self) -> u32 {
        match self {
            ExtRefusal::Table(_) => 40,
            ExtRefusal::Length => 41,
            ExtRefusal::Opening => 42,
            ExtRefusal::HeaderLength => 43,
            ExtRefusal::Parts => 44,
            ExtRefusal::RecordSize => 45,
            ExtRefusal::Group => 46,
            ExtRefusal::Name => 47,
            ExtRefusal::Type => 48,
        }
    }

    /// The refused table's own report.
    pub fn inner(&self) -> Option<Report> {
        match self {
            ExtRefusal::Table(report) => Some(*report),
            _ => None,
        }
    }
}

/// Checks a section beside a table. The slices end as the check of the table
/// leaves them, whatever is answered.
pub fn check_ext(
    blob: &[u8],
    section: &[u8],
    index: &mut [u32],
    work: &mut [u32],
) -> Result<(), ExtRefusal> {
    let table = checked(blob, index, work).map_err(ExtRefusal::Table)?;
    if report_41(section) {
        return Err(ExtRefusal::Length);
    }
    if report_42(&table, section) {
        return Err(ExtRefusal::Opening);
    }
    for part in parts_of(section, table.order)? {
        for group in Groups::of(section, table.order, part)? {
            judge_group(&table, section, &group?)?;
        }
    }
    Ok(())
}

/// An accepted table begins with its order's four bytes.
fn report_42(table: &Table, section: &[u8]) -> bool {
    section[..4] != table.order.opening()
}

/// A group that fits: its name, then record by record, the smaller number of
/// each first.
fn judge_group(table: &Table, section: &[u8], group: &Group) -> Result<(), ExtRefusal> {
    if is_past(table, group.name) {
        return Err(ExtRefusal::Name);
    }
    for before in 0..group.count {
        let place = group.place(before);
        let word = |at: usize| table.order.word(section, place + 4 * at);
        let words: Vec<u32> = (0..group.sort.words()).map(word).collect();
        if report_47(table, group.sort, &words) {
            return Err(ExtRefusal::Name);
        }
        if report_48(table, group.sort, &words) {
            return Err(ExtRefusal::Type);
        }
    }
    Ok(())
}

/// Is a name not below the string length?
fn is_past(table: &Table, name: u32) -> bool {
    name as usize >= table.strings.len()
}

/// Of a line its file and its text, of a relocation its access name.
fn report_47(table: &Table, sort: RecordSort, words: &[u32]) -> bool {
    let names = match sort {
        RecordSort::Function => &words[..0],
        RecordSort::Line => &words[1..3],
        RecordSort::Relocation => &words[2..3],
    };
    names.iter().any(|name| is_past(table, *name))
}

/// Void is no FUNC, but a relocation may be of it.
fn report_48(table: &Table, sort: RecordSort, words: &[u32]) -> bool {
    match sort {
        RecordSort::Function => table.kind(words[1]) != Some(Kind::Func),
        RecordSort::Line => false,
        RecordSort::Relocation => words[1] > table.count(),
    }
}
