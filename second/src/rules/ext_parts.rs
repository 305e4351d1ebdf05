//! How a .BTF.ext section lies in its bytes, whatever table it stands beside:
//! its header, its parts, their groups and records. Reports 41 and 43 to 46.

use crate::ext::ExtRefusal;
use crate::limits::BYTE_LIMIT;
use crate::order::Order;

/// The header without the place of the relocations, and with it.
pub const SHORT_HEADER: usize = 24;
pub const LONG_HEADER: usize = 32;
/// A group's name and how many records it has, before these.
pub const GROUP_HEAD: usize = 8;

/// What a part is made of. The parts stand in this order.
#[derive(Clone, Copy, PartialEq, Eq, Debug)]
pub enum RecordSort {
    /// Instruction offset, type.
    Function,
    /// Instruction offset, file, line text, line and column.
    Line,
    /// Instruction offset, type, access name, kind.
    Relocation,
}

pub const RECORD_SORTS: [RecordSort; 3] = [
    RecordSort::Function,
    RecordSort::Line,
    RecordSort::Relocation,
];

impl RecordSort {
    /// How many words a record has before any extra bytes.
    pub fn words(self) -> usize {
        match self {
            RecordSort::Function => 2,
            RecordSort::Line | RecordSort::Relocation => 4,
        }
    }

    pub fn bytes(self) -> usize {
        4 * self.words()
    }
}

/// A part as the header gives it: bytes of the section, none if it is empty.
#[derive(Clone, Copy, PartialEq, Eq, Debug)]
pub struct Part {
    pub sort: RecordSort,
    pub start: usize,
    pub end: usize,
}

/// A group that fits its part.
#[derive(Clone, Copy, PartialEq, Eq, Debug)]
pub struct Group {
    pub sort: RecordSort,
    /// Its name's offset into the table's strings, which nobody has judged.
    pub name: u32,
    /// How many records it has.
    pub count: usize,
    /// Where the first of them stands in the section, and how long each is.
    pub first: usize,
    pub record_size: usize,
}

impl Group {
    /// Where the record behind so many others stands in the section; behind all
    /// of them the group ends.
    pub fn place(&self, before: usize) -> usize {
        self.first + before * self.record_size
    }
}

pub fn report_41(section: &[u8]) -> bool {
    section.len() < SHORT_HEADER || section.len() > BYTE_LIMIT as usize
}

/// The parts of a section that has passed 41: reports 43 and 44.
pub fn parts_of(section: &[u8], order: Order) -> Result<Vec<Part>, ExtRefusal> {
    let header = order.word(section, 4) as usize;
    if report_43(section, header) {
        return Err(ExtRefusal::HeaderLength);
    }
    let spans: Vec<Span> = (8..header)
        .step_by(8)
        .map(|place| Span {
            offset: order.word(section, place).into(),
            length: order.word(section, place + 4).into(),
        })
        .collect();
    if report_44(section, header, &spans) {
        return Err(ExtRefusal::Parts);
    }
    let part = |(sort, span): (RecordSort, &Span)| {
        let start = header + span.offset as usize;
        let end = start + span.length as usize;
        Part { sort, start, end }
    };
    Ok(RECORD_SORTS.into_iter().zip(&spans).map(part).collect())
}

/// An offset, counted from the end of the header, and a length, as they are
/// read. In 64 bits, so that sums of them are exact.
struct Span {
    offset: u64,
    length: u64,
}

fn report_43(section: &[u8], header: usize) -> bool {
    ![SHORT_HEADER, LONG_HEADER].contains(&header) || header > section.len()
}

/// An empty part has its place too.
fn report_44(section: &[u8], header: usize, spans: &[Span]) -> bool {
    let mut end = 0;
    for span in spans {
        if span.offset != end || span.length % 4 != 0 {
            return true;
        }
        end += span.length;
    }
    header as u64 + end != section.len() as u64
}

/// The groups of a part from the front, up to the first that does not fit.
pub struct Groups<'a> {
    section: &'a [u8],
    order: Order,
    part: Part,
    record_size: usize,
    /// Where the next group begins, unless the part ends there.
    at: usize,
}

impl<'a> Groups<'a> {
    /// Report 45 is the part's own. An empty part has no record size.
    pub fn of(section: &'a [u8], order: Order, part: Part) -> Result<Groups<'a>, ExtRefusal> {
        let mut groups = Groups {
            section,
            order,
            part,
            record_size: 0,
            at: part.start,
        };
        if part.start < part.end {
            groups.record_size = order.word(section, part.start) as usize;
            groups.at += 4;
            if report_45(part.sort, groups.record_size) {
                return Err(ExtRefusal::RecordSize);
            }
        }
        Ok(groups)
    }

    /// The group at the front of the bytes that are left: report 46.
    fn next_group(&self) -> Result<Group, ExtRefusal> {
        let left = self.part.end - self.at;
        if left < GROUP_HEAD {
            return Err(ExtRefusal::Group);
        }
        let count = self.order.word(self.section, self.at + 4);
        if report_46(count, self.record_size, left - GROUP_HEAD) {
            return Err(ExtRefusal::Group);
        }
        Ok(Group {
            sort: self.part.sort,
            name: self.order.word(self.section, self.at),
            count: count as usize,
            first: self.at + GROUP_HEAD,
            record_size: self.record_size,
        })
    }
}

fn report_45(sort: RecordSort, record_size: usize) -> bool {
    record_size < sort.bytes() || record_size % 4 != 0
}

/// In 64 bits, so that the product is exact and cannot wrap past the test.
fn report_46(count: u32, record_size: usize, left: usize) -> bool {
    count == 0 || u64::from(count) * record_size as u64 > left as u64
}

impl Iterator for Groups<'_> {
    type Item = Result<Group, ExtRefusal>;

    fn next(&mut self) -> Option<Result<Group, ExtRefusal>> {
        if self.at == self.part.end {
            return None;
        }
        let group = self.next_group();
        // Nothing follows a fault.
        self.at = group.map_or(self.part.end, |group| group.place(group.count));
        Some(group)
    }
}
