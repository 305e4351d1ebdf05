//! Phase 1: the header and the two sections, reports 1 to 5, of a table that
//! stands alone and of a module's.

use crate::limits::BYTE_LIMIT;
use crate::order::{Order, ORDERS};
use crate::report::Report;
use crate::table::HEADER_BYTES;

/// The order of a blob that passed phase 1, and the lengths of its sections.
#[derive(Clone, Copy, PartialEq, Eq, Debug)]
pub struct Sections {
    pub order: Order,
    pub type_len: usize,
    pub str_len: usize,
}

impl Sections {
    /// Where the string section begins, which is where the types end.
    pub fn strings_at(&self) -> usize {
        HEADER_BYTES + self.type_len
    }
}

pub fn phase_1(blob: &[u8]) -> Result<Sections, Report> {
    smallest_number(blob, blob.len(), report_5)
}

/// The same of a module's table: the byte limit counts its base's bytes too.
pub fn phase_1_leaning(base_bytes: usize, module: &[u8]) -> Result<Sections, Report> {
    smallest_number(module, base_bytes + module.len(), report_5_leaning)
}

/// Is the rule of a report broken?
type Broken = fn(&[u8]) -> bool;

/// The smallest number speaks, so the tests run in the order of the table.
fn smallest_number(
    blob: &[u8],
    limited_bytes: usize,
    report_5: Broken,
) -> Result<Sections, Report> {
    if report_1(blob, limited_bytes) {
        return Err(Report::bare(1));
    }
    let tests: [(u32, Broken); 4] = [(2, report_2), (3, report_3), (4, report_4), (5, report_5)];
    if let Some((number, _)) = tests.iter().find(|(_, broken)| broken(blob)) {
        return Err(Report::bare(*number));
    }
    Ok(Sections {
        order: Order::of(blob),
        type_len: word(blob, 12) as usize,
        str_len: word(blob, 20) as usize,
    })
}

/// A word of the header, in the blob's order.
fn word(blob: &[u8], place: usize) -> u32 {
    Order::of(blob).word(blob, place)
}

fn report_1(blob: &[u8], limited_bytes: usize) -> bool {
    blob.len() < HEADER_BYTES || limited_bytes > BYTE_LIMIT as usize
}

/// Neither order's four bytes.
fn report_2(blob: &[u8]) -> bool {
    ORDERS.iter().all(|order| blob[..4] != order.opening())
}

fn report_3(blob: &[u8]) -> bool {
    word(blob, 4) != 24
}

fn report_4(blob: &[u8]) -> bool {
    let type_off = word(blob, 8);
    let type_len = word(blob, 12);
    let str_off = word(blob, 16);
    let str_len = word(blob, 20);
    // In 64 bits, so that the sum is exact and cannot wrap past the test.
    let whole = 24 + u64::from(type_len) + u64::from(str_len);
    type_off != 0 || type_len % 4 != 0 || str_off != type_len || whole != blob.len() as u64
}

fn report_5(blob: &[u8]) -> bool {
    let strings = strings(blob);
    strings.is_empty() || strings[0] != 0 || ends_badly(strings)
}

/// A module's own strings may be none, and need no leading zero byte.
fn report_5_leaning(module: &[u8]) -> bool {
    ends_badly(strings(module))
}

/// Asked after report 4, so the string section is the end of the blob.
fn strings(blob: &[u8]) -> &[u8] {
    let str_len = word(blob, 20) as usize;
    &blob[blob.len() - str_len..]
}

fn ends_badly(strings: &[u8]) -> bool {
    strings.last().is_some_and(|byte| *byte != 0)
}
