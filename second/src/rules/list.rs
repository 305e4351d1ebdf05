//! The house list, and a table written out as one: reports 53 and 54. Reading
//! it back is `list_read`.

use crate::check::checked;
use crate::join::words_of;
use crate::order::{Order, ORDERS};
use crate::report::Report;
use crate::table::Table;

/// A field of so many bytes is carried on by the next one.
pub const FULL_BODY: usize = 65_535;
/// The tag of a field that carries on the one before.
pub const CARRY: u8 = 127;
/// The tag, and the length in two bytes, before each field's bytes.
pub const FIELD_HEAD: usize = 3;

/// Why there is no table of a list, in the order in which the grounds are
/// asked. A table's list has the last two alone, the table's report first.
#[derive(Clone, Copy, PartialEq, Eq, Debug)]
pub enum ListRefusal {
    UnknownTag,
    CutShort,
    OutOfPlace,
    TooShort,
    Table(Report),
}

impl ListRefusal {
    pub fn number(&self) -> u32 {
        match self {
            ListRefusal::UnknownTag => 50,
            ListRefusal::CutShort => 51,
            ListRefusal::OutOfPlace => 52,
            ListRefusal::TooShort => 53,
            ListRefusal::Table(_) => 54,
        }
    }

    /// The refused table's own report.
    pub fn inner(&self) -> Option<Report> {
        match self {
            ListRefusal::Table(report) => Some(*report),
            _ => None,
        }
    }
}

/// The tag of the strings says which order the table has.
pub fn string_tag(order: Order) -> u8 {
    match order {
        Order::Little => 32,
        Order::Big => 33,
    }
}

/// The order that a tag stands for, if it is one of strings.
pub fn order_of_tag(tag: u8) -> Option<Order> {
    ORDERS.into_iter().find(|order| string_tag(*order) == tag)
}

/// Writes an accepted table out and answers the list's length. No byte of the
/// output changes on refusal, nor past the list on success. The slices end as
/// the check of the table leaves them, whatever is answered.
pub fn write_list(
    blob: &[u8],
    index: &mut [u32],
    work: &mut [u32],
    output: &mut [u8],
) -> Result<usize, ListRefusal> {
    let table = checked(blob, index, work).map_err(ListRefusal::Table)?;
    let list = list_of(&table);
    if output.len() < list.len() {
        return Err(ListRefusal::TooShort);
    }
    output[..list.len()].copy_from_slice(&list);
    Ok(list.len())
}

/// The strings, then each record under its kind, in the table's order.
pub fn list_of(table: &Table) -> Vec<u8> {
    let mut list = Vec::new();
    put_body(&mut list, string_tag(table.order), &table.strings);
    for record in &table.records {
        let words = words_of(record).into_iter();
        let body: Vec<u8> = words.flat_map(|word| table.order.bytes(word)).collect();
        put_body(&mut list, record.kind as u8, &body);
    }
    list
}

/// A whole body: a field, and as long as the last one is full, another that
/// carries it on, be it with nothing.
pub fn put_body(list: &mut Vec<u8>, tag: u8, body: &[u8]) {
    let (first, mut rest) = body.split_at(body.len().min(FULL_BODY));
    put_field(list, tag, first);
    let mut is_full = first.len() == FULL_BODY;
    while is_full {
        let (next, left) = rest.split_at(rest.len().min(FULL_BODY));
        put_field(list, CARRY, next);
        is_full = next.len() == FULL_BODY;
        rest = left;
    }
}

/// One field: its tag, its length, low byte first in both orders, its bytes.
pub fn put_field(list: &mut Vec<u8>, tag: u8, bytes: &[u8]) {
    list.push(tag);
    list.extend((bytes.len() as u16).to_le_bytes());
    list.extend(bytes);
}
