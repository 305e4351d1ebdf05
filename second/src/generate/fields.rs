//! Lists as fields that can be changed before they are written, and lists
//! turned into the other byte order.

use crate::list::{order_of_tag, put_body, put_field, string_tag, CARRY, FIELD_HEAD};
use crate::make::{Make, Raw};
use crate::order::Order;
use crate::vectors::{Case, LIST_READ, LIST_WRITTEN, MOST_BYTES};
use std::ops::Range;

/// A field before it is written.
#[derive(Clone, PartialEq, Eq, Debug)]
pub struct Field {
    pub tag: u8,
    pub bytes: Vec<u8>,
}

impl Field {
    pub fn new(tag: u8, bytes: &[u8]) -> Field {
        let bytes = bytes.to_vec();
        Field { tag, bytes }
    }
}

/// The list of a table, be it one that is refused: a record's tag is what its
/// head says.
pub fn list_of(m: &Make) -> Vec<u8> {
    let mut list = Vec::new();
    put_body(&mut list, string_tag(Order::Little), &m.strings);
    for record in &m.records {
        put_body(&mut list, record.kind_number() as u8, &record_bytes(record));
    }
    list
}

/// A record's bytes, low byte first.
pub fn record_bytes(record: &Raw) -> Vec<u8> {
    let head = [record.name, record.info, record.third];
    let words = head.iter().chain(&record.tail);
    words.flat_map(|word| word.to_le_bytes()).collect()
}

pub fn fields_of(m: &Make) -> Vec<Field> {
    let list = list_of(m);
    let spans = spans(&list).into_iter();
    spans
        .map(|(tag, span)| Field::new(tag, &list[span]))
        .collect()
}

pub fn written(fields: &[Field]) -> Vec<u8> {
    let mut list = Vec::new();
    for field in fields {
        put_field(&mut list, field.tag, &field.bytes);
    }
    list
}

/// Each tag of a list and where its bytes lie, as far as there are any.
pub fn spans(list: &[u8]) -> Vec<(u8, Range<usize>)> {
    let mut found = Vec::new();
    let mut at = 0;
    while at + FIELD_HEAD <= list.len() {
        let length = u16::from_le_bytes([list[at + 1], list[at + 2]]) as usize;
        let start = at + FIELD_HEAD;
        let end = list.len().min(start + length);
        found.push((list[at], start..end));
        at = start + length;
    }
    found
}

/// A list in the other order: the tag of its strings, and each word of each
/// body that is not strings. Any bytes can be turned, and turn back.
pub fn turned_list(list: &[u8]) -> Vec<u8> {
    let mut turned = list.to_vec();
    if let Some(order) = list.first().and_then(|tag| order_of_tag(*tag)) {
        turned[0] = string_tag(order.other());
    }
    let mut body: Vec<usize> = Vec::new();
    let mut is_strings = false;
    for (tag, span) in spans(list) {
        if tag != CARRY {
            reverse_words(&mut turned, &body);
            body.clear();
            is_strings = order_of_tag(tag).is_some();
        }
        if !is_strings {
            body.extend(span);
        }
    }
    reverse_words(&mut turned, &body);
    turned
}

/// A word may lie in two fields, so its four places need not be neighbours.
fn reverse_words(bytes: &mut [u8], places: &[usize]) {
    for word in places.chunks_exact(4) {
        bytes.swap(word[0], word[3]);
        bytes.swap(word[1], word[2]);
    }
}

/// A list read, with so many places lent in each u32 slice and so many bytes in
/// the output and the byte work slice.
pub fn ask_table(a: Vec<u8>, places: (u32, u32), bytes: [u32; 2]) -> Case {
    let [output_bytes, byte_work] = bytes.map(|bytes| bytes.min(MOST_BYTES));
    Case {
        op: LIST_READ,
        index_places: places.0,
        work_places: places.1,
        output_bytes,
        a,
        b: vec![165; byte_work as usize],
        ..Case::default()
    }
}

/// A table written out as a list.
pub fn ask_list(a: Vec<u8>, places: (u32, u32), output_bytes: u32) -> Case {
    Case {
        op: LIST_WRITTEN,
        index_places: places.0,
        work_places: places.1,
        output_bytes: output_bytes.min(MOST_BYTES),
        a,
        ..Case::default()
    }
}
