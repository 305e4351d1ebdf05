//! A table read from its list: reports 50 to 54.

use crate::check::check;
use crate::list::{order_of_tag, ListRefusal, CARRY, FIELD_HEAD, FULL_BODY};
use crate::order::Order;
use crate::table::{blob_in, kind_number_of, vlen_of, Kind, HEAD_BYTES};

/// Reads a list into the output and answers the table's length. No byte of the
/// output changes on refusal, nor past the table on success. The u32 slices end
/// all 0 after 50 to 53, else as the check of the table leaves them; the byte
/// work slice ends all 0.
pub fn read_list(
    list: &[u8],
    index: &mut [u32],
    work: &mut [u32],
    byte_work: &mut [u8],
    output: &mut [u8],
) -> Result<usize, ListRefusal> {
    index.fill(0);
    work.fill(0);
    byte_work.fill(0);
    let table = Bodies::of(list)?.table();
    if output.len() < table.len() || byte_work.len() < table.len() {
        return Err(ListRefusal::TooShort);
    }
    check(&table, index, work).map_err(ListRefusal::Table)?;
    output[..table.len()].copy_from_slice(&table);
    Ok(table.len())
}

/// A field as it stands in a list.
struct Field<'a> {
    tag: u8,
    bytes: &'a [u8],
}

/// What the fields up to here have brought.
struct Bodies {
    /// None before the first field.
    order: Option<Order>,
    strings: Vec<u8>,
    /// The bytes of all whole records.
    types: Vec<u8>,
    /// A record that is not whole yet.
    body: Vec<u8>,
    /// The tag that the body under way began with.
    body_tag: u8,
    /// Was the last field full, so that one must carry it on?
    is_due: bool,
}

impl Bodies {
    /// The first field at fault speaks.
    fn of(list: &[u8]) -> Result<Bodies, ListRefusal> {
        let mut bodies = Bodies {
            order: None,
            strings: Vec::new(),
            types: Vec::new(),
            body: Vec::new(),
            body_tag: 0,
            is_due: false,
        };
        let mut rest = list;
        while !rest.is_empty() {
            let field = take_field(&mut rest)?;
            bodies.take(&field)?;
        }
        if bodies.order.is_none() || bodies.is_due {
            return Err(ListRefusal::CutShort);
        }
        Ok(bodies)
    }

    /// The next field, if it is in its place; a record is judged with the last
    /// field of its body.
    fn take(&mut self, field: &Field) -> Result<(), ListRefusal> {
        if !self.has_place(field.tag) {
            return Err(ListRefusal::OutOfPlace);
        }
        if self.order.is_none() {
            self.order = order_of_tag(field.tag);
        }
        if field.tag != CARRY {
            self.body_tag = field.tag;
        }
        self.is_due = field.bytes.len() == FULL_BODY;
        if order_of_tag(self.body_tag).is_some() {
            self.strings.extend(field.bytes);
            return Ok(());
        }
        self.body.extend(field.bytes);
        if self.is_due {
            return Ok(());
        }
        self.end_record()
    }

    /// The strings come first and once, what carries on where that is due and
    /// nowhere else.
    fn has_place(&self, tag: u8) -> bool {
        let is_strings = order_of_tag(tag).is_some();
        if self.order.is_none() {
            return is_strings;
        }
        !is_strings && (tag == CARRY) == self.is_due
    }

    fn end_record(&mut self) -> Result<(), ListRefusal> {
        let order = self.order.unwrap_or(Order::Little);
        if !is_record(order, self.body_tag, &self.body) {
            return Err(ListRefusal::OutOfPlace);
        }
        self.types.append(&mut self.body);
        Ok(())
    }

    /// The blob, behind a header that fits it.
    fn table(&self) -> Vec<u8> {
        let order = self.order.unwrap_or(Order::Little);
        let places = (0..self.types.len()).step_by(4);
        let words: Vec<u32> = places.map(|at| order.word(&self.types, at)).collect();
        blob_in(order, &words, &self.strings)
    }
}

/// The field at the front of a list that has bytes left. Its tag speaks before
/// its length.
fn take_field<'a>(rest: &mut &'a [u8]) -> Result<Field<'a>, ListRefusal> {
    let tag = rest[0];
    if !is_known(tag) {
        return Err(ListRefusal::UnknownTag);
    }
    let cut = ListRefusal::CutShort;
    let (head, behind) = rest.split_at_checked(FIELD_HEAD).ok_or(cut)?;
    let length = u16::from_le_bytes([head[1], head[2]]) as usize;
    let (bytes, left) = behind.split_at_checked(length).ok_or(cut)?;
    *rest = left;
    Ok(Field { tag, bytes })
}

fn is_known(tag: u8) -> bool {
    matches!(tag, 1..=19 | 32 | 33 | CARRY)
}

/// Is a body one whole record of this kind? Its tail goes by vlen as it is read
/// in the table's order; nothing else of the head is asked.
fn is_record(order: Order, tag: u8, body: &[u8]) -> bool {
    if body.len() < HEAD_BYTES {
        return false;
    }
    let info = order.word(body, 4);
    let number = kind_number_of(info);
    let Some(kind) = Kind::from_number(number) else {
        return false;
    };
    number == u32::from(tag) && body.len() == HEAD_BYTES + 4 * kind.tail_words(vlen_of(info))
}
