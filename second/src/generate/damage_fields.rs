//! Damage for the reports 50 to 52: tags, lengths, places and bodies of a
//! list's fields.

use crate::generate::fields::{written, Field};
use crate::generate::random::Random;
use crate::list::{order_of_tag, string_tag, CARRY, FIELD_HEAD};

/// A field that no list has, in front, between or behind the others; at times
/// it is cut short too.
pub fn unknown_tag(r: &mut Random, mut fields: Vec<Field>) -> Vec<u8> {
    let any = r.between(34, 126) as u8;
    let tag = r.pick(&[0, 20, 20, 21, 31, 34, 35, 126, 128, 129, 160, 161, 255, any]);
    let at = r.below(fields.len() as u32) as usize;
    match r.below(4) {
        0 => fields.insert(at, Field::new(tag, &[])),
        1 => {
            let mut list = written(&fields);
            let more = [tag, r.below(20) as u8, 0];
            list.extend(&more[..r.between(1, 3) as usize]);
            return list;
        }
        _ => fields[at].tag = tag,
    }
    written(&fields)
}

/// Fewer bytes than a field says: the list ends early, a length says more, or
/// a piece of another field stands behind it. An empty list has no field.
pub fn cut_short(r: &mut Random, mut fields: Vec<Field>) -> Vec<u8> {
    let at = r.below(fields.len() as u32) as usize;
    match r.below(8) {
        0 => Vec::new(),
        1 | 2 => piece_behind(r, &fields),
        3 | 4 => {
            let front = written(&fields[..at]).len();
            let mut list = written(&fields);
            // Also past 255 bytes, so that the high byte counts.
            let more = r.pick(&[1, 4, 12, 256, 4_096, 60_000]);
            let left = (list.len() - front - FIELD_HEAD) as u32;
            let length = (left + more).min(65_535) as u16;
            list[front + 1..front + FIELD_HEAD].copy_from_slice(&length.to_le_bytes());
            list
        }
        _ => {
            fields.truncate(at + 1);
            let whole = written(&fields);
            let last = FIELD_HEAD + fields[at].bytes.len();
            let cut = r.between(1, last as u32 - 1) as usize;
            whole[..whole.len() - cut].to_vec()
        }
    }
}

/// A known tag, in its place or not, and too little behind it.
fn piece_behind(r: &mut Random, fields: &[Field]) -> Vec<u8> {
    let mut list = written(fields);
    let tag = r.pick(&[1, 2, 4, 12, 19, 32, 33, CARRY]);
    let length = r.pick(&[1, 12, 16, 255]);
    let field = Field::new(tag, &vec![0; length]);
    let piece = written(&[field]);
    let bytes = r.pick(&[1, 2, 3, length as u32 + 2]) as usize;
    list.extend(&piece[..bytes]);
    list
}

/// A field in no place for it, or a record that is not whole or not of its
/// kind.
pub fn out_of_place(r: &mut Random, mut fields: Vec<Field>) -> Vec<u8> {
    if r.one_in(2) {
        misplace(r, &mut fields);
    } else {
        break_body(r, &mut fields);
    }
    written(&fields)
}

fn misplace(r: &mut Random, fields: &mut Vec<Field>) {
    let behind = r.between(1, fields.len() as u32) as usize;
    let text: &[u8] = r.pick(&[&b""[..], b"\0", b"a\0", b"\0\0\0\0"]);
    match r.below(6) {
        // The strings are missing.
        0 if fields.len() > 1 => {
            fields.remove(0);
        }
        // They stand behind a record.
        1 if fields.len() > 1 => {
            let last = behind.min(fields.len() - 1);
            fields[..=last].rotate_left(1);
        }
        // There are two of them, alike or not.
        2 => {
            let tag = r.pick(&[32, 33]);
            fields.insert(behind, Field::new(tag, text));
        }
        // Something is carried on that is not full.
        3 => fields.insert(0, Field::new(CARRY, text)),
        4 => split(r, fields),
        _ => fields.insert(behind, Field::new(CARRY, text)),
    }
}

/// A body carried on before it is full.
fn split(r: &mut Random, fields: &mut Vec<Field>) {
    let at = r.below(fields.len() as u32) as usize;
    let half = r.below(fields[at].bytes.len() as u32 + 1) as usize;
    let rest = fields[at].bytes.split_off(half);
    fields.insert(at + 1, Field::new(CARRY, &rest));
}

/// A record's field, and a pointer behind the others where there is none.
fn some_record(r: &mut Random, fields: &mut Vec<Field>) -> usize {
    if fields.len() == 1 {
        fields.push(Field::new(2, &[0, 0, 0, 0, 0, 0, 0, 2, 0, 0, 0, 0]));
    }
    r.between(1, fields.len() as u32 - 1) as usize
}

fn break_body(r: &mut Random, fields: &mut Vec<Field>) {
    let at = some_record(r, fields);
    let change = r.below(8);
    if change == 0 {
        // Words of one order under the other's tag.
        let order = order_of_tag(fields[0].tag);
        fields[0].tag = order.map_or(33, |order| string_tag(order.other()));
        return;
    }
    if change == 1 && at + 1 < fields.len() {
        let next = fields.remove(at + 1);
        fields[at].bytes.extend(next.bytes);
        return;
    }
    let field = &mut fields[at];
    match change {
        2 => field.tag = r.between(1, 19) as u8,
        3 => {
            let more = r.pick(&[1, 2, 3, 4, 4, 4, 8, 12]);
            field.bytes.extend(vec![0; more]);
        }
        4 => {
            let less = r.pick(&[1, 2, 3, 4, 4, 4, 8, 12]);
            let left = field.bytes.len().saturating_sub(less);
            field.bytes.truncate(left);
        }
        5 => field.bytes.truncate(r.below(13) as usize),
        _ => break_info(r, &mut field.bytes),
    }
}

/// Another kind or another vlen in the head, and the same tail.
fn break_info(r: &mut Random, bytes: &mut [u8]) {
    if bytes.len() < 12 {
        return;
    }
    match r.below(3) {
        0 => bytes[7] = (bytes[7] & 0xE0) | r.below(32) as u8,
        1 => bytes[4] = bytes[4].wrapping_add(r.pick(&[1, 255])),
        _ => bytes[5] = bytes[5].wrapping_add(r.pick(&[1, 255])),
    }
}

/// Any tag, any length, any bytes.
pub fn random_fields(r: &mut Random) -> Vec<u8> {
    let mut fields = Vec::new();
    for _ in 0..r.below(5) {
        let tag = r.pick(&[1, 2, 3, 4, 8, 14, 20, 32, 32, 33, 33, CARRY]);
        let length = r.pick(&[0, 1, 3, 12, 12, 16, 24]);
        let bytes: Vec<u8> = (0..length).map(|_| r.word() as u8).collect();
        fields.push(Field::new(tag, &bytes));
    }
    written(&fields)
}
