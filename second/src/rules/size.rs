//! Sizes: the exact size of a type, and the size question that trusts nobody.

use crate::order::Order;
use crate::table::{kind_number_of, Kind, Table, HEADER_BYTES, HEAD_BYTES};

/// The size of a type of a table without endless walks.
#[derive(Clone, Copy, PartialEq, Eq, Debug)]
pub enum Size {
    Exact(u32),
    NoSize,
    /// A whole number above 4,294,967,295.
    Overflow,
}

/// What the size question answers over any blob and index.
#[derive(Clone, Copy, PartialEq, Eq, Debug)]
pub enum SizeAnswer {
    Exact(u32),
    NoSize,
    Overflow,
    Report21,
    Report22,
}

/// How one record takes part in a size.
enum Share {
    Whole(u32),
    Of(u32),
    Times(u32, u32),
    Nothing,
}

/// `tail` is asked for an ARRAY alone: its element and its count.
fn share(kind: Kind, third: u32, tail: impl Fn() -> (u32, u32)) -> Share {
    match kind {
        Kind::Ptr => Share::Whole(8),
        Kind::Int | Kind::Struct | Kind::Union | Kind::Enum => Share::Whole(third),
        Kind::Float | Kind::Datasec | Kind::Enum64 => Share::Whole(third),
        Kind::Array => {
            let (element, count) = tail();
            Share::Times(count, element)
        }
        Kind::Typedef | Kind::Volatile | Kind::Const => Share::Of(third),
        Kind::Restrict | Kind::TypeTag | Kind::Var => Share::Of(third),
        Kind::Fwd | Kind::Func | Kind::FuncProto | Kind::DeclTag => Share::Nothing,
    }
}

/// The exact product. A factor 0 makes it 0 however large the others are;
/// without one it never falls again, so passing the limit once decides it.
fn product(factors: &[u32]) -> Size {
    if factors.contains(&0) {
        return Size::Exact(0);
    }
    let mut whole: u64 = 1;
    for factor in factors {
        whole *= u64::from(*factor);
        if whole > u64::from(u32::MAX) {
            return Size::Overflow;
        }
    }
    Size::Exact(whole as u32)
}

/// The size of a type of a table that passed phase 5, so the walk ends.
pub fn exact_size(table: &Table, type_number: u32) -> Size {
    let mut factors = Vec::new();
    let mut number = type_number;
    while let Some(record) = table.record(number) {
        match share(record.kind, record.third, || {
            (record.tail[0], record.tail[2])
        }) {
            Share::Nothing => return Size::NoSize,
            Share::Of(referent) => number = referent,
            Share::Times(count, element) => {
                factors.push(count);
                number = element;
            }
            Share::Whole(bytes) => {
                factors.push(bytes);
                return product(&factors);
            }
        }
    }
    Size::NoSize
}

/// The size question: any blob, any index, any number.
pub fn size(blob: &[u8], index: &[u32], type_number: u32) -> SizeAnswer {
    size_by(|_| blob, index, type_number)
}

/// The same where a number says which blob its record is read of.
pub fn size_by<'a>(
    blob_of: impl Fn(u32) -> &'a [u8],
    index: &[u32],
    type_number: u32,
) -> SizeAnswer {
    let mut factors = Vec::new();
    let mut number = type_number;
    let mut read = 0;
    while number != 0 {
        // With p places, p records may be read; 22 is tested before 21.
        if read + 1 > index.len() {
            return SizeAnswer::Report22;
        }
        let Some(found) = read_share(blob_of(number), index, number) else {
            return SizeAnswer::Report21;
        };
        read += 1;
        match found {
            Share::Nothing => return SizeAnswer::NoSize,
            Share::Of(referent) => number = referent,
            Share::Times(count, element) => {
                factors.push(count);
                number = element;
            }
            Share::Whole(bytes) => {
                factors.push(bytes);
                return answer(product(&factors));
            }
        }
    }
    SizeAnswer::NoSize
}

fn answer(size: Size) -> SizeAnswer {
    match size {
        Size::Exact(bytes) => SizeAnswer::Exact(bytes),
        Size::NoSize => SizeAnswer::NoSize,
        Size::Overflow => SizeAnswer::Overflow,
    }
}

/// Reads the record the index gives for a number; nothing where report 21
/// speaks. 12 bytes are asked of any kind but ARRAY, which needs its tail. The
/// blob's first two bytes say its order, whatever else they begin.
fn read_share(blob: &[u8], index: &[u32], number: u32) -> Option<Share> {
    let place = *index.get(number as usize)? as usize;
    if place < HEADER_BYTES || place + HEAD_BYTES > blob.len() {
        return None;
    }
    let word = |at| Order::of(blob).word(blob, at);
    let kind = Kind::from_number(kind_number_of(word(place + 4)))?;
    if kind == Kind::Array && place + HEAD_BYTES + 12 > blob.len() {
        return None;
    }
    let tail = || (word(place + 12), word(place + 20));
    Some(share(kind, word(place + 8), tail))
}
