//! The size question and the name question over a base and a module's table.

use crate::header::{phase_1, phase_1_leaning};
use crate::lean::begins_otherwise;
use crate::name_at::part_at;
use crate::size::{size_by, SizeAnswer};

/// The size question: a number up to the given count is read of the base,
/// whatever that count is, and every other of the module. Each blob's first two
/// bytes say its own order.
pub fn size_leaning(
    base: &[u8],
    base_count: u32,
    module: &[u8],
    index: &[u32],
    type_number: u32,
) -> SizeAnswer {
    let blob_of = |number| if number <= base_count { base } else { module };
    size_by(blob_of, index, type_number)
}

/// A name is a part of one of the two blobs, never a copy.
#[derive(Clone, Copy, PartialEq, Eq, Debug)]
pub enum LeaningName<'b, 'm> {
    InBase(&'b [u8]),
    InModule(&'m [u8]),
    /// Either blob has one of the reports 1 to 5, or the module 26, or the
    /// offset is past both.
    Nowhere,
}

/// An offset below the base's string length is the base's, every other the
/// module's, less that length.
pub fn name_leaning<'b, 'm>(base: &'b [u8], module: &'m [u8], offset: u32) -> LeaningName<'b, 'm> {
    let Ok(of_base) = phase_1(base) else {
        return LeaningName::Nowhere;
    };
    if begins_otherwise(of_base.order, module) {
        return LeaningName::Nowhere;
    }
    let Ok(of_module) = phase_1_leaning(base.len(), module) else {
        return LeaningName::Nowhere;
    };
    let offset = offset as usize;
    if let Some(part) = part_at(base, of_base, offset) {
        return LeaningName::InBase(part);
    }
    match part_at(module, of_module, offset - of_base.str_len) {
        Some(part) => LeaningName::InModule(part),
        None => LeaningName::Nowhere,
    }
}
