//! The name question.

use crate::header::{phase_1, Sections};

/// The part of the blob from an offset into its strings up to the first zero
/// byte, and whether no name can be had there: the blob would get one of the
/// reports 1 to 5, or the offset is not below the string length.
pub fn name(blob: &[u8], offset: u32) -> (&[u8], bool) {
    match part(blob, offset) {
        Some(part) => (part, false),
        None => (&blob[..0], true),
    }
}

fn part(blob: &[u8], offset: u32) -> Option<&[u8]> {
    let sections = phase_1(blob).ok()?;
    part_at(blob, sections, offset as usize)
}

/// The part at an offset into the strings of a blob that passed phase 1, be it
/// a module's; none past them.
pub fn part_at(blob: &[u8], sections: Sections, offset: usize) -> Option<&[u8]> {
    let rest = blob[sections.strings_at()..].get(offset..)?;
    // Phase 1 saw to it that the last byte is zero.
    let end = rest.iter().position(|byte| *byte == 0)?;
    Some(&rest[..end])
}
