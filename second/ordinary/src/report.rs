//! What a refused table is told.

/// A report: its number in paper 01's table, the type it names, and the byte
/// place of that type's record.
#[derive(Clone, Copy, PartialEq, Eq, Debug)]
pub struct Report {
    pub number: u32,
    pub type_number: u32,
    pub place: u32,
}

impl Report {
    /// Reports 1 to 5 and 9 name no type, so they have no place either.
    pub fn bare(number: u32) -> Report {
        Report {
            number,
            type_number: 0,
            place: 0,
        }
    }
}
