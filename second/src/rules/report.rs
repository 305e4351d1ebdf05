//! The gate's reports 1 to 15 and what each of them means.

/// A report: its number in paper 01's table, the type it names, and the byte
/// place of that type's record in the blob that was checked.
#[derive(Clone, Copy, PartialEq, Eq, Debug)]
pub struct Report {
    pub number: u32,
    pub type_number: u32,
    pub place: u32,
}

impl Report {
    pub fn new(number: u32, type_number: u32, place: u32) -> Report {
        Report {
            number,
            type_number,
            place,
        }
    }

    /// Reports 1 to 5 and 9 name no type, so they have no place either.
    pub fn bare(number: u32) -> Report {
        Report::new(number, 0, 0)
    }
}

/// One line in words for each number an answer can carry.
pub fn meaning(number: u32) -> &'static str {
    match number {
        1 => "the file is under 24 bytes or over 262,144",
        2 => "the first four bytes are neither 9F EB 01 00 nor EB 9F 01 00",
        3 => "the header length is not 24",
        4 => "the section places and lengths do not add up to the file",
        5 => "the string section is empty or does not begin and end with a zero byte",
        6 => "a record does not fit the type section",
        7 => "a record has an unknown kind",
        8 => "there are more than 16,384 records",
        9 => "the index or the work slice has too few places",
        10 => "a record's head breaks a rule",
        11 => "a name breaks a rule",
        12 => "a word after a record's head breaks a rule",
        13 => "a reference leads nowhere or to a forbidden kind",
        14 => "a walk by value, or one along pointers and qualifiers, never ends",
        15 => "a layout rule is broken",
        16 => "the first table is refused",
        17 => "the second table is refused",
        18 => "over 16,384 types together",
        19 => "the joined length is over 262,144",
        20 => "the output is too short",
        21 => "the index leads outside what can be read",
        22 => "more records would be read than the index has places",
        24 => "the two tables have different byte orders",
        25 => "the base is refused",
        26 => "the module's table has the other byte order than its base",
        30 => "the record is shorter than the type",
        31 => "the type is neither a struct nor a union",
        32 => "there is no member of that number",
        33 => "the member is neither an integer nor an enum",
        34 => "the table is refused",
        35 => "the table is big-endian",
        40 => "the table is refused",
        41 => "the section is under 24 bytes or over 262,144",
        42 => "the section does not begin with the table's first four bytes",
        43 => "the section's header length is neither 24 nor 32, or past its end",
        44 => "the section's parts do not follow one another and fill it",
        45 => "a part's record size is too small or not a multiple of 4",
        46 => "a group does not fit its part or has no records",
        47 => "a name is not below the string length",
        48 => "a function record's type is no FUNC, or a relocation's is above the last",
        50 => "a field has an unknown tag",
        51 => "a field is cut short",
        52 => "a field is out of its place, or its body is no whole record of its kind",
        53 => "the output or the byte work slice is too short",
        54 => "the table is refused",
        60 => "no two tables with that count and length join to this one",
        61 => "an output is shorter than its table",
        _ => "no report",
    }
}
