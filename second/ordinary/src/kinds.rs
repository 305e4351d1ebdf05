//! The kinds by number, and what a record of each has behind its head.

pub const INT: u32 = 1;
pub const PTR: u32 = 2;
pub const ARRAY: u32 = 3;
pub const STRUCT: u32 = 4;
pub const UNION: u32 = 5;
pub const ENUM: u32 = 6;
pub const FWD: u32 = 7;
pub const TYPEDEF: u32 = 8;
pub const VOLATILE: u32 = 9;
pub const CONST: u32 = 10;
pub const RESTRICT: u32 = 11;
pub const FUNC: u32 = 12;
pub const FUNC_PROTO: u32 = 13;
pub const VAR: u32 = 14;
pub const DATASEC: u32 = 15;
pub const FLOAT: u32 = 16;
pub const DECL_TAG: u32 = 17;
pub const TYPE_TAG: u32 = 18;
pub const ENUM64: u32 = 19;

pub const TYPE_LIMIT: usize = 16_384;

/// Of an info word: bits 24 to 28.
#[inline(always)]
pub fn kind(info: u32) -> u32 {
    info >> 24 & 31
}

/// Of an info word: bits 0 to 15.
#[inline(always)]
pub fn vlen(info: u32) -> usize {
    (info & 0xFFFF) as usize
}

/// The bytes behind the head of a record, which go by kind and vlen as read;
/// none for an unknown kind.
pub fn tail_bytes(info: u32) -> Option<usize> {
    match kind(info) {
        INT | VAR | DECL_TAG => Some(4),
        ARRAY => Some(12),
        STRUCT | UNION | DATASEC | ENUM64 => Some(12 * vlen(info)),
        ENUM | FUNC_PROTO => Some(8 * vlen(info)),
        0 | 20.. => None,
        _ => Some(0),
    }
}

/// Is a small number one of those that a mask has the bits of?
#[inline(always)]
pub fn one_of(mask: u32, number: u32) -> bool {
    number < 32 && mask >> number & 1 == 1
}

pub const INT_SIZES: u32 = 1 << 1 | 1 << 2 | 1 << 4 | 1 << 8 | 1 << 16;
pub const ENUM_SIZES: u32 = 1 << 1 | 1 << 2 | 1 << 4 | 1 << 8;
pub const FLOAT_SIZES: u32 = 1 << 2 | 1 << 4 | 1 << 8 | 1 << 12 | 1 << 16;
/// An INT's encodings.
pub const ENCODINGS: u32 = 1 | 1 << 1 | 1 << 2 | 1 << 4;
/// What a DECL_TAG may tag.
pub const TAGGED: u32 = 1 << STRUCT | 1 << UNION | 1 << FUNC | 1 << VAR | 1 << TYPEDEF;
/// The kinds that are another name of a type: all but their own name is that
/// type's.
pub const ALIASES: u32 = 1 << TYPEDEF | 1 << VOLATILE | 1 << CONST | 1 << RESTRICT | 1 << TYPE_TAG;
