//! Kinds and records: how a table lies in its blob.

use crate::order::Order;

/// The 24 bytes before the type section.
pub const HEADER_BYTES: usize = 24;
pub const HEAD_BYTES: usize = 12;

/// The kinds 1 to 19, in the paper's order.
#[derive(Clone, Copy, PartialEq, Eq, Debug)]
pub enum Kind {
    Int = 1,
    Ptr = 2,
    Array = 3,
    Struct = 4,
    Union = 5,
    Enum = 6,
    Fwd = 7,
    Typedef = 8,
    Volatile = 9,
    Const = 10,
    Restrict = 11,
    Func = 12,
    FuncProto = 13,
    Var = 14,
    Datasec = 15,
    Float = 16,
    DeclTag = 17,
    TypeTag = 18,
    Enum64 = 19,
}

pub const ALL_KINDS: [Kind; 19] = [
    Kind::Int,
    Kind::Ptr,
    Kind::Array,
    Kind::Struct,
    Kind::Union,
    Kind::Enum,
    Kind::Fwd,
    Kind::Typedef,
    Kind::Volatile,
    Kind::Const,
    Kind::Restrict,
    Kind::Func,
    Kind::FuncProto,
    Kind::Var,
    Kind::Datasec,
    Kind::Float,
    Kind::DeclTag,
    Kind::TypeTag,
    Kind::Enum64,
];

impl Kind {
    /// The kind with this number; none for 0 and for 20 to 31.
    pub fn from_number(number: u32) -> Option<Kind> {
        ALL_KINDS.into_iter().find(|kind| *kind as u32 == number)
    }

    /// Words in one entry, for the kinds whose vlen counts entries.
    pub fn entry_words(self) -> Option<usize> {
        match self {
            Kind::Struct | Kind::Union | Kind::Datasec | Kind::Enum64 => Some(3),
            Kind::Enum | Kind::FuncProto => Some(2),
            _ => None,
        }
    }

    /// Words of the whole tail. It goes by kind and vlen as read, whatever
    /// report 10 will say of them later.
    pub fn tail_words(self, vlen: u32) -> usize {
        match (self.entry_words(), self) {
            (Some(words), _) => words * vlen as usize,
            (None, Kind::Array) => 3,
            (None, Kind::Int | Kind::Var | Kind::DeclTag) => 1,
            (None, _) => 0,
        }
    }
}

/// Bits 0 to 15 of an info word.
pub fn vlen_of(info: u32) -> u32 {
    info & 0xFFFF
}

/// Bits 24 to 28 of an info word.
pub fn kind_number_of(info: u32) -> u32 {
    (info >> 24) & 0x1F
}

/// One record, copied out of the blob.
#[derive(Clone, PartialEq, Eq, Debug)]
pub struct Record {
    /// Byte place of the head in the blob that has it.
    pub place: usize,
    pub kind: Kind,
    pub name: u32,
    pub info: u32,
    /// The size or type word.
    pub third: u32,
    pub tail: Vec<u32>,
}

impl Record {
    pub fn vlen(&self) -> u32 {
        vlen_of(self.info)
    }

    pub fn kind_flag(&self) -> bool {
        self.info >> 31 == 1
    }

    /// The tail cut into its entries; nothing for kinds without entries.
    pub fn entries(&self) -> Vec<&[u32]> {
        match self.kind.entry_words() {
            Some(words) => self.tail.chunks(words).collect(),
            None => Vec::new(),
        }
    }

    /// For an INT: width in bits.
    pub fn int_width(&self) -> u32 {
        self.tail[0] & 0xFF
    }

    /// For an INT: bit offset.
    pub fn int_offset(&self) -> u32 {
        (self.tail[0] >> 16) & 0xFF
    }

    /// For an INT: how its bits are meant; 1 is signed.
    pub fn int_encoding(&self) -> u32 {
        (self.tail[0] >> 24) & 0xF
    }

    /// For an INT: regular in the paper's words.
    pub fn int_is_regular(&self) -> bool {
        self.int_offset() == 0 && [8, 16, 32, 64, 128].contains(&self.int_width())
    }

    /// What a bit field may be of, and what a member can be read as.
    pub fn is_integer_or_enum(&self) -> bool {
        matches!(self.kind, Kind::Int | Kind::Enum | Kind::Enum64)
    }
}

/// A table as the walk of phase 2 found it.
#[derive(Clone, PartialEq, Eq, Debug)]
pub struct Table {
    /// That of its blob's words.
    pub order: Order,
    /// Type k is `records[k - 1]`.
    pub records: Vec<Record>,
    pub strings: Vec<u8>,
}

impl Table {
    /// The type count n.
    pub fn count(&self) -> u32 {
        self.records.len() as u32
    }

    /// The record of a type; none for void and for numbers above n.
    pub fn record(&self, type_number: u32) -> Option<&Record> {
        let before = (type_number as usize).checked_sub(1)?;
        self.records.get(before)
    }

    pub fn kind(&self, type_number: u32) -> Option<Kind> {
        self.record(type_number).map(|record| record.kind)
    }

    /// The name at an offset below the string length, up to its zero byte.
    pub fn text(&self, offset: u32) -> Option<&[u8]> {
        let rest = self.strings.get(offset as usize..)?;
        let end = rest.iter().position(|byte| *byte == 0)?;
        Some(&rest[..end])
    }
}

/// A blob: the header, the words of the types, the strings.
pub fn blob_in(order: Order, types: &[u32], strings: &[u8]) -> Vec<u8> {
    let type_len = 4 * types.len() as u32;
    let header = [
        HEADER_BYTES as u32,
        0,
        type_len,
        type_len,
        strings.len() as u32,
    ];
    let mut blob = order.opening().to_vec();
    for word in header.iter().chain(types) {
        blob.extend(order.bytes(*word));
    }
    blob.extend(strings);
    blob
}
