//! Reading a member of a record: its span and its value, reports 30 to 35.

use crate::check::checked;
use crate::members::{base, span, Span};
use crate::order::Order;
use crate::report::Report;
use crate::table::{Kind, Record, Table};

/// Why nothing is read, in the order in which the grounds are asked.
#[derive(Clone, Copy, PartialEq, Eq, Debug)]
pub enum ReadRefusal {
    Table(Report),
    BigEndian,
    NoSuchType,
    NotStructOrUnion,
    RecordTooShort,
    NoSuchMember,
    NeitherIntegerNorEnum,
}

impl ReadRefusal {
    pub fn number(&self) -> u32 {
        match self {
            ReadRefusal::Table(_) => 34,
            ReadRefusal::BigEndian => 35,
            ReadRefusal::NoSuchType => 21,
            ReadRefusal::NotStructOrUnion => 31,
            ReadRefusal::RecordTooShort => 30,
            ReadRefusal::NoSuchMember => 32,
            ReadRefusal::NeitherIntegerNorEnum => 33,
        }
    }

    /// The refused table's own report.
    pub fn inner(&self) -> Option<Report> {
        match self {
            ReadRefusal::Table(report) => Some(*report),
            _ => None,
        }
    }
}

/// What the bits of a span say.
#[derive(Clone, Copy, PartialEq, Eq, Debug)]
pub enum Value {
    /// Of 1 to 64 bits.
    Unsigned(u64),
    Signed(i64),
    /// Of more bits, low byte first, filled up to sixteen bytes.
    Longer([u8; 16]),
}

impl Value {
    pub fn number(&self) -> u32 {
        match self {
            Value::Unsigned(_) => 0,
            Value::Signed(_) => 1,
            Value::Longer(_) => 2,
        }
    }

    /// Sixteen bytes, low byte first, however many bits the value has.
    pub fn filled(&self) -> [u8; 16] {
        match *self {
            Value::Unsigned(value) => u128::from(value).to_le_bytes(),
            Value::Signed(value) => i128::from(value).to_le_bytes(),
            Value::Longer(bytes) => bytes,
        }
    }
}

/// A member as the record has it.
#[derive(Clone, Copy, PartialEq, Eq, Debug)]
pub struct Reading {
    pub span: Span,
    pub value: Value,
}

/// Reads a member, counted from 0, of a struct's or union's raw bytes. The
/// slices end as the check of the blob leaves them, whatever is answered.
pub fn read_member(
    blob: &[u8],
    index: &mut [u32],
    work: &mut [u32],
    type_number: u32,
    member_number: u32,
    record: &[u8],
) -> Result<Reading, ReadRefusal> {
    let table = checked(blob, index, work).map_err(ReadRefusal::Table)?;
    read_checked(&table, type_number, member_number, record)
}

/// The grounds behind 34, asked of an accepted table in the paper's order.
pub fn read_checked(
    table: &Table,
    type_number: u32,
    member_number: u32,
    record: &[u8],
) -> Result<Reading, ReadRefusal> {
    if table.order == Order::Big {
        return Err(ReadRefusal::BigEndian);
    }
    if type_number > table.count() {
        return Err(ReadRefusal::NoSuchType);
    }
    let holder = holder(table, type_number).ok_or(ReadRefusal::NotStructOrUnion)?;
    if (record.len() as u64) < u64::from(holder.third) {
        return Err(ReadRefusal::RecordTooShort);
    }
    let members = holder.entries();
    let member = members.get(member_number as usize);
    let member = member.ok_or(ReadRefusal::NoSuchMember)?;
    read(table, holder, member, record).ok_or(ReadRefusal::NeitherIntegerNorEnum)
}

/// Asked of the type's own kind: a TYPEDEF of a struct is none, nor is void.
fn holder(table: &Table, type_number: u32) -> Option<&Record> {
    let record = table.record(type_number)?;
    matches!(record.kind, Kind::Struct | Kind::Union).then_some(record)
}

/// Nothing for a member whose base is neither integer nor enum. Every member
/// of an accepted table has a base and a span.
fn read(table: &Table, holder: &Record, member: &[u32], record: &[u8]) -> Option<Reading> {
    let base = base(table, member[1])?;
    if !base.is_integer_or_enum() {
        return None;
    }
    let span = span(table, holder, member)?;
    let bits: Vec<bool> = (span.first..span.first + span.bits)
        .map(|bit| bit_of(record, bit))
        .collect();
    Some(Reading {
        span,
        value: value(&bits, is_signed(base)),
    })
}

/// Bit b mod 8, from the low end, of byte b div 8.
fn bit_of(record: &[u8], bit: u64) -> bool {
    (record[(bit / 8) as usize] >> (bit % 8)) & 1 == 1
}

/// An INT by encoding 1 only, an enum by its kind_flag.
fn is_signed(base: &Record) -> bool {
    match base.kind {
        Kind::Int => base.int_encoding() == 1,
        _ => base.kind_flag(),
    }
}

/// The value of 1 to 128 bits, low bit first.
fn value(bits: &[bool], signed: bool) -> Value {
    if bits.len() > 64 {
        return Value::Longer(filled_up(bits, signed));
    }
    let mut sum: i128 = 0;
    for (at, bit) in bits.iter().enumerate() {
        // The top bit of a signed span counts below zero.
        let is_sign = signed && at + 1 == bits.len();
        let worth = if is_sign { -(1 << at) } else { 1 << at };
        sum += if *bit { worth } else { 0 };
    }
    if signed {
        Value::Signed(sum as i64)
    } else {
        Value::Unsigned(sum as u64)
    }
}

/// Zero bits behind an unsigned span, its top bit behind a signed one.
fn filled_up(bits: &[bool], signed: bool) -> [u8; 16] {
    let fill = signed && bits[bits.len() - 1];
    let mut bytes = [0; 16];
    for at in 0..128 {
        if *bits.get(at).unwrap_or(&fill) {
            bytes[at / 8] |= 1 << (at % 8);
        }
    }
    bytes
}
