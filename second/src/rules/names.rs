//! Phase 3, report 11: the names a record gives.

use crate::table::{Kind, Record, Table};

/// What the list asks of one name.
#[derive(Clone, Copy, PartialEq, Eq, Debug)]
pub enum Asked {
    Zero,
    Any,
    ZeroOrIdentifier,
    Identifier,
    NonEmpty,
    Section,
}

pub fn report_11(table: &Table, record: &Record) -> bool {
    let own = asked_of_head(record.kind);
    if breaks_name(table, record.name, own) {
        return true;
    }
    match asked_of_entry(record.kind) {
        Some(asked) => record
            .entries()
            .iter()
            .any(|entry| breaks_name(table, entry[0], asked)),
        None => false,
    }
}

pub fn asked_of_head(kind: Kind) -> Asked {
    match kind {
        Kind::Ptr | Kind::Array | Kind::Volatile => Asked::Zero,
        Kind::Const | Kind::Restrict | Kind::FuncProto => Asked::Zero,
        Kind::Int | Kind::Float => Asked::Any,
        Kind::Struct | Kind::Union | Kind::Enum | Kind::Enum64 => Asked::ZeroOrIdentifier,
        Kind::Fwd | Kind::Typedef | Kind::Func | Kind::Var => Asked::Identifier,
        Kind::DeclTag | Kind::TypeTag => Asked::NonEmpty,
        Kind::Datasec => Asked::Section,
    }
}

/// The first word of an entry is a name, but for the entries of a DATASEC.
pub fn asked_of_entry(kind: Kind) -> Option<Asked> {
    match kind {
        Kind::Enum | Kind::Enum64 => Some(Asked::Identifier),
        Kind::Struct | Kind::Union | Kind::FuncProto => Some(Asked::ZeroOrIdentifier),
        _ => None,
    }
}

/// Every offset lies below the string length, whatever else is asked.
fn breaks_name(table: &Table, offset: u32, asked: Asked) -> bool {
    let Some(text) = table.text(offset) else {
        return true;
    };
    let kept = match asked {
        Asked::Zero => offset == 0,
        Asked::Any => true,
        Asked::ZeroOrIdentifier => offset == 0 || is_identifier(text),
        Asked::Identifier => is_identifier(text),
        Asked::NonEmpty => !text.is_empty(),
        Asked::Section => is_section_name(text),
    };
    !kept
}

/// 1 to 127 ASCII letters, digits, underscores, no digit first.
pub fn is_identifier(text: &[u8]) -> bool {
    let length_fits = (1..=127).contains(&text.len());
    length_fits
        && !text[0].is_ascii_digit()
        && text
            .iter()
            .all(|byte| byte.is_ascii_alphanumeric() || *byte == b'_')
}

/// 1 to 127 bytes of 33 to 126.
pub fn is_section_name(text: &[u8]) -> bool {
    (1..=127).contains(&text.len()) && text.iter().all(|byte| (33..=126).contains(byte))
}
