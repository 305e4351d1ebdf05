//! Phase 3, report 10: the words of a record's head.

use crate::table::{Kind, Record};

pub fn report_10(record: &Record) -> bool {
    breaks_spare_bits(record)
        || breaks_kind_flag(record)
        || breaks_vlen(record)
        || breaks_third_word(record)
}

/// Info bits 16 to 23, 29 and 30 are 0.
fn breaks_spare_bits(record: &Record) -> bool {
    record.info & 0x60FF_0000 != 0
}

fn breaks_kind_flag(record: &Record) -> bool {
    let may_be_set = matches!(
        record.kind,
        Kind::Struct
            | Kind::Union
            | Kind::Enum
            | Kind::Fwd
            | Kind::DeclTag
            | Kind::TypeTag
            | Kind::Enum64
    );
    record.kind_flag() && !may_be_set
}

/// FUNC holds its linkage in vlen, static or global; kinds without entries
/// hold 0.
fn breaks_vlen(record: &Record) -> bool {
    match record.kind {
        Kind::Func => record.vlen() > 1,
        kind if kind.entry_words().is_some() => false,
        _ => record.vlen() != 0,
    }
}

fn breaks_third_word(record: &Record) -> bool {
    match record.kind {
        Kind::Array | Kind::Fwd => record.third != 0,
        Kind::Int => ![1, 2, 4, 8, 16].contains(&record.third),
        Kind::Enum | Kind::Enum64 => ![1, 2, 4, 8].contains(&record.third),
        Kind::Float => ![2, 4, 8, 12, 16].contains(&record.third),
        _ => false,
    }
}
