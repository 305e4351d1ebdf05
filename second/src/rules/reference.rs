//! The references of a record, and phase 4, report 13.

use crate::table::{Kind, Record, Table};

/// What a reference may lead to.
#[derive(Clone, Copy, PartialEq, Eq, Debug)]
pub enum Target {
    VoidOrPlain,
    Plain,
    Int,
    FuncProto,
    Var,
    Tagged,
}

/// Where a type number stands in a record, counted in words from its head.
#[derive(Clone, Copy, PartialEq, Eq, Debug)]
pub struct Reference {
    pub word: usize,
    pub to: u32,
    pub target: Target,
}

const THIRD: usize = 2;
const TAIL: usize = 3;

/// Every type number a record holds. A join raises exactly these.
pub fn references(record: &Record) -> Vec<Reference> {
    let mut found = Vec::new();
    if let Some(target) = target_of_third_word(record.kind) {
        found.push(Reference {
            word: THIRD,
            to: record.third,
            target,
        });
    }
    if record.kind == Kind::Array {
        found.push(Reference {
            word: TAIL,
            to: record.tail[0],
            target: Target::Plain,
        });
        found.push(Reference {
            word: TAIL + 1,
            to: record.tail[1],
            target: Target::Int,
        });
    }
    for (k, entry) in record.entries().iter().enumerate() {
        if let Some((at, target)) = target_in_entry(record.kind, entry) {
            let word = TAIL + k * entry.len() + at;
            found.push(Reference {
                word,
                to: entry[at],
                target,
            });
        }
    }
    found
}

fn target_of_third_word(kind: Kind) -> Option<Target> {
    match kind {
        Kind::Ptr | Kind::Typedef | Kind::Volatile => Some(Target::VoidOrPlain),
        Kind::Const | Kind::Restrict | Kind::TypeTag => Some(Target::VoidOrPlain),
        // The return type.
        Kind::FuncProto => Some(Target::VoidOrPlain),
        Kind::Var => Some(Target::Plain),
        Kind::Func => Some(Target::FuncProto),
        Kind::DeclTag => Some(Target::Tagged),
        _ => None,
    }
}

/// Which word of an entry is a type number, and what it may lead to.
fn target_in_entry(kind: Kind, entry: &[u32]) -> Option<(usize, Target)> {
    match kind {
        Kind::Struct | Kind::Union => Some((1, Target::Plain)),
        // Report 12 has judged a parameter of type 0; it is never 13.
        Kind::FuncProto if entry[1] == 0 => Some((1, Target::VoidOrPlain)),
        Kind::FuncProto => Some((1, Target::Plain)),
        Kind::Datasec => Some((0, Target::Var)),
        _ => None,
    }
}

pub fn report_13(table: &Table, record: &Record) -> bool {
    references(record)
        .iter()
        .any(|reference| !may_lead(table, reference))
}

fn may_lead(table: &Table, reference: &Reference) -> bool {
    if reference.to == 0 {
        return reference.target == Target::VoidOrPlain;
    }
    let Some(kind) = table.kind(reference.to) else {
        return false;
    };
    match reference.target {
        Target::VoidOrPlain | Target::Plain => is_plain(kind),
        Target::Int => kind == Kind::Int,
        Target::FuncProto => kind == Kind::FuncProto,
        Target::Var => kind == Kind::Var,
        Target::Tagged => matches!(
            kind,
            Kind::Struct | Kind::Union | Kind::Func | Kind::Var | Kind::Typedef
        ),
    }
}

pub fn is_plain(kind: Kind) -> bool {
    !matches!(kind, Kind::Func | Kind::Var | Kind::Datasec | Kind::DeclTag)
}
