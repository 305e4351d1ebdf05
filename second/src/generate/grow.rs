//! One more record of a kind, such that an accepted table stays accepted.

use crate::generate::pieces::*;
use crate::generate::random::Random;
use crate::make::{info, int_word, Make};
use crate::size::SizeAnswer;
use crate::table::Kind;

/// Grows a record and whatever it needs; answers its type number.
pub fn grow(r: &mut Random, m: &mut Make, kind: Kind) -> u32 {
    match kind {
        Kind::Int => grow_int(r, m),
        Kind::Array => grow_array(r, m),
        Kind::Struct | Kind::Union => super::grow_members::grow_members(r, m, kind),
        Kind::Enum | Kind::Enum64 => grow_enum(r, m, kind),
        Kind::Func => grow_func(r, m),
        Kind::FuncProto => grow_proto(r, m, true),
        Kind::Var => grow_var(r, m),
        Kind::Datasec => grow_section(r, m),
        Kind::DeclTag => grow_tag(r, m),
        Kind::Fwd | Kind::Float => grow_leaf(r, m, kind),
        _ => grow_wrapper(r, m, kind),
    }
}

fn grow_int(r: &mut Random, m: &mut Make) -> u32 {
    let bytes = r.pick(&[1, 2, 4, 8, 16]);
    let encoding = r.pick(&[0, 1, 2, 4]);
    let name = any_name(r, m);
    let (offset, width) = match r.below(3) {
        0 => {
            let width = r.between(1, 8 * bytes);
            (r.below(8 * bytes - width + 1), width)
        }
        _ => (0, 8 * bytes),
    };
    m.bare(Kind::Int, name, bytes, &[int_word(encoding, offset, width)])
}

fn grow_array(r: &mut Random, m: &mut Make) -> u32 {
    let element = sized_or_overflowing(r, m);
    let index = regular_int(r, m);
    let count = r.pick(&[0, 1, 2, 3, 5, 6, 255, 65_535, 65_536, 65_537, u32::MAX]);
    m.array(element, index, count)
}

fn grow_enum(r: &mut Random, m: &mut Make, kind: Kind) -> u32 {
    let bytes = r.pick(&[1, 2, 4, 8]);
    let name = zero_or_identifier(r, m);
    let flag = r.one_in(2);
    let values = r.below(4);
    let mut tail = Vec::new();
    for _ in 0..values {
        tail.push(identifier(r, m));
        tail.push(r.word());
        if kind == Kind::Enum64 {
            tail.push(r.word());
        }
    }
    m.raw(name, info(kind, flag, values), bytes, &tail)
}

fn grow_leaf(r: &mut Random, m: &mut Make, kind: Kind) -> u32 {
    if kind == Kind::Fwd {
        let name = identifier(r, m);
        let flag = r.one_in(2);
        return m.raw(name, info(kind, flag, 0), 0, &[]);
    }
    let name = any_name(r, m);
    let bytes = r.pick(&[2, 4, 8, 12, 16]);
    m.bare(kind, name, bytes, &[])
}

/// PTR, TYPEDEF, the qualifiers and TYPE_TAG.
fn grow_wrapper(r: &mut Random, m: &mut Make, kind: Kind) -> u32 {
    let of = void_or_plain(r, m);
    let name = match kind {
        Kind::Typedef => identifier(r, m),
        Kind::TypeTag => tag_text(r, m),
        _ => 0,
    };
    let flag = kind == Kind::TypeTag && r.one_in(2);
    m.raw(name, info(kind, flag, 0), of, &[])
}

/// A prototype; a FUNC wants every parameter named but a last 0/0.
fn grow_proto(r: &mut Random, m: &mut Make, may_be_unnamed: bool) -> u32 {
    let returns = void_or_plain(r, m);
    let mut parameters = Vec::new();
    for _ in 0..r.below(3) {
        let of = plain(r, m);
        let name = if may_be_unnamed {
            zero_or_identifier(r, m)
        } else {
            identifier(r, m)
        };
        parameters.push([name, of]);
    }
    if r.one_in(3) {
        parameters.push([0, 0]);
    }
    m.proto(returns, &parameters)
}

fn grow_func(r: &mut Random, m: &mut Make) -> u32 {
    let prototype = grow_proto(r, m, false);
    let name = identifier(r, m);
    let linkage = r.below(2);
    m.raw(name, info(Kind::Func, false, linkage), prototype, &[])
}

fn grow_var(r: &mut Random, m: &mut Make) -> u32 {
    let (of, _) = sized(r, m);
    let name = identifier(r, m);
    let linkage = r.below(3);
    m.bare(Kind::Var, name, of, &[linkage])
}

fn grow_section(r: &mut Random, m: &mut Make) -> u32 {
    let mut entries = Vec::new();
    let mut reached: u64 = 0;
    for _ in 0..r.below(3) {
        let var = some_of(r, m, Kind::Var);
        let SizeAnswer::Exact(bytes) = size_of(m, var) else {
            continue;
        };
        let start = reached + u64::from(r.below(3));
        let end = start + u64::from(bytes) + r.pick(&[0, 0, 1, 4]);
        if end > u64::from(u32::MAX) {
            break;
        }
        entries.push([var, start as u32, (end - start) as u32]);
        reached = end;
    }
    let name = section_name(r, m);
    let bytes = if r.one_in(3) { 0 } else { reached as u32 };
    m.section(name, bytes, &entries)
}

fn grow_tag(r: &mut Random, m: &mut Make) -> u32 {
    let kind = r.pick(&TAGGABLE);
    let target = some_of(r, m, kind);
    let below = component_count(m, target);
    let component = if below == 0 || r.one_in(3) {
        u32::MAX
    } else {
        r.below(below)
    };
    let name = tag_text(r, m);
    let flag = r.one_in(2);
    m.raw(name, info(Kind::DeclTag, flag, 0), target, &[component])
}

/// How many components a tagged type has.
pub fn component_count(m: &Make, target: u32) -> u32 {
    let record = &m.records[target as usize - 1];
    match kind_of(m, target) {
        Some(Kind::Struct | Kind::Union) => record.info & 0xFFFF,
        Some(Kind::Func) => match m.records.get((record.third as usize).wrapping_sub(1)) {
            Some(prototype) => prototype.info & 0xFFFF,
            None => 0,
        },
        _ => 0,
    }
}
