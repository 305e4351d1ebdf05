//! Damage for report 15: small scenes at the edges of the layout rules.

use crate::generate::grow::component_count;
use crate::generate::pieces::*;
use crate::generate::random::Random;
use crate::generate::scene_members;
use crate::make::Make;
use crate::size::SizeAnswer;
use crate::table::Kind;

pub fn layout(r: &mut Random, m: &mut Make) {
    match r.below(12) {
        0 => array(r, m),
        1 => var(r, m),
        2 | 3 => tag(r, m),
        4 => func(r, m),
        5 | 6 => section(r, m),
        7 => scene_members::huge(r, m),
        8 => scene_members::order(r, m),
        9 => scene_members::one_in_union(r, m),
        10 => scene_members::one_with_flag_1(r, m),
        _ => scene_members::one_with_flag_0(r, m),
    }
}

/// A type of any nature, sized or not, behind up to two more types.
pub fn any_nature(r: &mut Random, m: &mut Make) -> u32 {
    let base = match r.below(10) {
        0 => crate::generate::grow::grow(r, m, Kind::Fwd),
        1 => m.proto(0, &[]),
        2 => 0,
        3 => overflowing(r, m),
        4 => {
            let index = regular_int(r, m);
            m.array(index, index, 0)
        }
        5 => m.structure(r.below(3), false, &[]),
        6 => crate::generate::grow::grow(r, m, Kind::Enum),
        7 => m.ptr(0),
        8 => crate::generate::grow::grow(r, m, Kind::Int),
        _ => regular_int(r, m),
    };
    wrapped(r, m, base)
}

/// Up to two typedefs, qualifiers or tags around a type; void gets one.
pub fn wrapped(r: &mut Random, m: &mut Make, base: u32) -> u32 {
    let mut of = base;
    for k in 0..r.below(3) + u32::from(base == 0) {
        if k == 2 {
            break;
        }
        of = match r.below(5) {
            0 => {
                let name = identifier(r, m);
                m.typedef(name, of)
            }
            1 => m.bare(Kind::Volatile, 0, of, &[]),
            2 => m.bare(Kind::Restrict, 0, of, &[]),
            3 => {
                let name = tag_text(r, m);
                m.bare(Kind::TypeTag, name, of, &[])
            }
            _ => m.constant(of),
        };
    }
    of
}

/// An array whose size is above the limit, or just not.
pub fn overflowing(r: &mut Random, m: &mut Make) -> u32 {
    let index = regular_int(r, m);
    let inner = m.array(index, index, r.pick(&[65_535, 65_536, 65_537, u32::MAX]));
    let count = r.pick(&[0, 1, 65_535, 65_536, 65_537, u32::MAX]);
    m.array(inner, index, count)
}

fn array(r: &mut Random, m: &mut Make) {
    let element = any_nature(r, m);
    let index = if r.one_in(2) {
        let width = r.pick(&[7, 8, 9, 15, 16, 17, 24, 31, 32]);
        m.odd_int(8, r.pick(&[0, 0, 1, 8]), width)
    } else {
        regular_int(r, m)
    };
    m.array(element, index, r.pick(&[0, 1, 2, u32::MAX]));
}

fn var(r: &mut Random, m: &mut Make) {
    let of = any_nature(r, m);
    let name = identifier(r, m);
    m.var(name, of);
}

/// Components around the count, for every kind of target.
fn tag(r: &mut Random, m: &mut Make) {
    let kind = r.pick(&TAGGABLE);
    let target = some_of(r, m, kind);
    let count = component_count(m, target);
    let component = match r.below(5) {
        0 => count,
        1 => count.saturating_sub(1),
        2 => r.pick(&[u32::MAX, u32::MAX - 1, 0xFFFF, 1 << 31]),
        3 => target,
        _ => count + 1,
    };
    let name = tag_text(r, m);
    m.tag(name, target, component);
}

/// A prototype with perhaps an unnamed parameter, and its FUNC.
fn func(r: &mut Random, m: &mut Make) {
    let of = plain(r, m);
    let name = identifier(r, m);
    let mut parameters = vec![[name, of]; r.below(3) as usize];
    if r.one_in(2) {
        parameters.push([0, of]);
    }
    if r.one_in(2) {
        parameters.push([0, 0]);
    }
    let before = r.one_in(2).then(|| m.func(name, m.count() + 2));
    let prototype = m.proto(0, &parameters);
    if before.is_none() {
        m.func(name, prototype);
    }
}

/// Entries around their variables' sizes, placed around the rules.
fn section(r: &mut Random, m: &mut Make) {
    let mut entries = Vec::new();
    let mut reached: u32 = 0;
    for _ in 0..r.between(1, 3) {
        let var = variable(r, m);
        let exact = match size_of(m, var) {
            SizeAnswer::Exact(bytes) => bytes,
            _ => u32::MAX,
        };
        let slack = r.pick(&[0, 0, 0, 1, u32::MAX]);
        let bytes = exact.wrapping_add(slack);
        let shift = r.pick(&[0, 0, 0, 1, 4, u32::MAX]);
        let start = reached.wrapping_add(shift);
        entries.push([var, start, bytes]);
        reached = start.wrapping_add(bytes);
    }
    let shift = r.pick(&[0, 0, 0, 1, u32::MAX]);
    let bytes = if r.one_in(4) {
        0
    } else {
        reached.wrapping_add(shift)
    };
    let name = section_name(r, m);
    m.section(name, bytes, &entries);
}

/// A variable there already, or one of any nature.
fn variable(r: &mut Random, m: &mut Make) -> u32 {
    if r.one_in(5) {
        let of = any_nature(r, m);
        let name = identifier(r, m);
        return m.var(name, of);
    }
    some_of(r, m, Kind::Var)
}
