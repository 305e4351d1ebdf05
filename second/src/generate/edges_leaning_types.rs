//! What leads from a module's types into its base, at the edges, without
//! chance: names around the base's string length, references around its count,
//! walks, and layouts that rest on the base's types.

use crate::generate::edges::{add_one, four_types, one_of, Part};
use crate::generate::edges_leaning::{add_pair, one_on};
use crate::generate::pair::Pair;
use crate::generate::pieces::table_of;
use crate::make::{field, info, int_word, Make};
use crate::reference::references;
use crate::table::{Kind, ALL_KINDS};
use crate::vectors::Case;

pub const PARTS: &[Part] = &[
    ("leaning-marks", |found, _| marks(found)),
    ("leaning-references", |found, thin| {
        each_reference(found, thin)
    }),
    ("leaning-walks", |found, _| walks(found)),
    ("leaning-members", |found, _| members(found)),
    ("leaning-layout", |found, _| layout(found)),
];

/// Records that give a name at this offset, of each sort of rule for names; the
/// base has four types, the first an INT.
const NAMED: [fn(&mut Make, u32) -> u32; 10] = [
    |m, name| m.bare(Kind::Ptr, name, 1, &[]),
    |m, name| m.bare(Kind::Int, name, 1, &[8]),
    |m, name| m.bare(Kind::Union, name, 4, &[]),
    |m, name| m.typedef(name, 1),
    |m, name| m.bare(Kind::TypeTag, name, 1, &[]),
    |m, name| m.section(name, 0, &[]),
    |m, name| m.structure(4, false, &[[name, 1, 0]]),
    |m, name| m.listed(Kind::Enum, false, 0, 4, &[[name, 7]]),
    |m, name| m.proto(0, &[[name, 1]]),
    |m, name| m.proto(0, &[[name, 0]]),
];

/// Every offset up to the end of both strings and past it: the base's are `n`
/// at 1 and an empty string at 3, so the module's begin at 4.
fn marks(found: &mut Vec<Case>) {
    for strings in [&b""[..], b"\0", b"m\0", b"\0m\0", b"7\0m\0"] {
        let end = 4 + strings.len() as u32;
        for offset in (0..end + 2).chain([1 << 31, u32::MAX - 3, u32::MAX]) {
            for build in NAMED {
                let mut pair = Pair::on(four_types());
                pair.whole.strings.extend(strings);
                build(&mut pair.whole, offset);
                add_pair(found, &pair);
            }
        }
    }
    // A name of 127 bytes or more in either, whole and from its second byte on.
    for length in [127, 128] {
        let mut base = four_types();
        let in_base = base.string(vec![b'b'; length]);
        let mut pair = Pair::on(base);
        let in_module = pair.whole.string(vec![b'm'; length]);
        for offset in [in_base, in_base + 1, in_module, in_module + 1] {
            let mut pair = pair.clone();
            pair.whole.typedef(offset, 1);
            add_pair(found, &pair);
        }
    }
}

/// Every reference of a record of the module: to one type of every kind in the
/// base and in the module, and to each number around the marks.
fn each_reference(found: &mut Vec<Case>, thin: bool) {
    for kind in ALL_KINDS {
        for other in ALL_KINDS {
            let mut pair = Pair::on(one_of(other));
            add_one(&mut pair.whole, kind);
            let in_base = pair.types;
            turn_each(found, &pair, &[in_base]);
            if !thin {
                let in_module = add_one(&mut pair.whole, other);
                turn_each(found, &pair, &[in_module]);
            }
        }
        let mut pair = one_on(kind);
        pair.whole.int(4);
        turn_each(found, &pair, &[0, 1, 4, 5, 6, 7, 1 << 31, u32::MAX]);
    }
}

/// The first type of the module with each of its references turned.
fn turn_each(found: &mut Vec<Case>, whole: &Pair, others: &[u32]) {
    let Some(table) = table_of(&whole.whole) else {
        return;
    };
    let number = whole.types + 1;
    let record = table.record(number).map(references).unwrap_or_default();
    for reference in record {
        for to in others {
            let mut pair = whole.clone();
            match reference.word {
                2 => pair.whole.at(number).third = *to,
                word => pair.whole.at(number).tail[word - 3] = *to,
            }
            add_pair(found, &pair);
        }
    }
}

/// A step of each sort from the module: of a type, in the other.
const STEPS: [fn(&mut Make, u32) -> u32; 6] = [
    |m, to| m.ptr(to),
    |m, to| m.constant(to),
    |m, to| m.typedef(1, to),
    |m, to| m.array(to, 1, 0),
    |m, to| m.structure(64, false, &[[1, to, 0]]),
    |m, to| m.var(1, to),
];

/// Two steps of the module, one behind the other: into the base, to void, to
/// themselves and to each other. The base ends in a pointer, in a CONST of it
/// and in a struct of that.
fn walks(found: &mut Vec<Case>) {
    let mut base = four_types();
    base.ptr(4);
    base.constant(5);
    base.structure(8, false, &[[1, 6, 0]]);
    for first in STEPS {
        for second in STEPS {
            for (to, then) in [
                (9, 8),
                (9, 7),
                (7, 8),
                (7, 9),
                (8, 7),
                (9, 5),
                (6, 0),
                (9, 10),
            ] {
                let mut pair = Pair::on(base.clone());
                first(&mut pair.whole, to);
                second(&mut pair.whole, then);
                add_pair(found, &pair);
            }
        }
    }
}

/// Types of the base that a member can be of, each with a size of its own.
fn base_of_members() -> Make {
    let mut m = Make::new();
    let name = m.string("n");
    m.int(4);
    m.odd_int(4, 2, 4);
    m.raw(0, info(Kind::Enum, false, 0), 2, &[]);
    m.ptr(0);
    m.bare(Kind::Fwd, name, 0, &[]);
    m.array(1, 1, 3);
    m.array(1, 1, u32::MAX);
    m.structure(3, false, &[]);
    m.constant(2);
    m.bare(Kind::Int, 0, 16, &[int_word(0, 0, 128)]);
    m.typedef(name, 1);
    m
}

/// Members of the module's structs and unions of each, directly and behind a
/// type of the module, in holders around the end of the span.
fn members(found: &mut Vec<Case>) {
    let base = base_of_members();
    for of in 1..=base.count() {
        for (flag, word, ends) in [
            (false, 0, [0, 1, 2, 3, 4, 8, 12, 16]),
            (false, 6, [0, 1, 2, 3, 4, 5, 6, 17]),
            (true, field(0, 8), [1, 2, 3, 4, 5, 9, 13, 17]),
            (true, field(16, 8), [0, 1, 2, 3, 4, 5, 9, 17]),
            (true, field(17, 1), [0, 1, 2, 3, 4, 5, 9, 17]),
        ] {
            for bytes in ends {
                let mut pair = Pair::on(base.clone());
                pair.whole.structure(bytes, flag, &[[0, of, word]]);
                add_pair(found, &pair);
            }
            let mut pair = Pair::on(base.clone());
            let around = pair.whole.typedef(1, of);
            pair.whole.structure(17, flag, &[[0, around, word]]);
            pair.whole.union(17, flag, &[[1, around, word]]);
            add_pair(found, &pair);
        }
    }
}

/// The other rules of layout, which rest on a type of the base.
fn layout(found: &mut Vec<Case>) {
    let mut base = base_of_members();
    let plain = base.count();
    let struct_of_two = base.structure(8, false, &[[1, 1, 0], [1, 1, 32]]);
    let named = base.proto(0, &[[1, 1], [0, 0]]);
    let unnamed = base.proto(0, &[[0, 1]]);
    let func = base.func(1, named);
    let var = base.var(1, 6);
    let mut add = |build: &dyn Fn(&mut Make) -> u32| {
        let mut pair = Pair::on(base.clone());
        build(&mut pair.whole);
        add_pair(found, &pair);
    };
    for of in 1..=plain {
        add(&|m| m.var(1, of));
        for index in [1, 2, 10, 11] {
            add(&|m| m.array(of, index, 2));
        }
    }
    for prototype in [named, unnamed] {
        add(&|m| m.func(1, prototype));
    }
    for target in [struct_of_two, func, var, plain] {
        for component in [0, 1, 2, 3, target, u32::MAX - 1, u32::MAX] {
            add(&|m| m.tag(1, target, component));
        }
    }
    // The variable has 12 bytes.
    for (bytes, entry) in [(0, 11), (0, 12), (11, 12), (12, 12), (13, 13), (12, 11)] {
        for start in [0, 1, u32::MAX] {
            add(&|m| m.section(1, bytes, &[[var, start, entry]]));
        }
    }
    for second in [11, 12, 13, 24] {
        add(&|m| {
            let own = m.var(1, 6);
            m.section(1, 40, &[[var, 0, 12], [own, second, 12]])
        });
    }
}
