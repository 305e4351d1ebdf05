//! The rules on names, report 11, at their edges, without chance.

use crate::generate::edges::{add, each_kind, one_of, Part};
use crate::make::{int_word, Make};
use crate::table::{Kind, ALL_KINDS};
use crate::vectors::Case;

pub const PARTS: &[Part] = &[
    ("names", |found, _| each_kind(found, names)),
    ("name-bytes", name_bytes),
    ("name-lengths", |found, _| each_kind(found, name_lengths)),
    ("unnamed-members", |found, _| unnamed_members(found)),
];

/// Every word that can be a name, at every offset and past the strings.
fn names(found: &mut Vec<Case>, kind: Kind) {
    let words = 3 + one_of(kind).records[4].tail.len();
    for at in (0..words).filter(|at| *at == 0 || *at > 2) {
        for offset in (0..6).chain([1 << 31, u32::MAX]) {
            let mut m = one_of(kind);
            match at {
                0 => m.at(5).name = offset,
                _ => m.at(5).tail[at - 3] = offset,
            }
            add(found, &m);
        }
    }
}

/// Every byte as the only, the first and a later byte of a name. Thinned,
/// every 17th where the rule does not look at bytes.
fn name_bytes(found: &mut Vec<Case>, thin: bool) {
    for kind in [Kind::Fwd, Kind::Datasec, Kind::TypeTag, Kind::Int] {
        let step = match kind {
            Kind::TypeTag | Kind::Int if thin => 17,
            _ => 1,
        };
        for byte in (1..=255).step_by(step) {
            for text in [vec![byte], vec![byte, b'a'], vec![b'a', byte]] {
                let mut m = Make::new();
                let name = m.string(text);
                let third = if kind == Kind::Int { 1 } else { 0 };
                let tail = [int_word(0, 0, 8)];
                let tail = if kind == Kind::Int { &tail[..] } else { &[] };
                m.bare(kind, name, third, tail);
                add(found, &m);
            }
        }
    }
}

/// Names of 126 to 129 letters, of records and of entries.
fn name_lengths(found: &mut Vec<Case>, kind: Kind) {
    for length in [126, 127, 128, 129] {
        let mut m = one_of(kind);
        let long = m.string(vec![b'a'; length]);
        m.at(5).name = long;
        add(found, &m);
        m.at(5).name = one_of(kind).at(5).name;
        if kind.entry_words().is_some() && kind != Kind::Datasec {
            m.at(5).tail[0] = long;
            add(found, &m);
        }
    }
}

/// A member without a name, and behind it what the later phases judge: void,
/// each kind, the record itself, an end that fits and one that does not.
fn unnamed_members(found: &mut Vec<Case>) {
    for kind in ALL_KINDS {
        for (around, bytes) in [(Kind::Struct, 8), (Kind::Union, 8), (Kind::Struct, 0)] {
            for of in [0, 5, 6, 7] {
                let mut m = one_of(kind);
                m.listed(around, false, 0, bytes, &[[0, of, 0]]);
                add(found, &m);
            }
        }
    }
}
