//! A base and a module's table on it, made as one table that holds both: the
//! types and strings of the base go before the module's.

use crate::generate::grow::grow;
use crate::generate::pieces::{identifier, index_of, kind_of, types_where};
use crate::generate::random::Random;
use crate::generate::{valid, Scale};
use crate::lean::judge_leaning;
use crate::make::Make;
use crate::table::{Kind, ALL_KINDS};

/// Both in one, and how much of it is the base's.
#[derive(Clone)]
pub struct Pair {
    pub whole: Make,
    pub types: u32,
    pub strings: usize,
}

impl Pair {
    /// A base, and a module's table without types and strings.
    pub fn on(base: Make) -> Pair {
        Pair {
            types: base.count(),
            strings: base.strings.len(),
            whole: base,
        }
    }

    pub fn base(&self) -> Make {
        Make {
            records: self.whole.records[..self.types as usize].to_vec(),
            strings: self.whole.strings[..self.strings].to_vec(),
        }
    }

    pub fn module(&self) -> Make {
        Make {
            records: self.whole.records[self.types as usize..].to_vec(),
            strings: self.whole.strings[self.strings..].to_vec(),
        }
    }

    /// The base's blob and the module's.
    pub fn blobs(&self) -> (Vec<u8>, Vec<u8>) {
        (self.base().blob(), self.module().blob())
    }

    /// How many types both have.
    pub fn count(&self) -> u32 {
        self.whole.count()
    }

    /// The place of every record in the blob that has it, behind a 0 for void.
    pub fn index(&self) -> Vec<u32> {
        let mut index = index_of(&self.base());
        index.extend(&index_of(&self.module())[1..]);
        index
    }
}

/// A pair that the check accepts. What grows is nearly always accepted, the
/// rest is thrown away.
pub fn accepted(r: &mut Random, scale: Scale) -> Pair {
    loop {
        let pair = grown(r, scale);
        let (base, module) = pair.blobs();
        if judge_leaning(&base, &module, usize::MAX, usize::MAX).is_ok() {
            return pair;
        }
    }
}

/// Types grow behind an accepted base as they do behind each other, so that
/// they refer to both and take names of both.
fn grown(r: &mut Random, scale: Scale) -> Pair {
    let base = if r.one_in(8) {
        Make::new()
    } else {
        valid::table(r, scale)
    };
    let mut pair = Pair::on(base);
    let first: &[u8] = r.pick(&[b"", b"", b"", b"\0", b"own\0", b"\0own\0", b"9\0", b"x y\0"]);
    pair.whole.strings.extend(first);
    let most = match scale {
        Scale::Tiny => 2,
        Scale::Small => 6,
        Scale::Full | Scale::Long => r.pick(&[4, 6, 8, 30]),
    };
    for _ in 0..r.between(0, most) {
        let kind = r.pick(&ALL_KINDS);
        grow(r, &mut pair.whole, kind);
    }
    if r.one_in(4) {
        add_func(r, &mut pair.whole);
    }
    valid::turn_pointers_behind(r, &mut pair.whole, pair.types);
    if r.one_in(2) {
        valid::shuffle_behind(r, &mut pair.whole, pair.types);
    }
    pair
}

/// A FUNC of a prototype that is there, which may be the base's: what grows has
/// a prototype of its own.
fn add_func(r: &mut Random, m: &mut Make) {
    let found = types_where(m, |number| kind_of(m, number) == Some(Kind::FuncProto));
    if let Some(prototype) = r.pick_any(&found) {
        let name = identifier(r, m);
        m.func(name, prototype);
    }
}
