//! Long .BTF.ext sections: many groups, groups of many records and long
//! records, beside long tables, accepted or with a fault anywhere.

use crate::ext_parts::{GROUP_HEAD, LONG_HEADER};
use crate::generate::ext_cases::{ask_ext, damaged};
use crate::generate::ext_questions::{self, ask_record, records};
use crate::generate::ext_valid::{add_group, begin_part, may_have_records, Targets};
use crate::generate::grow::grow;
use crate::generate::large::{padded, pointers};
use crate::generate::long::{self, damaged as damaged_table};
use crate::generate::random::Random;
use crate::generate::Scale;
use crate::limits::{BYTE_LIMIT, FULL_PLACES, TYPE_LIMIT};
use crate::make::Make;
use crate::make_ext::MakeExt;
use crate::table::Kind;
use crate::vectors::{Case, MOST_PLACES};

const AIMS: [u32; 17] = [
    0, 0, 0, 0, 0, 41, 42, 43, 44, 44, 45, 46, 46, 47, 47, 48, 48,
];

pub fn check(r: &mut Random) -> Case {
    if r.one_in(6) {
        return beside_refused(r);
    }
    let m = table(r);
    let targets = Targets::of(&m);
    let e = section(r, &targets);
    let b = match r.pick(&AIMS) {
        0 => e.blob(),
        41 => {
            let mut section = e.blob();
            section.resize(BYTE_LIMIT as usize + r.pick(&[0, 1, 1, 4]), 0);
            section
        }
        number => damaged(r, e, &targets, Scale::Long, number),
    };
    let places = places(r, m.count() + 1);
    ask_ext(m.blob(), b, places)
}

/// The table is too long or has too many types, the slices are too short, or
/// anything else is wrong with it.
fn beside_refused(r: &mut Random) -> Case {
    let m = table(r);
    let targets = Targets::of(&m);
    let b = section(r, &targets).blob();
    let count = m.count();
    let enough = places(r, count + 1);
    match r.below(4) {
        0 => ask_ext(m.blob(), b, (count, count + 1)),
        1 => ask_ext(padded(&m, BYTE_LIMIT as usize + 1), b, enough),
        2 => {
            let many = pointers(TYPE_LIMIT + 1).blob();
            ask_ext(many, b, (MOST_PLACES, MOST_PLACES))
        }
        _ => ask_ext(damaged_table(r, m), b, enough),
    }
}

fn places(r: &mut Random, least: u32) -> (u32, u32) {
    let places = r.pick(&[least, least + 40, FULL_PLACES.max(least), MOST_PLACES]);
    (places, least)
}

/// Some have as many types or bytes as may be, a FUNC at the end.
fn table(r: &mut Random) -> Make {
    let bytes = r.pick(&[1_000, 10_000, 60_000]);
    let mut m = long::table(r, bytes);
    for _ in 0..r.between(1, 4) {
        grow(r, &mut m, Kind::Func);
    }
    match r.below(6) {
        0 => {
            let prototype = m.proto(0, &[]);
            let name = m.string("last");
            while m.count() < TYPE_LIMIT {
                m.func(name, prototype);
            }
        }
        1 => {
            let missing = BYTE_LIMIT as usize - m.blob().len();
            m.strings.extend(vec![0; missing]);
        }
        _ => (),
    }
    m
}

/// Two parts or three that share a length between them.
fn section(r: &mut Random, targets: &Targets) -> MakeExt {
    let mut e = MakeExt::new(r.pick(&[2, 3, 3]));
    let parts = e.parts.len();
    let bytes = r.pick(&[20_000, 100_000, BYTE_LIMIT as usize]);
    let mut left = (bytes - LONG_HEADER) / 4;
    for part in 1..=parts {
        let share = match r.below(3) {
            0 => left,
            _ => left / (parts + 1 - part),
        };
        if share > 1 && !r.one_in(8) && may_have_records(targets, part) {
            fill(r, &mut e, targets, part, share);
        }
        left -= e.parts[part - 1].len();
    }
    e
}

/// Groups in a part, up to so many words: of so many records at most, or one of
/// as many as fit.
fn fill(r: &mut Random, e: &mut MakeExt, targets: &Targets, part: usize, share: usize) {
    let mut words = begin_part(r, e, part);
    if r.one_in(6) && share > 1_000 {
        words = r.between(20, 900) as usize;
        e.size(part, 4 * words as u32);
    }
    let most = r.pick(&[Some(1), Some(3), Some(200), None]);
    loop {
        let left = share.saturating_sub(e.parts[part - 1].len() + GROUP_HEAD / 4);
        let fits = (left / words) as u32;
        if fits == 0 {
            break;
        }
        let count = most.map_or(fits, |most| r.between(1, fits.min(most)));
        add_group(r, e, targets, part, words, count);
    }
}

/// A record of a long section: any, the first, the last, the one behind it.
pub fn record(r: &mut Random) -> Case {
    let targets = Targets::any(r);
    let e = section(r, &targets);
    let part = r.between(1, e.parts.len() as u32);
    let there = records(&e, part);
    let any = r.below(there);
    let k = r.pick(&[any, any, any, 0, there.saturating_sub(1), there]);
    let section = if r.one_in(4) {
        ext_questions::damaged(r, e, &targets, Scale::Long)
    } else {
        e.blob()
    };
    ask_record(section, part, k)
}
