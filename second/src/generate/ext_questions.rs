//! Cases of one record of a .BTF.ext section: records of whole sections, and
//! what is not there.

use crate::generate::check_cases::WILD;
use crate::generate::damage_ext::damage_header;
use crate::generate::damage_ext_parts::damage_parts;
use crate::generate::ext_cases::random_parts;
use crate::generate::ext_valid::{section, Targets};
use crate::generate::random::Random;
use crate::generate::{long_ext, until, Scale};
use crate::make_ext::{record_starts, MakeExt};
use crate::vectors::{run, Case, EXT_RECORD};

/// A record that is there, and why there may be none: a fault of the section,
/// no such part, no such record.
const THERE: u32 = 0;
const BROKEN: u32 = 1;
const NO_PART: u32 = 2;
const NO_RECORD: u32 = 3;

const AIMS: [u32; 12] = [
    THERE, THERE, THERE, THERE, THERE, BROKEN, BROKEN, BROKEN, NO_PART, NO_RECORD, NO_RECORD, WILD,
];

pub fn case(r: &mut Random, scale: Scale) -> Case {
    if scale == Scale::Full && r.one_in(60) {
        return long_ext::record(r);
    }
    let aim = r.pick(&AIMS);
    let hits = |case: &Case| aim == WILD || (run(case).number == 0) == (aim == THERE);
    until(r, scale, 12, hits, |r| attempt(r, scale, aim))
}

/// A record of a part, counted from 0, of a section.
pub fn ask_record(section: Vec<u8>, part: u32, k: u32) -> Case {
    Case {
        op: EXT_RECORD,
        x: part,
        y: k,
        a: section,
        ..Case::default()
    }
}

fn attempt(r: &mut Random, scale: Scale, aim: u32) -> Case {
    let targets = Targets::any(r);
    let mut e = section(r, &targets, scale);
    if aim == WILD {
        e = random_parts(r);
    }
    let part = r.between(1, e.parts.len() as u32);
    let there = records(&e, part);
    let k = r.below(there);
    let section = match aim {
        BROKEN => damaged(r, e.clone(), &targets, scale),
        _ => e.blob(),
    };
    let odd = [0, e.parts.len() as u32 + 1, 4, 256 + part, u32::MAX];
    match aim {
        NO_PART => ask_record(section, r.pick(&odd), k),
        NO_RECORD => {
            let past = [there, there, there + 1, there + (1 << 16), u32::MAX];
            ask_record(section, part, r.pick(&past))
        }
        _ => ask_record(section, part, k),
    }
}

/// How many records a part has, if nothing is wrong with it.
pub fn records(e: &MakeExt, part: u32) -> u32 {
    record_starts(&e.parts[part as usize - 1]).len() as u32
}

/// A fault in any part, or in the header; the record asked for may be whole.
pub fn damaged(r: &mut Random, mut e: MakeExt, targets: &Targets, scale: Scale) -> Vec<u8> {
    let number = r.pick(&[41, 42, 43, 44, 45, 45, 46, 46, 46]);
    if number >= 45 {
        damage_parts(r, &mut e, targets, number);
        return e.blob();
    }
    let mut section = e.blob();
    damage_header(r, &mut section, scale, number);
    section
}
