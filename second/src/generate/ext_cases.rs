//! Cases of a .BTF.ext section beside its table: accepted ones, sections
//! damaged in each way and in two, and tables with each report.

use crate::generate::check_cases::{broken, random_bytes, slices, ACCEPTED, WILD};
use crate::generate::damage_ext::damage_header;
use crate::generate::damage_ext_parts::damage_parts;
use crate::generate::ext_valid::{section, table, Targets};
use crate::generate::random::Random;
use crate::generate::{long_ext, until, Scale};
use crate::make_ext::MakeExt;
use crate::order::ORDERS;
use crate::vectors::{run, Case, Seen, EXT};

/// A number below 16 is that of the report inside 40; 8 is for long tables. The
/// reports of a group and a record come oftest, since there are most ways to
/// them.
const AIMS: [u32; 58] = [
    0, 0, 0, 0, 0, 0, 0, 0, 0, 0, 1, 2, 3, 4, 5, 6, 7, 9, 10, 11, 12, 13, 14, 15, 41, 41, 42, 42,
    43, 43, 44, 44, 44, 44, 45, 45, 45, 45, 45, 46, 46, 46, 46, 46, 46, 47, 47, 47, 47, 47, 47, 48,
    48, 48, 48, 48, WILD, WILD,
];

pub fn case(r: &mut Random, scale: Scale) -> Case {
    if scale == Scale::Full && r.one_in(60) {
        return long_ext::check(r);
    }
    let aim = r.pick(&AIMS);
    let hits = |case: &Case| aim == WILD || answer(&run(case)) == aim;
    until(r, scale, 12, hits, |r| attempt(r, scale, aim))
}

/// The number of an answer, or of the report inside it.
pub fn answer(seen: &Seen) -> u32 {
    match seen.number {
        40 => seen.inner,
        number => number,
    }
}

/// A section beside a table, with so many places lent.
pub fn ask_ext(a: Vec<u8>, b: Vec<u8>, (index_places, work_places): (u32, u32)) -> Case {
    Case {
        op: EXT,
        index_places,
        work_places,
        a,
        b,
        ..Case::default()
    }
}

fn attempt(r: &mut Random, scale: Scale, aim: u32) -> Case {
    let m = table(r, scale);
    let targets = Targets::of(&m);
    let e = section(r, &targets, scale);
    let b = match aim {
        0 => e.blob(),
        WILD => wild(r, e),
        41..=48 => damaged(r, e, &targets, scale, aim),
        // The table speaks first, whatever is beside it.
        _ if r.one_in(2) => e.blob(),
        _ => {
            let number = r.between(41, 48);
            damaged(r, e, &targets, scale, number)
        }
    };
    let aimed = match aim {
        1..=15 => broken(r, scale, m, aim),
        _ => broken(r, scale, m, ACCEPTED),
    };
    let places = slices(r, aimed.places, aim == 9);
    ask_ext(aimed.blob, b, places)
}

/// One damage, and as often as not others beside it. The larger numbers go first:
/// what they break must still be there.
pub fn damaged(
    r: &mut Random,
    mut e: MakeExt,
    targets: &Targets,
    scale: Scale,
    number: u32,
) -> Vec<u8> {
    let mut numbers = vec![number];
    while r.one_in(2) {
        numbers.push(r.between(41, 48));
    }
    numbers.sort_unstable_by(|a, b| b.cmp(a));
    for number in numbers.iter().filter(|number| **number >= 45) {
        damage_parts(r, &mut e, targets, *number);
    }
    let mut section = e.blob();
    for number in numbers.iter().filter(|number| **number < 45) {
        damage_header(r, &mut section, scale, *number);
    }
    section
}

/// Bits turned, words that mean nothing behind a good header, or any bytes.
fn wild(r: &mut Random, e: MakeExt) -> Vec<u8> {
    match r.below(4) {
        0 => {
            let mut bytes = random_bytes(r);
            if bytes.len() >= 4 {
                bytes[..4].copy_from_slice(&r.pick(&ORDERS).opening());
            }
            bytes
        }
        1 => random_parts(r).blob(),
        _ => {
            let mut section = e.blob();
            for _ in 0..r.between(1, 3) {
                let at = r.below(section.len() as u32) as usize;
                section[at] ^= 1 << r.below(8);
            }
            section
        }
    }
}

/// Parts of small words, which at times look like groups.
pub fn random_parts(r: &mut Random) -> MakeExt {
    let mut e = MakeExt::new(r.pick(&[2, 3]));
    for words in &mut e.parts {
        words.extend((0..r.below(10)).map(|_| r.below(4)));
        if let Some(size) = words.first_mut() {
            *size = r.pick(&[8, 16, 16, 20]);
        }
    }
    e
}
