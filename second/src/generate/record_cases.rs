//! Cases of reading a member: tables with structs, questions aimed at each
//! answer, and records of the type's length or around it.

use crate::check::judge;
use crate::generate::check_cases::{self, damage, slices};
use crate::generate::damage_layout::wrapped;
use crate::generate::grow::grow;
use crate::generate::random::Random;
use crate::generate::turn::turned;
use crate::generate::{large_records, until, valid, Scale};
use crate::make::Make;
use crate::record::read_checked;
use crate::table::{Kind, Record, Table};
use crate::vectors::{run, Case, MEMBER, MOST_BYTES};

/// Values come oftener than each ground, since there are more of them.
pub const AIMS: [u32; 13] = [0, 0, 1, 1, 2, 2, 21, 30, 31, 32, 33, 34, 35];

pub fn case(r: &mut Random, scale: Scale) -> Case {
    let aim = r.pick(&AIMS);
    let hits = |case: &Case| run(case).number == aim;
    until(r, scale, 40, hits, |r| attempt(r, scale, aim))
}

fn attempt(r: &mut Random, scale: Scale, aim: u32) -> Case {
    if aim == 34 {
        return refused(r, scale);
    }
    let m = match scale {
        Scale::Full if r.one_in(60) => large_records::table(r),
        _ => table(r, scale),
    };
    question(r, &m, scale, aim)
}

/// An accepted table with types to read, behind layers or not, and holders of
/// them and of what else there is.
fn table(r: &mut Random, scale: Scale) -> Make {
    loop {
        let mut m = match scale {
            Scale::Tiny => Make::new(),
            _ if r.one_in(2) => valid::table(r, scale),
            _ => Make::new(),
        };
        let most = if scale == Scale::Tiny { 1 } else { 4 };
        for _ in 0..r.between(1, most) {
            let kind = r.pick(&[Kind::Int, Kind::Int, Kind::Int, Kind::Enum, Kind::Enum64]);
            let base = grow(r, &mut m, kind);
            wrapped(r, &mut m, base);
        }
        for _ in 0..r.between(1, 2) {
            let kind = r.pick(&[Kind::Struct, Kind::Struct, Kind::Union]);
            let holder = grow(r, &mut m, kind);
            if r.one_in(3) {
                wrapped(r, &mut m, holder);
            }
        }
        if r.one_in(2) {
            valid::shuffle(r, &mut m);
        }
        if judge(&m.blob(), usize::MAX, usize::MAX).is_ok() {
            return m;
        }
    }
}

/// Tries for one table before its last question is taken.
const MOST_TRIES: usize = 200;

/// A question of an accepted table that gets the answer, if one is found. For
/// 35 the table is turned round, and the question is any.
pub fn question(r: &mut Random, m: &Make, scale: Scale, aim: u32) -> Case {
    let blob = m.blob();
    let table = judge(&blob, usize::MAX, usize::MAX).expect("accepted");
    let toward = if aim == 35 { r.pick(&AIMS) } else { aim };
    let mut asked = any_question(r, &table, scale, toward);
    for _ in 0..MOST_TRIES {
        let answer = match read_checked(&table, asked.x, asked.y, &asked.b) {
            Ok(reading) => reading.value.number(),
            Err(refusal) => refusal.number(),
        };
        if aim == 35 || answer == aim {
            break;
        }
        asked = any_question(r, &table, scale, toward);
    }
    let (index_places, work_places) = slices(r, m.count() + 1, false);
    Case {
        index_places,
        work_places,
        a: if aim == 35 { turned(&blob) } else { blob },
        ..asked
    }
}

fn any_question(r: &mut Random, table: &Table, scale: Scale, aim: u32) -> Case {
    let x = type_number(r, table, aim);
    let holder = table.record(x);
    let vlen = holder.map_or(0, Record::vlen);
    let y = match aim {
        32 => r.pick(&[vlen, vlen, vlen + 1, vlen + 2, 1 << 16, 1 << 30, u32::MAX]),
        31 | 21 => r.below(3),
        // At times past the members, on a ground that comes before that.
        30 if r.one_in(4) => vlen + r.below(2),
        _ => r.below(vlen),
    };
    let bytes = holder.map_or(4, |holder| holder.third);
    Case {
        op: MEMBER,
        x,
        y,
        b: record(r, bytes, scale, aim),
        ..Case::default()
    }
}

fn type_number(r: &mut Random, table: &Table, aim: u32) -> u32 {
    let last = table.count();
    let is_holder = |number: &u32| {
        let kind = table.kind(*number);
        matches!(kind, Some(Kind::Struct | Kind::Union))
    };
    match aim {
        21 => r.pick(&[last + 1, last + 1, last + 2, 1 << 31, u32::MAX]),
        31 if r.one_in(6) => 0,
        31 => r.between(1, last.max(1)),
        // A few numbers without choice are sooner had than a list of all.
        _ => {
            let some: Vec<u32> = (0..40).map(|_| r.between(1, last.max(1))).collect();
            some.iter().copied().find(is_holder).unwrap_or(last)
        }
    }
}

/// Bytes for a type of so many: as many, more, or for 30 fewer.
fn record(r: &mut Random, bytes: u32, scale: Scale, aim: u32) -> Vec<u8> {
    let most = match scale {
        Scale::Tiny => 40,
        Scale::Small => 400,
        Scale::Full | Scale::Long => MOST_BYTES,
    };
    let any = r.below(bytes);
    let length = match aim {
        30 => r.pick(&[0, bytes.saturating_sub(1), bytes.saturating_sub(1), any]),
        21 | 31 if r.one_in(2) => r.below(20),
        _ => bytes.saturating_add(r.pick(&[0, 0, 0, 1, 8])),
    };
    let length = length.min(most);
    match r.below(6) {
        0 => vec![0xFF; length as usize],
        1 => vec![r.pick(&[0, 0x80, 1, 0x7F]); length as usize],
        _ => (0..length).map(|_| r.word() as u8).collect(),
    }
}

/// A refused table of either order, with structs or of any sort.
fn refused(r: &mut Random, scale: Scale) -> Case {
    let number = check_cases::aim(r, scale);
    let aimed = if number >= 10 && r.one_in(2) {
        let mut m = table(r, scale);
        damage(r, &mut m, number.min(15));
        check_cases::Aimed {
            blob: m.blob(),
            places: m.count() + 1,
        }
    } else {
        check_cases::aimed(r, scale, number)
    };
    let (index_places, work_places) = slices(r, aimed.places, number == 9);
    let bytes = r.below(20);
    Case {
        op: MEMBER,
        index_places,
        work_places,
        x: r.below(aimed.places + 1),
        y: r.pick(&[0, 0, 0, 1, 2, u32::MAX]),
        a: if r.one_in(2) {
            turned(&aimed.blob)
        } else {
            aimed.blob
        },
        b: record(r, bytes, scale, 0),
        ..Case::default()
    }
}
