//! Accepted tables of every kind and shape.

use crate::check::judge;
use crate::generate::grow::grow;
use crate::generate::pieces::{chain_from, kind_of, table_of, types_where};
use crate::generate::random::Random;
use crate::generate::Scale;
use crate::make::Make;
use crate::reference::{is_plain, references};
use crate::table::{Kind, ALL_KINDS};

/// A table that the gate accepts. What grows is nearly always accepted, the
/// rest is thrown away.
pub fn table(r: &mut Random, scale: Scale) -> Make {
    loop {
        let mut m = grown(r, scale);
        turn_pointers(r, &mut m);
        if r.one_in(2) {
            shuffle(r, &mut m);
        }
        if judge(&m.blob(), usize::MAX, usize::MAX).is_ok() {
            return m;
        }
    }
}

fn grown(r: &mut Random, scale: Scale) -> Make {
    let mut m = Make::new();
    let most = match scale {
        Scale::Tiny => 2,
        Scale::Small => 6,
        Scale::Full | Scale::Long => r.pick(&[4, 6, 8, 30]),
    };
    if r.one_in(3) {
        let text = r.pick(&["ab", "a_1", "x9y", "int"]);
        m.string(text);
    }
    for _ in 0..r.between(0, most) {
        let kind = r.pick(&ALL_KINDS);
        grow(r, &mut m, kind);
    }
    m
}

/// Pointers may lead anywhere plain, forward and back, but not along a chain
/// to themselves.
pub fn turn_pointers(r: &mut Random, m: &mut Make) {
    turn_pointers_behind(r, m, 0);
}

/// The same of the pointers behind the first types, which stay.
pub fn turn_pointers_behind(r: &mut Random, m: &mut Make, types: u32) {
    let ends = types_where(m, |number| kind_of(m, number).is_some_and(is_plain));
    for number in types + 1..=m.count() {
        if kind_of(m, number) == Some(Kind::Ptr) && r.one_in(2) {
            let end = r.pick(&ends);
            if !chain_from(m, end).contains(&number) {
                m.at(number).third = end;
            }
        }
    }
}

/// Renumbers the types in a random order, so that references lead forward
/// too.
pub fn shuffle(r: &mut Random, m: &mut Make) {
    shuffle_behind(r, m, 0);
}

/// The same of the types behind the first ones, which stay.
pub fn shuffle_behind(r: &mut Random, m: &mut Make, types: u32) {
    let mut order: Vec<usize> = (0..m.records.len()).collect();
    let moved = &mut order[types as usize..];
    for last in (1..moved.len()).rev() {
        moved.swap(last, r.below(last as u32 + 1) as usize);
    }
    reorder(m, &order);
}

/// Puts the types in this order and renumbers what refers to them. Only tables
/// that the walk of phase 2 reads are changed.
pub fn reorder(m: &mut Make, order: &[usize]) {
    let Some(table) = table_of(m) else {
        return;
    };
    let mut renumbered = vec![0; order.len()];
    for (now, before) in order.iter().enumerate() {
        renumbered[*before] = now as u32 + 1;
    }
    for (record, raw) in table.records.iter().zip(m.records.iter_mut()) {
        for reference in references(record) {
            let Some(now) = renumbered.get((reference.to as usize).wrapping_sub(1)) else {
                continue;
            };
            match reference.word {
                2 => raw.third = *now,
                word => raw.tail[word - 3] = *now,
            }
        }
    }
    m.records = order
        .iter()
        .map(|before| m.records[*before].clone())
        .collect();
}
