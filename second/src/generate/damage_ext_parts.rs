//! Damage for the reports 45 to 48: record sizes, groups, names and types of a
//! .BTF.ext section.

use crate::ext_parts::{RecordSort, RECORD_SORTS};
use crate::generate::ext_valid::Targets;
use crate::generate::random::Random;
use crate::make_ext::{group_heads, record_starts, MakeExt};

/// Somewhere in a part that can have it, or in one that is added for it.
pub fn damage_parts(r: &mut Random, e: &mut MakeExt, targets: &Targets, number: u32) {
    match number {
        45 => record_size(r, e),
        46 => group(r, e),
        47 => name(r, e, targets),
        _ => type_number(r, e, targets),
    }
}

/// Any part, begun if it was empty.
fn some_part(r: &mut Random, e: &mut MakeExt) -> usize {
    let part = r.between(1, e.parts.len() as u32) as usize;
    begin(e, part);
    part
}

fn begin(e: &mut MakeExt, part: usize) {
    if e.parts[part - 1].is_empty() {
        e.size(part, RECORD_SORTS[part - 1].bytes() as u32);
    }
}

/// A part that has a group, be it one of a single record of zeros.
fn with_group(e: &mut MakeExt, part: usize) {
    begin(e, part);
    if e.parts[part - 1].len() == 1 {
        let words = vec![0; e.parts[part - 1][0] as usize / 4];
        e.put_group(part, 0, 1, &words);
    }
}

fn record_size(r: &mut Random, e: &mut MakeExt) {
    let part = some_part(r, e);
    let least = RECORD_SORTS[part - 1].bytes() as u32;
    let any = r.below(least);
    let small = [0, 4, least - 4, least - 1, any];
    let odd = [least + 1, least + 2, least + 3, u32::MAX, 1 << 31 | 2];
    let one = [r.pick(&small), r.pick(&odd)];
    e.parts[part - 1][0] = r.pick(&one);
}

/// A count that is wrong, or words too few or too many.
fn group(r: &mut Random, e: &mut MakeExt) {
    let part = some_part(r, e);
    with_group(e, part);
    let words = &mut e.parts[part - 1];
    let heads = group_heads(words);
    let Some(head) = r.pick_any(&heads) else {
        return;
    };
    let size = words[0];
    let count = &mut words[head + 1];
    match r.below(8) {
        0 => *count = 0,
        1 => *count = count.wrapping_add(r.pick(&[1, 1, 2, u32::MAX])),
        2 => *count = r.pick(&[1 << 31, u32::MAX, 1 << 24, 0xFFFF]),
        // The product is the same in 32 bits.
        3 => *count = count.wrapping_add(wrapping_count(size)),
        4 => {
            let less = r.pick(&[1, 1, 2, 3]);
            words.truncate(words.len().saturating_sub(less).max(2));
        }
        5 => words.push(0),
        6 => words.extend([0, r.pick(&[0, 0, 1])]),
        _ => words[0] = r.pick(&[size.wrapping_add(4), u32::MAX - 3, 1 << 31]),
    }
}

/// So many records of this size have 0 bytes in 32 bits.
pub fn wrapping_count(size: u32) -> u32 {
    match size.trailing_zeros() {
        zeros @ 1..=31 => 1 << (32 - zeros),
        _ => 0,
    }
}

/// Where the names of a section stand: part and word.
pub fn name_words(e: &MakeExt) -> Vec<(usize, usize)> {
    let of_groups = |part: usize| {
        let heads = group_heads(&e.parts[part - 1]).into_iter();
        heads.map(move |head| (part, head))
    };
    let groups = (1..=e.parts.len()).flat_map(of_groups);
    let records = record_words(e, |sort| match sort {
        RecordSort::Function => &[],
        RecordSort::Line => &[1, 2],
        RecordSort::Relocation => &[2],
    });
    groups.chain(records).collect()
}

/// The same of its types.
pub fn type_words(e: &MakeExt) -> Vec<(usize, usize)> {
    record_words(e, |sort| match sort {
        RecordSort::Line => &[],
        RecordSort::Function | RecordSort::Relocation => &[1],
    })
}

fn record_words(e: &MakeExt, words: fn(RecordSort) -> &'static [usize]) -> Vec<(usize, usize)> {
    let mut found = Vec::new();
    for (part, sort) in (1..=e.parts.len()).zip(RECORD_SORTS) {
        for start in record_starts(&e.parts[part - 1]) {
            found.extend(words(sort).iter().map(|at| (part, start + at)));
        }
    }
    found
}

fn name(r: &mut Random, e: &mut MakeExt, targets: &Targets) {
    let mut found = name_words(e);
    if found.is_empty() {
        let part = some_part(r, e);
        with_group(e, part);
        found = name_words(e);
    }
    let length = targets.strings;
    let any = r.word();
    let past = [length, length, length + 1, length << 8, u32::MAX, any];
    let Some((part, at)) = r.pick_any(&found) else {
        return;
    };
    e.parts[part - 1][at] = r.pick(&past);
    // A relocation's type stands before its name, and may be at fault too.
    if part == 3 && type_words(e).contains(&(part, at - 1)) && r.one_in(3) {
        e.parts[part - 1][at - 1] = targets.types + 1;
    }
}

fn type_number(r: &mut Random, e: &mut MakeExt, targets: &Targets) {
    if type_words(e).is_empty() {
        with_group(e, 1);
    }
    let found = type_words(e);
    let last = targets.types;
    let any = r.below(last + 1);
    let past = [last + 1, last + 1, last + 2, 1 << 31, u32::MAX];
    if let Some((part, at)) = r.pick_any(&found) {
        let others = [0, any, any, r.pick(&past)];
        let number = if part == 1 {
            r.pick(&others)
        } else {
            r.pick(&past)
        };
        e.parts[part - 1][at] = number;
    }
}
