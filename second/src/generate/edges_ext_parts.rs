//! The parts of a .BTF.ext section at their edges, without chance: every record
//! size, every count, every cut, each name and type, and each fault before each
//! other.

use crate::ext_parts::{RecordSort, RECORD_SORTS};
use crate::generate::damage_ext_parts::{name_words, type_words, wrapping_count};
use crate::generate::edges::{each_kind, one_of, Part};
use crate::generate::edges_ext::{add, whole};
use crate::generate::ext_cases::ask_ext;
use crate::make::{put_word, Make};
use crate::make_ext::{group_heads, MakeExt};
use crate::table::Kind;
use crate::vectors::Case;

pub const PARTS: &[Part] = &[
    ("ext-sizes", |found, _| each_part(found, record_sizes)),
    ("ext-counts", |found, _| each_part(found, counts)),
    ("ext-cut", |found, _| each_part(found, cut)),
    ("ext-names", |found, _| names(found)),
    ("ext-types", |found, _| types(found)),
    ("ext-kinds", |found, _| each_kind(found, kinds)),
    ("ext-free", |found, _| free(found)),
    ("ext-few", |found, _| few(found)),
    ("ext-faults", faults),
];

fn each_part(found: &mut Vec<Case>, add_cases: fn(&mut Vec<Case>, usize)) {
    (1..=3).for_each(|part| add_cases(found, part));
}

/// A record of a part, of so many words, that nothing is wrong with.
pub fn record(part: usize, words: usize) -> Vec<u32> {
    let own = match RECORD_SORTS[part - 1] {
        RecordSort::Function => [8, 5, 9, 9],
        RecordSort::Line => [8, 1, 3, 1_030],
        RecordSort::Relocation => [8, 5, 1, 7],
    };
    let extra = vec![9; words.saturating_sub(4)];
    [&own[..words.min(4)], &extra].concat()
}

/// Every record size around the least, and large ones: of a part without a
/// group, with a record that would fit it, and with a group at fault.
fn record_sizes(found: &mut Vec<Case>, part: usize) {
    let odd = [256, 8 << 24, 16 << 24, 1 << 31, u32::MAX - 3, u32::MAX];
    for size in (0..=41).chain(odd) {
        let mut e = MakeExt::new(3);
        e.size(part, size);
        add(found, e.blob());
        let mut group = e.clone();
        group.put_group(part, 0, 1, &record(part, size.clamp(16, 44) as usize / 4));
        add(found, group.blob());
        e.put_group(part, 4, 0, &[]);
        add(found, e.blob());
    }
}

/// Every count around the true one, and counts whose product wraps, of the
/// first group and of the last; of records of the least size and longer ones.
fn counts(found: &mut Vec<Case>, part: usize) {
    for more in [0, 1, 4] {
        let words = RECORD_SORTS[part - 1].words() + more;
        let size = 4 * words as u32;
        let mut e = MakeExt::new(3);
        e.size(part, size);
        let two = record(part, words).repeat(2);
        e.put_group(part, 0, 2, &two);
        e.put_group(part, 0, 2, &two);
        let wraps = wrapping_count(size);
        let odd = [wraps, wraps + 1, wraps + 2, wraps + 3, wraps / 2 + 2];
        let large = [256, 2 << 24, 1 << 31, u32::MAX];
        for count in (0..=6).chain(odd).chain(large) {
            for head in group_heads(&e.parts[part - 1]) {
                let mut other = e.clone();
                other.parts[part - 1][head + 1] = count;
                add(found, other.blob());
            }
        }
        for other_size in [size + 4, size - 4, 2 * size, u32::MAX - 3, 1 << 31] {
            let mut other = e.clone();
            other.parts[part - 1][0] = other_size;
            add(found, other.blob());
        }
    }
}

/// A part that ends behind each of its words, and one with a few words more;
/// the other parts are whole.
fn cut(found: &mut Vec<Case>, part: usize) {
    let full = whole(3);
    for words in 0..full.parts[part - 1].len() {
        let mut e = full.clone();
        e.parts[part - 1].truncate(words);
        add(found, e.blob());
    }
    for more in [
        &[0][..],
        &[0, 0],
        &[0, 1],
        &[4, 0],
        &[0, 1, 0],
        &[0, 1, 0, 5],
    ] {
        let mut e = full.clone();
        e.parts[part - 1].extend(more);
        add(found, e.blob());
    }
}

/// Each name at each offset around the string length.
fn names(found: &mut Vec<Case>) {
    let e = whole(3);
    for (part, at) in name_words(&e) {
        for name in [0, 1, 2, 3, 4, 5, 256, 3 << 24, 1 << 31, u32::MAX] {
            let mut other = e.clone();
            other.parts[part - 1][at] = name;
            add(found, other.blob());
        }
    }
}

/// Each type around void, the FUNC and the last; with the record's name at
/// fault too.
fn types(found: &mut Vec<Case>) {
    let e = whole(3);
    for (part, at) in type_words(&e) {
        for number in (0..=7).chain([256, 5 << 24, 1 << 31, u32::MAX]) {
            let mut other = e.clone();
            other.parts[part - 1][at] = number;
            add(found, other.blob());
            if part == 3 {
                other.parts[part - 1][at + 1] = 4;
                add(found, other.blob());
            }
        }
    }
}

/// A function record and a relocation of a type of each kind.
fn kinds(found: &mut Vec<Case>, kind: Kind) {
    for part in [1, 3] {
        let mut e = MakeExt::new(3);
        let words = RECORD_SORTS[part - 1].words();
        e.size(part, 4 * words as u32);
        e.put_group(part, 0, 1, &record(part, words));
        found.push(ask_ext(one_of(kind).blob(), e.blob(), (6, 6)));
    }
}

/// Every word that no rule asks for, at its edges; and extra words.
fn free(found: &mut Vec<Case>) {
    for word in [0, 1, 4, 6, 1 << 31, u32::MAX] {
        let mut e = MakeExt::new(3);
        e.group(1, 0, &[[word, 5], [word, 5]]);
        e.group(2, 0, &[[word, 1, 1, word]]);
        e.group(3, 0, &[[word, 5, 1, word]]);
        add(found, e.blob());
        let mut e = MakeExt::new(3);
        e.group(1, 0, &[[0, 5, word, word], [0, 5, word, word]]);
        e.group(2, 0, &[[0, 1, 1, 0, word]]);
        e.group(3, 0, &[[0, 5, 1, 0, word, word, word]]);
        add(found, e.blob());
    }
}

/// Beside tables of no types, of one byte of strings, and of a FUNC that is not
/// the last.
fn few(found: &mut Vec<Case>) {
    let mut in_front = Make::new();
    in_front.string("f");
    in_front.func(1, 2);
    in_front.proto(0, &[]);
    for m in [Make::new(), in_front] {
        for name in 0..4 {
            for number in 0..4 {
                for part in 1..=3 {
                    let words = RECORD_SORTS[part - 1].words();
                    let mut e = MakeExt::new(3);
                    e.size(part, 4 * words as u32);
                    let record = [0, number, name, 0];
                    e.put_group(part, 0, 1, &record[..words]);
                    found.push(ask_ext(m.blob(), e.blob(), (3, 3)));
                }
            }
            let mut e = MakeExt::new(2);
            e.group(2, name, &[[0, 0, 0, 0]]);
            found.push(ask_ext(m.blob(), e.blob(), (3, 3)));
        }
    }
}

/// A word of a part, and what makes it a fault.
type Fault = (usize, usize, u32);

/// One fault of each sort for each part, group and record.
fn all_faults() -> Vec<Fault> {
    let e = whole(3);
    let mut found: Vec<Fault> = Vec::new();
    for part in 1..=3 {
        found.push((part, 0, 6));
        let heads = group_heads(&e.parts[part - 1]);
        found.extend(heads.iter().map(|head| (part, head + 1, 0)));
    }
    found.extend(name_words(&e).into_iter().map(|(part, at)| (part, at, 4)));
    found.extend(type_words(&e).into_iter().map(|(part, at)| (part, at, 6)));
    found
}

/// Each pair of them, and each behind a fault of the header. Thinned, those of
/// the first part and the last, which have all sorts between them.
fn faults(found: &mut Vec<Case>, thin: bool) {
    let all = all_faults();
    let kept = |fault: &&Fault| !thin || fault.0 != 2;
    for (before, (part, at, word)) in all.iter().filter(kept).enumerate() {
        let mut e = whole(3);
        e.parts[part - 1][*at] = *word;
        for (part, at, word) in all.iter().filter(kept).skip(before) {
            let mut two = e.clone();
            two.parts[part - 1][*at] = *word;
            add(found, two.blob());
        }
        for (place, word) in [(0, 0), (4, 28), (16, 0)] {
            let mut section = e.blob();
            put_word(&mut section, place, word);
            add(found, section);
        }
        for part in 1..=3 {
            let mut cut = e.clone();
            cut.parts[part - 1].pop();
            add(found, cut.blob());
        }
    }
}
