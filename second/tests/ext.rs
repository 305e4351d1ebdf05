//! The .BTF.ext section, sentence by sentence, with small sections by hand.

mod common;

use common::sections::*;
use second::generate::edges::one_of;
use second::generate::edges_joins::{refused as table_with, SMALL_REPORTS};
use second::generate::turn::{turned, turned_ext};
use second::make::{put_word, Make};
use second::make_ext::MakeExt;
use second::table::{Kind, ALL_KINDS};
use second::Report;

/// Both parts of the kernel page's own listing, word for word, beside a table
/// that has FUNCs and strings where the listing leads.
#[test]
fn of_the_kernels_page() {
    let mut m = Make::new();
    for text in [".text", "a file's name of 25 bytes"] {
        m.string(text);
    }
    assert_eq!(m.string("int main() { return 0; }"), 33);
    assert_eq!(m.string("int test() { return 0; }"), 58);
    let name = m.string("main");
    m.proto(2, &[]);
    m.int(4);
    m.func(name, 1);
    m.proto(2, &[]);
    m.func(name, 4);
    let words = [
        24, 0, 28, 28, 44, 8, 1, 2, 0, 3, 16, 5, 16, 1, 2, 0, 7, 33, 7182, 16, 7, 58, 8206,
    ];
    let mut section = vec![0x9F, 0xEB, 1, 0];
    section.extend(words.iter().flat_map(|word: &u32| word.to_le_bytes()));
    assert_eq!(section.len(), 0x60);
    assert_eq!(beside(&m.blob(), &section), 0);
    let last = record(&section, 2, 1);
    assert_eq!(last, Some((1, 80, section[80..96].to_vec())));
}

#[test]
fn accepted_sections() {
    assert_eq!(of(&three_parts()), 0);
    assert_eq!(three_parts().blob().len(), 32 + 44 + 68 + 68);
    for parts in [2, 3] {
        // Nothing but a header, beside the empty table too.
        let mut e = MakeExt::new(parts);
        assert_eq!(of(&e), 0);
        assert_eq!(beside(&Make::new().blob(), &e.blob()), 0);
        // Parts that are just their record size.
        for part in 1..=parts {
            e.size(part, 16);
            assert_eq!(of(&e), 0);
        }
    }
}

/// 40 comes before all else; the slices are those of the table's check.
#[test]
fn the_table_speaks_first() {
    let good = three_parts().blob();
    for report in SMALL_REPORTS {
        for section in [&good[..], &good[..23], &[]] {
            let table = table_with(report);
            assert_eq!(inside(&table, section, [9, 9]).number, report);
        }
    }
    let table = functions().blob();
    for places in [[5, 6], [6, 5], [0, 0]] {
        for section in [&good[..], &[]] {
            assert_eq!(inside(&table, section, places), Report::bare(9));
        }
    }
    assert!(answer(&table, &good, [6, 6]).is_ok());
    assert!(answer(&table, &[], [6, 6]).is_err());
}

#[test]
fn lengths_41() {
    let short = MakeExt::new(2).blob();
    for length in 0..24 {
        assert_eq!(of_bytes(&short[..length]), 41);
    }
    assert_eq!(of_bytes(&short), 0);
    // Just one record size and one group of one record fill the limit.
    for (bytes, expected) in [(262_144, 0), (262_148, 41)] {
        let mut e = MakeExt::new(2);
        let record = (bytes - 24 - 4 - 8) / 4;
        e.size(1, 4 * record);
        let mut words = vec![0; record as usize];
        words[1] = 3;
        e.put_group(1, 0, 1, &words);
        assert_eq!(e.blob().len() as u32, bytes);
        assert_eq!(of(&e), expected);
    }
    assert_eq!(of_bytes(&vec![0; 262_144]), 42);
    assert_eq!(of_bytes(&vec![0; 262_145]), 41);
}

/// All four bytes are the table's: another order, version or flags is 42.
#[test]
fn openings_42() {
    let table = functions().blob();
    let section = three_parts().blob();
    assert_eq!(beside(&table, &turned_ext(&section)), 42);
    assert_eq!(beside(&turned(&table), &section), 42);
    for place in 0..4 {
        let mut other = section.clone();
        other[place] ^= 1;
        assert_eq!(of_bytes(&other), 42);
        // Before 43.
        put_word(&mut other, 4, 25);
        assert_eq!(of_bytes(&other), 42);
    }
    let mut other = section.clone();
    other.swap(2, 3);
    assert_eq!(of_bytes(&other), 42);
}

#[test]
fn header_lengths_43() {
    for parts in [2, 3] {
        let e = MakeExt::new(parts);
        for length in (0..50).chain([24 << 24, 32 << 24, 1 << 31, u32::MAX]) {
            let expected = match (length, parts) {
                // Two parts of no bytes, and the third's words are left over.
                (24, 3) => 44,
                (24, _) | (32, 3) => 0,
                _ => 43,
            };
            assert_eq!(of_bytes(&with_header(&e, &[(4, length)])), expected);
        }
    }
    // A header of 32 bytes is past the end of 31, whatever they are.
    let long = MakeExt::new(3).blob();
    for length in 24..32 {
        assert_eq!(of_bytes(&long[..length]), 43);
    }
    // Before 44.
    let wrong = with_header(&three_parts(), &[(4, 28), (8, 4)]);
    assert_eq!(of_bytes(&wrong), 43);
}

#[test]
fn parts_44() {
    let e = three_parts();
    // Each word of the header but its length, off by any.
    for place in (8..32).step_by(4) {
        for shift in [1, 2, 4, u32::MAX, u32::MAX - 3, 1 << 31] {
            let mut section = e.blob();
            let word = e.header()[place / 4 - 1].wrapping_add(shift);
            put_word(&mut section, place, word);
            assert_eq!(of_bytes(&section), 44, "{place} {shift}");
        }
    }
    // Bytes behind the last part, and too few of them.
    for length in 33..e.blob().len() {
        assert_eq!(of_bytes(&e.blob()[..length]), 44);
    }
    for more in 1..6 {
        assert_eq!(of_bytes(&[e.blob(), vec![0; more]].concat()), 44);
    }
    // An empty part's offset must be right too.
    for (place, offset) in [(8, 4), (16, 4), (24, 4), (24, u32::MAX)] {
        let section = with_header(&MakeExt::new(3), &[(place, offset)]);
        assert_eq!(of_bytes(&section), 44);
    }
    let mut e = MakeExt::new(3);
    e.size(2, 16);
    assert_eq!(of_bytes(&with_header(&e, &[(24, 0)])), 44);
    assert_eq!(of_bytes(&with_header(&e, &[(24, 4)])), 0);
}

/// Lengths that no multiple of 4 is, or whose sum is right in 32 bits only.
#[test]
fn sums_of_parts_44() {
    let mut e = MakeExt::new(2);
    e.size(1, 8);
    e.size(2, 16);
    for (first, second) in [(3, 5), (2, 6), (1, 7), (5, 3)] {
        let changes = [(12, first), (16, first), (20, second)];
        assert_eq!(of_bytes(&with_header(&e, &changes)), 44);
    }
    for first in [1 << 31, u32::MAX - 3, 12] {
        let second = 8u32.wrapping_sub(first);
        let changes = [(12, first), (16, first), (20, second)];
        assert_eq!(of_bytes(&with_header(&e, &changes)), 44);
    }
    // The parts in another order fill the section as well.
    let changes = [(8, 4), (16, 0)];
    assert_eq!(of_bytes(&with_header(&e, &changes)), 44);
    // Before 45.
    let mut e = three_parts();
    e.parts[0][0] = 4;
    assert_eq!(of(&e), 45);
    assert_eq!(of_bytes(&with_header(&e, &[(8, 4)])), 44);
}

#[test]
fn record_sizes_45() {
    for (part, least) in [(1, 8), (2, 16), (3, 16)] {
        let mut e = MakeExt::new(3);
        for size in (0..40).chain([u32::MAX, u32::MAX - 3, 1 << 31]) {
            e.size(part, size);
            let expected = if size < least || size % 4 != 0 { 45 } else { 0 };
            assert_eq!(of(&e), expected, "{part} {size}");
            // With a group that is at fault too.
            e.put_group(part, 4, 0, &[]);
            let expected = if expected == 45 { 45 } else { 46 };
            assert_eq!(of(&e), expected);
        }
    }
}

#[test]
fn groups_46() {
    for (part, words) in [(1, 2), (2, 4), (3, 4)] {
        let bytes = 4 * words as u32;
        let wraps = (1u64 << 32) / u64::from(bytes);
        for extra in [0, 1] {
            let mut e = MakeExt::new(3);
            e.size(part, bytes + 4 * extra);
            let size = words + extra as usize;
            let one = [vec![0, 3], vec![0; size - 2]].concat();
            let two = [&one[..], &one].concat();
            for (count, expected) in [(0, 46), (1, 46), (2, 0), (3, 46), (u32::MAX, 46)] {
                let mut e = e.clone();
                e.put_group(part, 0, count, &two);
                // One record fewer leaves bytes that begin another group.
                assert_eq!(of(&e), expected, "{part} {count}");
            }
            // The product is right in 32 bits only.
            let mut e = e.clone();
            e.put_group(part, 0, (wraps + 2) as u32, &two);
            assert_eq!(of(&e), 46);
            e.parts[part - 1][0] = u32::MAX - 3;
            assert_eq!(of(&e), 46);
        }
    }
    // Cut behind each word of the last group.
    for part in 1..=3 {
        let mut e = three_parts();
        let heads = second::make_ext::group_heads(&e.parts[part - 1]);
        while e.parts[part - 1].len() > heads[1] + 1 {
            e.parts[part - 1].pop();
            assert_eq!(of(&e), 46);
        }
        e.parts[part - 1].pop();
        assert_eq!(of(&e), 0);
    }
}

#[test]
fn names_47() {
    // Each group's, a line's file and text, a relocation's access name.
    let names = [
        &[1, 7][..],
        &[1, 4, 5, 8, 9, 11, 14, 15],
        &[1, 5, 9, 11, 15],
    ];
    for part in 1..=3 {
        for at in 1..three_parts().parts[part - 1].len() {
            let is_name = names[part - 1].contains(&at);
            for name in [4, 5, 1 << 24, u32::MAX] {
                let number = with(&[(part, at, name)]);
                assert_eq!(number == 47, is_name, "{part} {at} {name}");
            }
            for name in 0..4 {
                assert!(!is_name || with(&[(part, at, name)]) == 0);
            }
        }
    }
}

#[test]
fn types_48() {
    for at in [4, 6, 10] {
        for number in (0..8).chain([u32::MAX, 3 << 24]) {
            let expected = if [3, 5].contains(&number) { 0 } else { 48 };
            assert_eq!(with(&[(1, at, number)]), expected, "{at} {number}");
        }
    }
    for at in [4, 8, 14] {
        for number in (0..8).chain([u32::MAX, 3 << 24]) {
            let expected = if number <= 5 { 0 } else { 48 };
            assert_eq!(with(&[(3, at, number)]), expected, "{at} {number}");
        }
    }
    // A function record of each kind.
    let mut e = MakeExt::new(2);
    e.group(1, 0, &[[0, 5]]);
    for kind in ALL_KINDS {
        let expected = if kind == Kind::Func { 0 } else { 48 };
        assert_eq!(beside(&one_of(kind).blob(), &e.blob()), expected);
    }
    assert_eq!(beside(&Make::new().blob(), &e.blob()), 48);
}

/// Instruction offsets, lines, columns, kinds and extra bytes: any words.
#[test]
fn what_is_not_judged() {
    for word in [0, 1, 1 << 31, u32::MAX] {
        let mut e = MakeExt::new(3);
        e.group(1, 0, &[[word, 3, word, word], [word, 5, word, word]]);
        e.group(2, 0, &[[word, 1, 2, word, word]]);
        e.group(3, 0, &[[word, 5, 1, word, word, word, word]]);
        assert_eq!(of(&e), 0);
    }
}
