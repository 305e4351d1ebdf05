//! Of several faults of a section the first from the front speaks, then the
//! smallest number.

mod common;

use common::sections::*;
use second::generate::turn::turned_ext;
use second::make::put_word;
use second::make_ext::MakeExt;

/// What can be wrong with `three_parts`, from the front: part, word, what it
/// becomes, and the number.
const FAULTS: [(usize, usize, u32, u32); 31] = [
    (1, 0, 4, 45),
    (1, 2, 0, 46),
    (1, 1, 4, 47),
    (1, 4, 4, 48),
    (1, 6, 0, 48),
    (1, 8, 0, 46),
    (1, 7, 4, 47),
    (1, 10, 6, 48),
    (2, 0, 12, 45),
    (2, 2, 0, 46),
    (2, 1, 4, 47),
    (2, 4, 4, 47),
    (2, 5, 4, 47),
    (2, 8, 4, 47),
    (2, 9, 4, 47),
    (2, 12, 2, 46),
    (2, 11, 4, 47),
    (2, 14, 4, 47),
    (2, 15, 4, 47),
    (3, 0, 18, 45),
    (3, 2, 0, 46),
    (3, 1, 4, 47),
    (3, 5, 4, 47),
    (3, 4, 6, 48),
    (3, 9, 4, 47),
    (3, 8, 6, 48),
    (3, 12, 2, 46),
    (3, 11, 4, 47),
    (3, 15, 4, 47),
    (3, 14, 6, 48),
    (3, 14, u32::MAX, 48),
];

#[test]
fn each_before_those_behind_it() {
    for (before, first) in FAULTS.iter().enumerate() {
        let (part, at, word, number) = *first;
        assert_eq!(with(&[(part, at, word)]), number, "{first:?}");
        for second in &FAULTS[before + 1..] {
            if (second.0, second.1) == (part, at) {
                continue;
            }
            let changes = [(part, at, word), (second.0, second.1, second.2)];
            assert_eq!(with(&changes), number, "{first:?} {second:?}");
        }
        // All that are behind it, at once.
        let mut e = three_parts();
        for (part, at, word, _) in FAULTS[before..].iter().rev() {
            e.parts[part - 1][*at] = *word;
        }
        assert_eq!(of(&e), number, "{first:?}");
    }
}

/// A last group that is cut is at fault behind all records in front of it.
#[test]
fn cut_parts_behind_records() {
    for (part, at, word, number) in FAULTS {
        for cut in 1..=3 {
            let mut e = three_parts();
            e.parts[part - 1][at] = word;
            e.parts[cut - 1].pop();
            let heads = second::make_ext::group_heads(&three_parts().parts[cut - 1]);
            let is_behind = (cut, heads[1]) <= (part, at);
            assert_eq!(of(&e), if is_behind { 46 } else { number });
        }
    }
}

/// 41 to 44 in this order, and before any fault behind them.
#[test]
fn headers_before_parts() {
    for (part, at, word, _) in FAULTS {
        let mut e = three_parts();
        e.parts[part - 1][at] = word;
        let section = e.blob();
        let at_44 = with_header(&e, &[(16, 0)]);
        assert_eq!(of_bytes(&at_44), 44);
        assert_eq!(of_bytes(&section[..section.len() - 1]), 44);
        let mut at_43 = at_44;
        put_word(&mut at_43, 4, 25);
        assert_eq!(of_bytes(&at_43), 43);
        let mut at_42 = at_43;
        at_42[3] = 1;
        assert_eq!(of_bytes(&at_42), 42);
        at_42.resize(262_145, 0);
        assert_eq!(of_bytes(&at_42), 41);
        assert_eq!(of_bytes(&at_42[..23]), 41);
        let table = functions().blob();
        assert_eq!(beside(&table, &turned_ext(&section)), 42);
    }
}

/// The record size of a part that has no group is asked where the part stands.
#[test]
fn sizes_alone() {
    let mut e = MakeExt::new(3);
    e.size(1, 8);
    e.size(2, 17);
    e.group(3, 4, &[[0, 0, 0, 0]]);
    assert_eq!(of(&e), 45);
    e.size(2, 20);
    assert_eq!(of(&e), 47);
    e.group(1, 0, &[[0, 1]]);
    assert_eq!(of(&e), 48);
    e.size(2, 17);
    assert_eq!(of(&e), 48);
}
