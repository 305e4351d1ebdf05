//! Large pairs of a base and a module's table: fixed ones around the limits,
//! which count both, and long walks from one into the other.

use crate::generate::large::{chain, pointers};
use crate::generate::leaning_cases::lend;
use crate::generate::leaning_questions::ask_size;
use crate::generate::pair::Pair;
use crate::generate::random::Random;
use crate::generate::turn::turned_case;
use crate::limits::{BYTE_LIMIT, FULL_PLACES, TYPE_LIMIT};
use crate::make::Make;
use crate::vectors::{Case, LEANING_NAME};

/// All of them: each pair is checked, in both orders. Thinned, those at the two
/// limits and one past them, in one order.
pub fn cases(thin: bool) -> Vec<Case> {
    let at_limits = [
        of_types(TYPE_LIMIT, 0),
        of_types(TYPE_LIMIT, 1),
        of_bytes(BYTE_LIMIT),
        of_bytes(BYTE_LIMIT + 1),
    ];
    let mut found: Vec<Case> = at_limits.iter().map(checked).collect();
    if thin {
        return found;
    }
    let further = [
        of_types(0, TYPE_LIMIT),
        of_types(0, TYPE_LIMIT + 1),
        of_types(1, TYPE_LIMIT - 1),
        of_types(1, TYPE_LIMIT),
        of_types(8_000, TYPE_LIMIT - 8_000),
        of_types(8_000, TYPE_LIMIT - 7_999),
        long_base(BYTE_LIMIT - 24),
        long_base(BYTE_LIMIT - 23),
        walk(8_000, 8_000, 0),
        walk(8_000, 8_000, 16_000),
        walk(8_000, 8_000, 8_001),
        walk(1, 16_000, 1),
    ];
    found.extend(further.iter().map(checked));
    found.extend(found.clone().iter().map(turned_case));
    found.extend(few_places());
    found.extend(sizes());
    found.extend(names());
    found
}

fn checked(pair: &Pair) -> Case {
    let (a, b) = pair.blobs();
    lend(a, b, (FULL_PLACES, FULL_PLACES))
}

/// So many pointers in the base, and so many in the module.
pub fn of_types(base: u32, module: u32) -> Pair {
    let mut pair = Pair::on(pointers(base));
    for _ in 0..module {
        pair.whole.ptr(base);
    }
    pair
}

/// A base of one INT, and strings of the module up to so many bytes of both.
pub fn of_bytes(bytes: u32) -> Pair {
    let mut base = Make::new();
    base.int(4);
    let mut pair = Pair::on(base);
    let (a, b) = pair.blobs();
    let missing = bytes as usize - a.len() - b.len();
    pair.whole.strings.extend(vec![0; missing]);
    pair
}

/// A base of so many bytes, and the shortest module's table.
pub fn long_base(bytes: u32) -> Pair {
    let mut base = Make::new();
    let missing = bytes as usize - base.blob().len();
    base.strings.extend(vec![0; missing]);
    Pair::on(base)
}

/// CONSTs of the module, each of the next, the last of this type; behind a base
/// of an INT and CONSTs, each of the one before.
pub fn walk(base: u32, module: u32, last: u32) -> Pair {
    let mut b = Make::new();
    b.int(4);
    for number in 1..base {
        b.constant(number);
    }
    let mut pair = Pair::on(b);
    for number in base + 1..base + module {
        pair.whole.constant(number + 1);
    }
    pair.whole.constant(last);
    pair
}

/// Slices that are enough for a base of many types, and for both but one.
fn few_places() -> Vec<Case> {
    let (a, b) = of_types(8_000, 8_000).blobs();
    let lent = [8_000, 8_001, 16_000, 16_001].map(|few| (few, FULL_PLACES));
    lent.map(|places| lend(a.clone(), b.clone(), places)).into()
}

/// A walk through both blobs, by a true index and by one a place too short, and
/// by counts that send it into the wrong blob.
fn sizes() -> Vec<Case> {
    let pair = walk(8_000, 8_000, 8_000);
    let (base, module) = pair.blobs();
    let index = pair.index();
    let mut found = Vec::new();
    for count in [8_000, 7_999, 8_001, 0, u32::MAX] {
        for number in [1, 8_000, 8_001, 16_000, 16_001] {
            found.push(ask_size(&base, count, &module, &index, number));
        }
    }
    found.push(ask_size(&base, 8_000, &module, &index[..16_000], 8_001));
    // A ring of the module's types is gone round until as many were read as the
    // index has places.
    let ring = walk(8_000, 8_000, 8_001);
    let (base, module) = ring.blobs();
    found.push(ask_size(&base, 8_000, &module, &ring.index(), 8_001));
    found
}

/// Names at both ends of long strings, in the base and in the module.
fn names() -> Vec<Case> {
    let mut base = Make::new();
    base.string(vec![b'b'; 100_000]);
    let mut pair = Pair::on(base);
    pair.whole.string(vec![b'm'; 100_000]);
    let (a, b) = pair.blobs();
    let offsets = [
        0, 1, 100_000, 100_001, 100_002, 200_001, 200_002, 200_003, 200_004,
    ];
    let ask = |x| Case {
        op: LEANING_NAME,
        x,
        a: a.clone(),
        b: b.clone(),
        ..Case::default()
    };
    offsets.map(ask).into()
}

/// A pair around one of the limits.
pub fn case(r: &mut Random) -> Case {
    let past = r.pick(&[0, 0, 1, 1, 2]);
    let pair = if r.one_in(2) {
        let base = r.pick(&[0, 1, 100, TYPE_LIMIT / 2, 16_000, TYPE_LIMIT]);
        of_types(base, TYPE_LIMIT + past - base)
    } else {
        of_bytes(BYTE_LIMIT + past)
    };
    checked(&pair)
}

/// A walk of any length through both, with an index just long enough or a place
/// too short.
pub fn size(r: &mut Random) -> Case {
    let whole = chain(r);
    let types = r.below(whole.count());
    let strings = whole.strings.len();
    let pair = Pair {
        whole,
        types,
        strings,
    };
    let (base, module) = pair.blobs();
    let mut index = pair.index();
    if r.one_in(3) {
        index.pop();
    }
    let count = types + r.pick(&[0, 0, 0, 1]);
    let number = r.pick(&[1, pair.count(), types, types + 1]);
    ask_size(&base, count, &module, &index, number)
}
