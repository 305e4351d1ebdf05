//! What makes a cut of a join a bad one, in tables that stay accepted: a
//! reference or a name across it, or two names that became one.

use crate::apart::Cut;
use crate::check::judge;
use crate::generate::joined::{end_of, Joined};
use crate::generate::pieces::table_of;
use crate::generate::random::Random;
use crate::join::name_words;
use crate::make::Make;
use crate::reference::references;
use crate::table::Record;

/// Tries before a join stays as it is.
const MOST_TRIES: usize = 40;

/// One word of a record turned so that it leads across the cut, either way.
pub fn crossed(r: &mut Random, joined: &mut Joined, cut: Cut) {
    let Some(table) = table_of(&joined.whole) else {
        return;
    };
    for _ in 0..MOST_TRIES {
        let number = r.between(1, joined.whole.count().max(1));
        let Some(record) = table.record(number) else {
            return;
        };
        let is_earlier = number <= cut.types;
        let Some((at, to)) = word_across(r, &joined.whole, record, is_earlier, cut) else {
            continue;
        };
        let mut turned = joined.whole.clone();
        turned.at(number).put(at, to);
        if judge(&turned.blob(), usize::MAX, usize::MAX).is_ok() {
            joined.whole = turned;
            return;
        }
    }
}

/// A word that leads to a name or to a type, and what it may become; none
/// where nothing lies on the other side.
fn word_across(
    r: &mut Random,
    m: &Make,
    record: &Record,
    is_earlier: bool,
    cut: Cut,
) -> Option<(usize, u32)> {
    let end = end_of(m);
    if r.one_in(2) {
        let at = r.pick(&name_words(record));
        let to = other_side(r, is_earlier, cut.strings - 1, end.strings - 1)?;
        Some((at, to))
    } else {
        let at = r.pick_any(&references(record))?.word;
        let to = other_side(r, is_earlier, cut.types, end.types)?;
        Some((at, to))
    }
}

/// A number from 1 to the last of the first part, or one behind that; those
/// beside the cut come oftener.
fn other_side(r: &mut Random, is_earlier: bool, last_of_first: u32, last: u32) -> Option<u32> {
    let (low, high, beside) = if is_earlier {
        (last_of_first + 1, last, last_of_first + 1)
    } else {
        (1, last_of_first, last_of_first)
    };
    if low > high {
        return None;
    }
    let any = r.between(low, high);
    Some(r.pick(&[any, any, beside]))
}

/// A letter for the zero byte before the cut: what stood before it and what
/// stands behind it are one string now.
pub fn fused(r: &mut Random, joined: &mut Joined, cut: Cut) {
    let mut whole = joined.whole.clone();
    whole.strings[cut.strings as usize - 1] = r.pick(b"_a9");
    if judge(&whole.blob(), usize::MAX, usize::MAX).is_ok() {
        joined.whole = whole;
    }
}
