//! Lists of two to sixteen tables: every bracketing joins them to the same
//! bytes, or all refuse.

mod common;

use common::*;
use second::brackets::Bracketing;
use second::check::judge;
use second::generate::large::{padded, pointers};
use second::generate::random::Random;
use second::generate::turn::in_order;
use second::generate::{valid, Scale};
use second::limits::{BYTE_LIMIT, FULL_PLACES};
use second::make::Make;
use second::order::ORDERS;
use second::table::{Kind, ALL_KINDS};
use second::JoinRefusal;

fn join(a: &[u8], b: &[u8]) -> Result<Vec<u8>, JoinRefusal> {
    let mut index = vec![0; FULL_PLACES as usize];
    let mut work = vec![0; FULL_PLACES as usize];
    let mut output = vec![165; BYTE_LIMIT as usize];
    let length = second::join(a, b, &mut index, &mut work, &mut output)?;
    output.truncate(length);
    Ok(output)
}

fn joined_in(r: &mut Random, list: &[Vec<u8>]) -> Result<Vec<u8>, JoinRefusal> {
    Bracketing::any(r, 0, list.len()).joined(list, &mut join)
}

/// How many records of a kind a table has.
fn of_kind(blob: &[u8], kind: Kind) -> usize {
    let table = judge(blob, usize::MAX, usize::MAX).expect("accepted");
    let records = table.records.iter();
    records.filter(|record| record.kind == kind).count()
}

#[test]
fn same_bytes_and_every_kind_summed() {
    let mut r = Random::new(9);
    for count in (2..=16).chain(2..=16) {
        let order = r.pick(&ORDERS);
        let list: Vec<Vec<u8>> = (0..count)
            .map(|_| in_order(&valid::table(&mut r, Scale::Small).blob(), order))
            .collect();
        let [one, other] = [0, 1].map(|_| joined_in(&mut r, &list).expect("joined"));
        assert_eq!(one, other);
        for kind in ALL_KINDS {
            let parts = list.iter().map(|blob| of_kind(blob, kind));
            assert_eq!(of_kind(&one, kind), parts.sum());
        }
    }
}

/// One type or one byte too many over the whole list, and one table of the
/// other order in it.
#[test]
fn all_refuse_or_none() {
    let mut r = Random::new(10);
    let types = |last| [4_000, 4_096, 4_096, last].map(|count| pointers(count).blob());
    let bytes = |last| {
        let lengths: [usize; 4] = [60_000, 70_000, 80_000, last];
        lengths.map(|length| padded(&Make::new(), length))
    };
    let [t, other] = ORDERS.map(|order| in_order(&t().blob(), order));
    for (list, is_joined) in [
        (types(4_192), true),
        (types(4_193), false),
        (bytes(262_144 + 75 - 210_000), true),
        (bytes(262_144 + 76 - 210_000), false),
        ([t.clone(), t.clone(), other, t.clone()], false),
        ([t.clone(), t.clone(), t.clone(), t], true),
    ] {
        for _ in 0..12 {
            assert_eq!(joined_in(&mut r, &list).is_ok(), is_joined);
        }
    }
}
