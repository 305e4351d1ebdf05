//! Joins of two byte orders at their edges, without chance: 24, and its place
//! among the other grounds.

use crate::generate::edges::{one_of, Part};
use crate::generate::edges_joins::{
    call, grouped, length, refused, second_tables, triples, SMALL_REPORTS,
};
use crate::generate::edges_orders::bench;
use crate::generate::turn::{both, turned};
use crate::make::Make;
use crate::table::Kind;
use crate::vectors::Case;

pub const PARTS: &[Part] = &[("order-joins", |found, _| joins(found))];

fn joins(found: &mut Vec<Case>) {
    orders_and_outputs(found);
    kinds_of_two_orders(found);
    refused_of_two_orders(found);
    short_slices(found);
    three_tables(found);
}

/// Each of a few tables, the empty one among them, with each, in every pair of
/// orders, into outputs around the joined length.
fn orders_and_outputs(found: &mut Vec<Case>) {
    let tables = [Make::new(), bench(), one_of(Kind::Enum64)];
    for first in &tables {
        for second in &tables {
            for a in both(&first.blob()) {
                for b in both(&second.blob()) {
                    let joined = length(&a, &b);
                    for output_bytes in [0, joined - 1, joined, joined + 3] {
                        found.push(call(&a, &b, 6, output_bytes));
                    }
                }
            }
        }
    }
}

/// Tables with each word that rises: of two orders none is made.
fn kinds_of_two_orders(found: &mut Vec<Case>) {
    let other = bench().blob();
    for second in second_tables() {
        let blob = second.blob();
        found.push(call(&turned(&blob), &other, 16, length(&blob, &other)));
        found.push(call(&other, &turned(&blob), 16, length(&blob, &other)));
    }
}

/// Each report inside 16 and 17, though the orders differ too, and both tables
/// refused; with an output and without.
fn refused_of_two_orders(found: &mut Vec<Case>) {
    let good = both(&one_of(Kind::Struct).blob());
    for report in SMALL_REPORTS {
        let bad = both(&refused(report));
        let worse = both(&refused(if report == 15 { 1 } else { 15 }));
        for (one, other) in [(0, 1), (1, 0)] {
            for output_bytes in [0, 300] {
                found.push(call(&bad[one], &good[other], 6, output_bytes));
                found.push(call(&good[one], &bad[other], 6, output_bytes));
                found.push(call(&bad[one], &worse[other], 6, output_bytes));
            }
        }
    }
}

/// 9 inside comes before 24 as well: places for none, for the first table
/// alone, for the second alone, for both.
fn short_slices(found: &mut Vec<Case>) {
    let (e, t) = (Make::new().blob(), bench().blob());
    for (a, b) in [(&e, &t), (&t, &e), (&t, &t)] {
        for (a, b) in [(a.clone(), turned(b)), (turned(a), b.clone())] {
            for places in 0..4 {
                found.push(call(&a, &b, places, length(&a, &b)));
            }
        }
    }
}

/// Two tables of an order joined, and a third of the other on either side.
fn three_tables(found: &mut Vec<Case>) {
    for [a, b, c] in triples() {
        for (one, other) in [(0, 1), (1, 0)] {
            let [a, b, c] = [&a, &b, &c].map(|blob| both(blob));
            found.extend(grouped(&a[one], &b[one], &c[other], 12));
            found.extend(grouped(&a[other], &b[one], &c[one], 12));
        }
    }
}
