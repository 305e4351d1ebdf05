//! Joins at the limits of types and bytes, without chance.

use crate::generate::edges_joins::{call, grouped, length, refused};
use crate::generate::large::{padded, pointers};
use crate::generate::large_fixed::{
    chain_down, chain_up, entries, full, nest, of_bytes, parameters, pointers_down, pointers_up,
};
use crate::generate::turn::turned;
use crate::limits::{BYTE_LIMIT, FULL_PLACES, TYPE_LIMIT};
use crate::make::Make;
use crate::vectors::{Case, MOST_BYTES, MOST_PLACES};

/// All of them. Thinned, the joins at the two limits and one past each.
pub fn cases(thin: bool) -> Vec<Case> {
    let mut found = limits();
    found.extend(limits_turned());
    if thin {
        return found;
    }
    too_many_inside(&mut found);
    around_type_limit(&mut found);
    around_byte_limit(&mut found);
    ground_before_ground(&mut found);
    long_tables(&mut found);
    examples(&mut found);
    for [a, b, c] in triples() {
        found.extend(grouped(&a, &b, &c, FULL_PLACES));
    }
    found
}

/// Report 8 inside, big-endian and before 24; as many types together as may be
/// and one more, as many bytes and one more, and an output that is one byte too
/// short for them.
fn limits() -> Vec<Case> {
    let [none, one] = [0, 1].map(|count| pointers(count).blob());
    let [less, most, over] =
        [TYPE_LIMIT - 1, TYPE_LIMIT, TYPE_LIMIT + 1].map(|count| pointers(count).blob());
    // a join has 25 bytes fewer than its two tables
    let rest = BYTE_LIMIT + 25 - 120_000;
    let (first, second, longer) = (of_bytes(120_000), of_bytes(rest), of_bytes(rest + 1));
    vec![
        call(&turned(&over), &turned(&none), FULL_PLACES, MOST_BYTES),
        call(&none, &turned(&over), FULL_PLACES, MOST_BYTES),
        call(&one, &less, FULL_PLACES, BYTE_LIMIT),
        call(&most, &one, FULL_PLACES, BYTE_LIMIT),
        call(&first, &second, FULL_PLACES, BYTE_LIMIT),
        call(&first, &second, FULL_PLACES, BYTE_LIMIT - 1),
        call(&first, &longer, FULL_PLACES, MOST_BYTES),
    ]
}

/// Big-endian: as many types and bytes together as may be, one type more, one
/// byte more. Of two orders, with one more of both and no output: 24 comes
/// before 18, 19 and 20.
fn limits_turned() -> Vec<Case> {
    let half = TYPE_LIMIT / 2;
    let rest = BYTE_LIMIT + 25 - 120_000;
    let table = |types, bytes: u32| turned(&padded(&pointers(types), bytes as usize));
    let first = table(half, 120_000);
    let [one, most] = [1, TYPE_LIMIT].map(|count| turned(&pointers(count).blob()));
    vec![
        call(&first, &table(half, rest), FULL_PLACES, BYTE_LIMIT),
        call(&most, &one, FULL_PLACES, BYTE_LIMIT),
        call(&first, &table(half, rest + 1), FULL_PLACES, MOST_BYTES),
        call(&turned(&first), &table(half + 1, rest + 1), FULL_PLACES, 0),
    ]
}

/// Report 8 inside 16 and 17, before whatever else is due.
fn too_many_inside(found: &mut Vec<Case>) {
    let [good, many] = [TYPE_LIMIT, TYPE_LIMIT + 1].map(|count| pointers(count).blob());
    let bad = refused(15);
    for (a, b) in [(&many, &good), (&good, &many), (&many, &bad), (&bad, &many)] {
        for output_bytes in [0, MOST_BYTES] {
            found.push(call(a, b, FULL_PLACES, output_bytes));
        }
    }
}

/// So many types together: at the limit they are joined, one more are 18.
fn around_type_limit(found: &mut Vec<Case>) {
    let most = TYPE_LIMIT;
    for first in [0, 1, 100, most / 2, most - 1, most] {
        for together in [most - 1, most, most + 1] {
            if together < first || together - first > most {
                continue;
            }
            let (a, b) = (pointers(first).blob(), pointers(together - first).blob());
            let places = 1 + first.max(together - first);
            found.push(call(&a, &b, places, length(&a, &b)));
            found.push(call(&a, &b, MOST_PLACES, MOST_BYTES));
        }
    }
}

/// Joined lengths up to the limit are joined where the output reaches, and 20
/// where it does not; one byte more is 19 with any output.
fn around_byte_limit(found: &mut Vec<Case>) {
    for first in [25, 60, 120_000, BYTE_LIMIT - 1, BYTE_LIMIT] {
        for together in [BYTE_LIMIT - 1, BYTE_LIMIT, BYTE_LIMIT + 1] {
            let rest = (together + 25 - first) as usize;
            if rest < 25 || rest > BYTE_LIMIT as usize {
                continue;
            }
            let a = padded(&Make::new(), first as usize);
            let b = padded(&Make::new(), rest);
            for output_bytes in [0, together - 1, together, together + 1, MOST_BYTES] {
                found.push(call(&a, &b, 1, output_bytes));
            }
        }
    }
}

/// Two grounds at once: the one that the paper lists first speaks.
fn ground_before_ground(found: &mut Vec<Case>) {
    let half = TYPE_LIMIT / 2;
    let many = padded(&pointers(half + 1), 132_000);
    let bad = refused(15);
    // 18 and 19 are due, with an output that would do and with none
    found.push(call(&many, &many, FULL_PLACES, MOST_BYTES));
    found.push(call(&many, &many, FULL_PLACES, 0));
    // 18 and 20
    let few = pointers(half).blob();
    found.push(call(&few, &pointers(half + 1).blob(), FULL_PLACES, 0));
    // 19 and 20
    found.push(call(&of_bytes(140_000), &of_bytes(140_000), FULL_PLACES, 0));
    // 24 and 18, 24 and 19
    let [most, one] = [TYPE_LIMIT, 1].map(|count| pointers(count).blob());
    found.push(call(&most, &turned(&one), FULL_PLACES, MOST_BYTES));
    let (long, longer) = (of_bytes(140_000), turned(&of_bytes(140_000)));
    found.push(call(&longer, &long, FULL_PLACES, MOST_BYTES));
    // 17 and, were the second not refused, 18 and 19
    let mut broken = pointers(TYPE_LIMIT);
    broken.at(TYPE_LIMIT).third = TYPE_LIMIT + 1;
    found.push(call(&many, &padded(&broken, 240_000), FULL_PLACES, 0));
    found.push(call(&full(), &bad, FULL_PLACES, 0));
    // 16 and 17, and every other ground
    found.push(call(&padded(&broken, 240_000), &bad, FULL_PLACES, 0));
    // 9 inside: places for the first, one too few for the second
    found.push(call(&few, &pointers(half + 1).blob(), half + 1, 0));
    found.push(call(&few, &pointers(half + 1).blob(), half, 0));
}

/// Chains, nests, sections and prototypes behind each other; a long table
/// with the empty one on either side and joined to itself.
fn long_tables(found: &mut Vec<Case>) {
    let e = Make::new().blob();
    let tables = [
        chain_up(8_000).blob(),
        chain_down(8_000).blob(),
        nest(3_200).blob(),
        pointers_up(8_000).blob(),
        pointers_down(8_000).blob(),
        entries(10_000, 40_000).blob(),
        parameters(12_000, 12_000, 11_999).blob(),
        padded(&entries(8_000, 32_000), 131_084),
    ];
    for a in &tables {
        for b in &tables {
            found.push(call(a, b, 8_002, length(a, b)));
        }
        found.push(call(&e, a, 8_002, length(&e, a) + 9));
        found.push(call(a, &e, 8_002, length(a, &e) - 1));
    }
    for whole in [full(), of_bytes(BYTE_LIMIT)] {
        found.push(call(&whole, &e, FULL_PLACES, BYTE_LIMIT));
        found.push(call(&e, &whole, FULL_PLACES, BYTE_LIMIT));
        found.push(call(&whole, &whole, FULL_PLACES, MOST_BYTES));
    }
}

/// The tables of example/, joined in each order.
pub fn example_tables() -> [Vec<u8>; 3] {
    [
        include_bytes!("../../../example/blade.btf").to_vec(),
        include_bytes!("../../../example/supplier_a.btf").to_vec(),
        include_bytes!("../../../example/supplier_b.btf").to_vec(),
    ]
}

/// The old controller's table is of the other order.
fn examples(found: &mut Vec<Case>) {
    let old = include_bytes!("../../../example/old_controller.btf");
    for a in example_tables() {
        for b in example_tables() {
            found.push(call(&a, &b, 38, length(&a, &b)));
        }
        found.push(call(&a, old, 38, length(&a, old)));
        found.push(call(old, &a, 38, length(old, &a)));
    }
    found.push(call(old, old, 38, length(old, old)));
}

/// Three tables: those of example/, and three that reach both limits together.
pub fn triples() -> Vec<[Vec<u8>; 3]> {
    let (a, b, c) = (
        padded(&chain_up(4_000), 80_000),
        padded(&pointers(8_000), 100_000),
        padded(
            &chain_down(TYPE_LIMIT - 12_002),
            BYTE_LIMIT as usize + 50 - 180_000,
        ),
    );
    vec![example_tables(), [a, b, c]]
}
