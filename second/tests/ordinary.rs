//! The ordinary checkers answer as this implementation does, in every number
//! and every place of both slices.

mod common;

use common::wanted;
use second::generate::check_cases::damage;
use second::generate::heavy;
use second::generate::random::Random;
use second::generate::turn::both;
use second::generate::{cases, valid, Scale, Wanted};
use second::limits::FULL_PLACES;
use second::make::{field, put_word, word_at, Make};
use second::vectors::{run, Case, CHECK};
use second::yardstick::difference;

/// How many of the cases are accepted, if none differs.
fn accepted(r: &mut Random, found: &[Case]) -> usize {
    for case in found {
        if let Some(what) = difference(r, case) {
            panic!("{what}");
        }
    }
    let is_accepted = |case: &&Case| run(case).number == 0;
    found.iter().filter(is_accepted).count()
}

fn check_of(a: Vec<u8>, index_places: u32, work_places: u32) -> Case {
    Case {
        op: CHECK,
        index_places,
        work_places,
        a,
        ..Case::default()
    }
}

#[test]
fn small_cases() {
    let found = cases(&wanted(CHECK, 13, 20_000));
    assert!(accepted(&mut Random::new(1), &found) > 1_000);
}

#[test]
fn edges_of_every_rule() {
    let fixed = Wanted {
        edges: true,
        ..wanted(CHECK, 0, 0)
    };
    let found = cases(&fixed);
    assert!(found.len() > 10_000);
    assert!(accepted(&mut Random::new(2), &found) > 1_000);
}

#[test]
fn cases_of_any_size() {
    let mut r = Random::new(3);
    for (scale, count) in [(Scale::Full, 1_000), (Scale::Long, 20)] {
        let found = cases(&Wanted {
            scale,
            large: scale == Scale::Long,
            ..wanted(CHECK, 13, count)
        });
        assert!(accepted(&mut r, &found) > 20);
    }
}

#[test]
fn tables_of_the_figures() {
    let mut r = Random::new(4);
    for shape in heavy::all() {
        let blobs = both(&shape.blob(20_000));
        let found = blobs.map(|blob| check_of(blob, FULL_PLACES, FULL_PLACES));
        assert_eq!(accepted(&mut r, &found), 2, "{}", shape.title);
    }
}

/// The same shapes, short, in any order of their types and with a word or two
/// changed: references lead anywhere, so that the search for rings is long.
#[test]
fn turned_tables_of_the_figures() {
    let mut r = Random::new(5);
    let (mut all, mut kept) = (0, 0);
    for shape in heavy::all() {
        for _ in 0..150 {
            let bytes = r.between(400, 1_200) as usize;
            let mut m = (shape.make)(bytes);
            valid::shuffle(&mut r, &mut m);
            let places = m.count() + 1;
            let mut blob = m.blob();
            for _ in 0..r.below(3) {
                turn_word(&mut r, &mut blob, places);
            }
            let turned = both(&blob)[r.below(2) as usize].clone();
            let found = [check_of(turned, places, places)];
            kept += accepted(&mut r, &found);
            all += 1;
        }
    }
    assert!(kept > all / 4 && kept < all / 4 * 3, "{kept} of {all}");
}

/// A word of the type section is another type's number, or turned a little.
fn turn_word(r: &mut Random, blob: &mut [u8], places: u32) {
    let words = word_at(blob, 12) / 4;
    let at = 24 + 4 * r.below(words) as usize;
    let word = match r.below(4) {
        0 => word_at(blob, at) ^ 1 << r.below(32),
        1 => r.below(8),
        _ => r.below(places + 1),
    };
    put_word(blob, at, word);
}

/// Every order that so many things can stand in.
fn orders(count: usize) -> Vec<Vec<usize>> {
    let mut found = vec![Vec::new()];
    for last in 0..count {
        let put_in = |order: Vec<usize>| {
            (0..=last).map(move |at| [&order[..at], &[last], &order[at..]].concat())
        };
        found = found.into_iter().flat_map(put_in).collect();
    }
    found
}

/// How many orders of a table's types are accepted.
fn accepted_orders(r: &mut Random, m: &Make) -> usize {
    let places = m.count() + 1;
    let in_order = |order: &Vec<usize>| {
        let mut m = m.clone();
        valid::reorder(&mut m, order);
        check_of(m.blob(), places, places)
    };
    let found: Vec<Case> = orders(m.records.len()).iter().map(in_order).collect();
    accepted(r, &found)
}

/// What a record asks of another is known before it, or behind it, or later
/// still: any table of a few types, in every order of them.
#[test]
fn every_order_of_a_few_types() {
    let mut r = Random::new(7);
    let mut tables = 0;
    while tables < 60 {
        let mut m = valid::table(&mut r, Scale::Small);
        let number = r.pick(&[0, 13, 14, 15, 15, 15]);
        if number != 0 {
            damage(&mut r, &mut m, number);
        }
        // damage may add types
        if (3..=6).contains(&m.count()) {
            accepted_orders(&mut r, &m);
            tables += 1;
        }
    }
}

/// A function of two parameters, and a tag of one of them or of one too many.
#[test]
fn tags_in_every_order() {
    for (component, accepted) in [(0, 24), (1, 24), (2, 0), (23, 0), (24, 0), (u32::MAX, 24)] {
        let mut m = Make::new();
        let name = m.string("f");
        let int = m.int(4);
        let prototype = m.proto(int, &[[name, int], [name, int]]);
        let function = m.func(name, prototype);
        m.tag(name, function, component);
        assert_eq!(accepted_orders(&mut Random::new(8), &m), accepted);
    }
}

/// 65,536 of 65,536 of 0 bytes are 0 bytes, and 0 of what is too large are
/// none; without a 0 the variable has no size that fits.
#[test]
fn products_in_every_order() {
    for (counts, accepted) in [
        ([0, 65_536, 65_536], 120),
        ([65_536, 0, 65_536], 120),
        ([65_536, 65_536, 0], 120),
        ([65_536, 65_535, 1], 120),
        ([65_536, 65_536, 1], 0),
    ] {
        let mut m = Make::new();
        let name = m.string("v");
        let index = m.int(1);
        let arrays = counts.iter();
        let last = arrays.fold(index, |of, count| m.array(of, index, *count));
        m.var(name, last);
        assert_eq!(accepted_orders(&mut Random::new(9), &m), accepted);
    }
}

/// With kind_flag 1 a member of no width spans all bytes of its INT, which is
/// regular, and a field has its own width.
#[test]
fn fields_in_every_order() {
    for (offset, width, word, accepted) in [
        (0, 32, field(0, 0), 6),
        (0, 16, field(0, 0), 6),
        (0, 16, field(0, 4), 0),
        (0, 16, field(0, 8), 0),
        (1, 31, field(0, 0), 0),
        (0, 31, field(0, 0), 0),
        (0, 32, field(7, 25), 6),
        (0, 32, field(8, 25), 0),
    ] {
        let mut m = Make::new();
        let name = m.string("m");
        let int = m.odd_int(4, offset, width);
        let other = m.constant(int);
        m.structure(4, true, &[[name, other, word]]);
        assert_eq!(accepted_orders(&mut Random::new(10), &m), accepted);
    }
}

/// Bytes at both ends of what an identifier may have, and between.
const BYTES: [u8; 17] = *b"\0az`{AZ@[09/:_^\x7f\xc1";

/// A name of any length that pieces of four, eight or sixteen bytes make a
/// difference for, with any such byte at any place; in front of another name or
/// at the end of the strings.
#[test]
fn names_of_every_length() {
    let mut found = Vec::new();
    for length in (1..=30).chain(124..=130) {
        for place in 0..length {
            for byte in BYTES {
                let mut text = vec![b'n'; length];
                text[place] = byte;
                let mut m = Make::new();
                let name = m.string(&text);
                if (length + place) % 2 == 0 {
                    m.string("behind");
                }
                m.typedef(name, 0);
                found.push(check_of(m.blob(), 2, 2));
            }
        }
    }
    assert!(accepted(&mut Random::new(11), &found) > 6_000);
}

/// Of a table of two types each slice needs three places.
#[test]
fn slices_of_every_length() {
    let mut m = common::t();
    m.ptr(1);
    let mut found = Vec::new();
    for index_places in 0..6 {
        for work_places in 0..6 {
            found.push(check_of(m.blob(), index_places, work_places));
        }
    }
    assert_eq!(accepted(&mut Random::new(6), &found), 9);
}
