//! Sections checked for the tests: the slices end as the check of the table
//! leaves them.

use second::generate::turn::turned_ext;
use second::make::{put_word, Make};
use second::make_ext::MakeExt;
use second::{check_ext, ext_record, ExtRefusal, Report};

/// The number of the answer to a section beside a table.
pub fn beside(table: &[u8], section: &[u8]) -> u32 {
    match answer(table, section, [40, 40]) {
        Ok(()) => 0,
        Err(refusal) => refusal.number(),
    }
}

/// The same with so many places.
pub fn answer(table: &[u8], section: &[u8], places: [usize; 2]) -> Result<(), ExtRefusal> {
    let [mut index, mut work] = places.map(|places| vec![7; places]);
    let answer = check_ext(table, section, &mut index, &mut work);
    let [mut checked, mut cleared] = places.map(|places| vec![9; places]);
    let of_table = second::check(table, &mut checked, &mut cleared);
    assert_eq!((index, work), (checked, cleared));
    let inner = answer.err().and_then(|refusal| refusal.inner());
    assert_eq!(inner, of_table.err());
    answer
}

pub fn inside(table: &[u8], section: &[u8], places: [usize; 2]) -> Report {
    let refusal = answer(table, section, places).expect_err("refused");
    assert_eq!(refusal.number(), 40);
    refusal.inner().expect("a report inside")
}

/// Four bytes of strings; an INT, two prototypes, and FUNCs as types 3 and 5.
pub fn functions() -> Make {
    let mut m = Make::new();
    let name = m.string("ab");
    m.int(4);
    m.proto(0, &[]);
    m.func(name, 2);
    m.proto(1, &[]);
    m.func(name, 4);
    m
}

/// Three parts, two groups each, nothing at fault beside `functions`.
pub fn three_parts() -> MakeExt {
    let mut e = MakeExt::new(3);
    e.group(1, 1, &[[0, 3], [8, 5]]);
    e.group(1, 2, &[[0, 3]]);
    e.group(2, 1, &[[0, 1, 2, 1030], [8, 0, 3, 1]]);
    e.group(2, 0, &[[0, 3, 0, 0]]);
    e.group(3, 1, &[[0, 1, 2, 0], [8, 0, 0, 9]]);
    e.group(3, 3, &[[16, 5, 1, 7]]);
    e
}

/// A word of a part of `three_parts` changed; the answer beside `functions`, in
/// both orders.
pub fn with(changes: &[(usize, usize, u32)]) -> u32 {
    let mut e = three_parts();
    for (part, at, word) in changes {
        e.parts[part - 1][*at] = *word;
    }
    of(&e)
}

/// The answer beside `functions`, in both orders.
pub fn of(e: &MakeExt) -> u32 {
    of_bytes(&e.blob())
}

pub fn of_bytes(section: &[u8]) -> u32 {
    let table = functions().blob();
    let number = beside(&table, section);
    let other = second::generate::turn::turned(&table);
    assert_eq!(beside(&other, &turned_ext(section)), number);
    number
}

/// Words of a header changed: their byte places and what they become.
pub fn with_header(e: &MakeExt, changes: &[(usize, u32)]) -> Vec<u8> {
    let mut section = e.blob();
    for (place, word) in changes {
        put_word(&mut section, *place, *word);
    }
    section
}

/// A record of a section: its group's name, its place and its bytes.
pub fn record(section: &[u8], part: u32, k: u32) -> Option<(u32, usize, Vec<u8>)> {
    let record = ext_record(section, part, k)?;
    Some((record.group_name, record.place, record.bytes.to_vec()))
}
