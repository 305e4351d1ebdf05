//! Short calls for the tests.
#![allow(dead_code)]

pub mod lists;
pub mod sections;

use second::changed::changed;
use second::generate::{cases_then, edges, Behind, Scale, Wanted};
use second::limits::{BYTE_LIMIT, FULL_PLACES};
use second::make::Make;
use second::vectors::{file, told_name, Case};
use second::{LeaningRefusal, Report, SizeAnswer};

/// Checks with the most places a table can need.
pub fn gate(blob: &[u8]) -> Result<u32, Report> {
    let mut index = vec![u32::MAX; FULL_PLACES as usize];
    let mut work = vec![u32::MAX; FULL_PLACES as usize];
    let answer = second::check(blob, &mut index, &mut work);
    assert!(work.iter().all(|place| *place == 0));
    assert!(answer.is_ok() || index.iter().all(|place| *place == 0));
    answer
}

pub fn judged(m: &Make) -> Result<u32, Report> {
    gate(&m.blob())
}

pub fn refused(number: u32, type_number: u32, place: u32) -> Result<u32, Report> {
    Err(Report::new(number, type_number, place))
}

/// The size of a type of an accepted table.
pub fn size_in(m: &Make, type_number: u32) -> SizeAnswer {
    let blob = m.blob();
    let mut index = vec![0; m.records.len() + 1];
    let mut work = index.clone();
    second::check(&blob, &mut index, &mut work).expect("accepted");
    second::size(&blob, &index, type_number)
}

pub fn joined(a: &[u8], b: &[u8]) -> Vec<u8> {
    let mut index = vec![0; FULL_PLACES as usize];
    let mut work = vec![0; FULL_PLACES as usize];
    let mut output = vec![165; BYTE_LIMIT as usize];
    let length = second::join(a, b, &mut index, &mut work, &mut output).expect("joined");
    output.truncate(length);
    output
}

/// The paper's T: an INT of two bytes at 24, and its name at 1. 43 bytes, three
/// of them strings.
pub fn t() -> Make {
    let mut m = Make::new();
    let name = m.string("t");
    m.raw(name, 1 << 24, 2, &[0x0100_0010]);
    m
}

/// A module's table as it begins: no types, and no strings of its own.
pub fn without_strings() -> Make {
    Make {
        records: Vec::new(),
        strings: Vec::new(),
    }
}

/// Checks a module's table on its base with the most places both can need.
pub fn lean(base: &[u8], module: &[u8]) -> Result<u32, LeaningRefusal> {
    let mut index = vec![u32::MAX; FULL_PLACES as usize];
    let mut work = vec![u32::MAX; FULL_PLACES as usize];
    let answer = second::check_leaning(base, module, &mut index, &mut work);
    assert!(work.iter().all(|place| *place == 0));
    assert!(answer.is_ok() || index.iter().all(|place| *place == 0));
    answer
}

pub fn on(base: &Make, module: &Make) -> Result<u32, LeaningRefusal> {
    lean(&base.blob(), &module.blob())
}

/// The index that an accepted pair leaves, of as many places as it needs.
pub fn accepted_at(base: &Make, module: &Make) -> Vec<u32> {
    let places = base.records.len() + module.records.len() + 1;
    let (mut index, mut work) = (vec![u32::MAX; places], vec![u32::MAX; places]);
    let (a, b) = (base.blob(), module.blob());
    let count = second::check_leaning(&a, &b, &mut index, &mut work);
    assert_eq!(count, Ok(places as u32 - 1));
    index
}

/// The module's own report.
pub fn refused_by(number: u32, type_number: u32, place: u32) -> Result<u32, LeaningRefusal> {
    let report = Report::new(number, type_number, place);
    Err(LeaningRefusal::Module(report))
}

/// So many small cases of one op.
pub fn wanted(op: u32, seed: u64, cases: usize) -> Wanted {
    Wanted {
        seed,
        cases,
        ops: vec![op],
        scale: Scale::Small,
        ..Wanted::default()
    }
}

/// Cases of two ops behind others, and behind those of an earlier request,
/// leave all of those as they are.
pub fn stand_behind(earlier: fn(usize) -> Behind, own: fn(usize) -> Behind, ops: [u32; 2]) {
    let others = || Wanted {
        ops: vec![1, 2, 3, 4],
        ..wanted(1, 1, 50)
    };
    let front = cases_then(others(), &[earlier(3)]);
    let all = cases_then(others(), &[earlier(3), own(7)]);
    assert_eq!(all[..front.len()], front);
    let behind: Vec<u32> = all[front.len()..].iter().map(|case| case.op).collect();
    assert_eq!(behind, [[ops[0]; 7], [ops[1]; 7]].concat());
}

/// The first case of a part with another answer is told in a line.
pub fn changed_is_told(part: &str, line: &str) {
    let case = edges::cases_of(part, true)[0].clone();
    let old = file(&[case]);
    assert_eq!(changed(&old).unwrap(), "0 of 1 answers changed\n");
    let mut other = old.clone();
    other[old.len() - 28] = 52;
    let told = changed(&other).unwrap();
    assert!(told.starts_with(&format!("     1  {line}\n")), "{told}");
}

/// How many names lie in the base, in the module and nowhere.
pub fn where_names_lie(found: &[Case]) -> [usize; 3] {
    let lies = [[0, 0], [0, 1], [1, 0]];
    lies.map(|lie| {
        found
            .iter()
            .filter(|case| told_name(case)[..2] == lie)
            .count()
    })
}
