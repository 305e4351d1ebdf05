//! The figures of docs/SPEED.md: check through the archive and both ordinary
//! checkers, join and size through the archive beside this implementation.
//! Prints three tables, and behind the first what it says of the goals; each
//! shape is in them at the byte limit and at a quarter of it, so that growth is
//! seen.

use second::archive;
use second::chain::by_value;
use second::check::judge;
use second::generate::heavy::{Shape, NESTED, SHAPES};
use second::generate::heavy_slow::SLOW;
use second::goals::{ratio_to_nested, verdicts, Row, Sort};
use second::limits::BYTE_LIMIT;
use second::table::{Kind, Table};
use second::timing::{
    example, figure, grouped, lent, medians, runs_in_words, shaped, Lent, Subject,
};
use second::yardstick::{Check, CHECKERS};
use std::hint::black_box;

const WHOLE: usize = BYTE_LIMIT as usize;
const QUARTER: usize = WHOLE / 4;

/// A table to time. All checkers must accept it, with the same count.
struct Read {
    of: Subject,
    sort: Sort,
    table: Table,
    index: Vec<u32>,
}

fn main() {
    let mut subjects = vec![read(Sort::Other, example())];
    for (sort, shapes) in [
        (Sort::Nested, &NESTED[..]),
        (Sort::Other, &SHAPES),
        (Sort::Slow, &SLOW),
    ] {
        subjects.extend(shapes.iter().flat_map(|shape| both_lengths(sort, shape)));
    }
    println!("{}\n", runs_in_words());
    print_checks(&subjects);
    print_joins(&subjects);
    print_sizes(&subjects);
}

fn both_lengths(sort: Sort, shape: &Shape) -> [Read; 2] {
    [WHOLE, QUARTER].map(|bytes| read(sort, shaped(shape, bytes)))
}

fn read(sort: Sort, of: Subject) -> Read {
    let mut l = lent_for(&of);
    let table = judge(&of.blob, l.index.len(), l.work.len()).expect(of.title);
    for (name, check) in CHECKERS {
        let answer = check(&of.blob, &mut l.index, &mut l.work);
        assert_eq!(answer, Ok(table.count()), "{name}: {}", of.title);
    }
    archive::check(&of.blob, &mut l.index, &mut l.work, &mut l.answer);
    assert_eq!(l.answer, [0, 0, table.count(), 0], "{}", of.title);
    Read {
        of,
        sort,
        table,
        index: l.index,
    }
}

/// A quarter of full size for a quarter of the bytes or less: both u32 slices
/// are cleared in the time of a call.
fn lent_for(of: &Subject) -> Lent {
    lent(of.blob.len().max(QUARTER))
}

/// One pass that only sums the bytes.
fn sum(blob: &[u8]) {
    let sum: u64 = black_box(blob).iter().map(|byte| u64::from(*byte)).sum();
    black_box(sum);
}

fn print_checks(subjects: &[Read]) {
    let rows: Vec<Row> = subjects.iter().map(timed).collect();
    println!("### check\n");
    println!("| Table | Types | Bytes | archive, µs | ns a type | tuned, µs | ns a type | plain, µs | archive to tuned | to plain | to itself on the nested table |");
    println!("|---|---|---|---|---|---|---|---|---|---|---|");
    for row in &rows {
        println!(
            "| {} | {} | {} | {} | {} | {} | {} | {} | {} | {} | {} |",
            row.title,
            grouped(row.types as usize),
            grouped(row.bytes),
            figure(row.archive / 1_000.0),
            figure(row.archive / f64::from(row.types)),
            figure(row.tuned / 1_000.0),
            figure(row.tuned / f64::from(row.types)),
            figure(row.plain / 1_000.0),
            figure(row.archive / row.tuned),
            figure(row.archive / row.plain),
            ratio_to_nested(&rows, row).map_or(String::new(), figure)
        );
    }
    println!("\n{}", verdicts(&rows));
}

/// The archive and both ordinary checkers by turns.
fn timed(s: &Read) -> Row {
    let [mut k, mut l, mut m] = [0; 3].map(|_| lent_for(&s.of));
    let [(_, tuned), (_, plain)] = CHECKERS;
    let call = |check: Check, l: &mut Lent| {
        let answer = check(black_box(&s.of.blob), &mut l.index, &mut l.work);
        black_box(answer).expect(s.of.title);
    };
    let [archive, tuned, plain] = medians([
        &mut || archive::check(&s.of.blob, &mut k.index, &mut k.work, &mut k.answer),
        &mut || call(tuned, &mut l),
        &mut || call(plain, &mut m),
    ]);
    Row {
        title: s.of.title,
        sort: s.sort,
        types: s.table.count(),
        bytes: s.of.blob.len(),
        archive,
        tuned,
        plain,
    }
}

fn print_joins(subjects: &[Read]) {
    println!("### join\n");
    println!("| Two tables of | Types together | Bytes joined | µs | ns a type | ns a byte | to `second`'s join | to the sum of the bytes |");
    println!("|---|---|---|---|---|---|---|---|");
    for s in subjects {
        let (a, b) = &s.of.pair;
        let (mut l, mut m) = (lent_for(&s.of), lent_for(&s.of));
        let length =
            second::join(a, b, &mut l.index, &mut l.work, &mut l.out).expect(s.of.pair_title);
        let joined = l.out[..length].to_vec();
        let table = judge(&joined, l.index.len(), l.work.len()).expect(s.of.pair_title);
        let times = medians([
            &mut || archive::join(a, b, &mut l.index, &mut l.work, &mut l.out, &mut l.answer),
            &mut || {
                let answer = second::join(black_box(a), b, &mut m.index, &mut m.work, &mut m.out);
                black_box(answer).expect(s.of.pair_title);
            },
            &mut || sum(&joined),
        ]);
        assert_eq!(l.answer, [0, 0, 0, length as u32], "{}", s.of.pair_title);
        print_row(s.of.pair_title, table.count(), length, times);
    }
    println!();
}

/// The times are the archive's, this implementation's and the sum's.
fn print_row(title: &str, types: u32, bytes: usize, times: [f64; 3]) {
    let [own, second, sum] = times;
    println!(
        "| {title} | {} | {} | {} | {} | {} | {} | {} |",
        grouped(types as usize),
        grouped(bytes),
        figure(own / 1_000.0),
        figure(own / f64::from(types)),
        figure(own / bytes as f64),
        figure(own / second),
        figure(own / sum)
    );
}

fn print_sizes(subjects: &[Read]) {
    println!("### size\n");
    println!("| Table | Bytes | Longest walk, records | ns for it | ns a record | to `second`'s size | ns for a type, mean over all |");
    println!("|---|---|---|---|---|---|---|");
    for s in subjects {
        let count = s.table.count();
        let Some(far) = (1..=count).max_by_key(|number| steps(&s.table, *number)) else {
            continue;
        };
        let index = &s.index[..=count as usize];
        let mut answer = [0; 4];
        let mut all = [0; 4];
        let [own, second, all] = medians([
            &mut || archive::size(&s.of.blob, index, far, &mut answer),
            &mut || {
                black_box(second::size(black_box(&s.of.blob), index, far));
            },
            &mut || (1..=count).for_each(|t| archive::size(&s.of.blob, index, t, &mut all)),
        ]);
        let walk = steps(&s.table, far);
        println!(
            "| {} | {} | {} | {} | {} | {} | {} |",
            s.of.title,
            grouped(s.of.blob.len()),
            grouped(walk),
            figure(own),
            figure(own / walk as f64),
            figure(own / second),
            figure(all / f64::from(count))
        );
    }
}

/// How many records the size question reads. A struct's own word is its size.
fn steps(table: &Table, number: u32) -> usize {
    let mut number = number;
    let mut read = 0;
    while let Some(record) = table.record(number) {
        read += 1;
        if matches!(record.kind, Kind::Struct | Kind::Union) {
            break;
        }
        number = by_value(record).first().copied().unwrap_or(0);
    }
    read
}
